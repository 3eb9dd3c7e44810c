//! The tree of a script: its fields, its places, and the sheet again.
mod cases;

use cases::{Random, bytes, stored};
use strip::tree::*;
use strip::{Refusal, Refused, TEXT_BYTES, Workspace};

/// The nodes of a script, which is encoded again.
fn nodes(text: &str) -> Vec<MotionNode> {
    let sheet = Workspace::new().read(text.as_bytes()).unwrap_or_else(|refused| panic!("{text}: {refused}"));
    let tree = sheet.tree().unwrap();
    assert_eq!(tree.encode(), sheet.bytes(), "{text}");
    tree.into_nodes()
}

fn named(name: &str) -> Option<EasingSpec> {
    Some(EasingSpec::Named(name.to_string()))
}

#[test]
fn a_tween_has_its_fields() {
    let fields = "easing: Easing::EaseInOutBack delay: 4 time_scale: 5 loop: times(6) snap: 7 round: 8 reverse: true";
    let tween = TweenSpec {
        target: "p".to_string(),
        from: ValueExpr::Scalar(-0.5),
        to: ValueExpr::Array(vec![1.0, 2.0]),
        duration: 3.0,
        easing: named("ease_in_out_back"),
        delay: Some(4.0),
        time_scale: Some(5.0),
        loop_mode: Some(LoopSpec::Times(6)),
        snap: Some(7.0),
        round: Some(8),
        reverse: true,
    };
    assert_eq!(nodes(&format!("tween p: -0.5 => [1, 2] duration: 3 {fields}")), [MotionNode::Tween(tween)]);
}

#[test]
fn a_spring_has_its_fields() {
    let fields = "stiffness: 2 damping: 3 mass: 4 velocity: [5] epsilon: 6 integrator: rk4 overdamped: (7, 8)";
    let spring = SpringSpec {
        target: "p".to_string(),
        from: ValueExpr::Scalar(0.0),
        to: ValueExpr::Scalar(1.0),
        preset: Some(SpringPreset::Slow),
        stiffness: Some(2.0),
        damping: Some(3.0),
        mass: Some(4.0),
        velocity: Some(ValueExpr::Array(vec![5.0])),
        epsilon: Some(6.0),
        integrator: Some(IntegratorSpec::RungeKutta4),
        damping_mode: Some(DampingMode::Overdamped(7.0, 8.0)),
    };
    assert_eq!(nodes(&format!("spring p: 0 => 1 preset: slow {fields}")), [MotionNode::Spring(spring)]);
}

#[test]
fn a_track_has_its_entries() {
    let entry = |time, value, easing| KeyframeEntry { time, value, easing };
    let frames = vec![
        entry(KeyframeTime::Percent(0.25), ValueExpr::Scalar(1.0), named("linear")),
        entry(KeyframeTime::Seconds(2.0), ValueExpr::Array(vec![]), named("ease_in_quad")),
        entry(KeyframeTime::Seconds(0.5), ValueExpr::Scalar(3.0), None),
    ];
    let track = KeyframeSpec { target: "p".to_string(), frames, loop_mode: Some(LoopSpec::PingPong) };
    let text = "keyframes p {25%: 1 linear, 2s: [] Easing::EaseInQuad, 0.5: 3, loop: ping_pong}";
    assert_eq!(nodes(text), [MotionNode::Keyframes(track)]);
}

#[test]
fn containers_have_their_nodes() {
    let label = |name: &str| MotionNode::Label(name.to_string());
    let at = |value, relative| MotionNode::At(AtSpec { value, relative });
    assert_eq!(nodes("sequence {label \"a b\"; at -1} at 2"), [MotionNode::Sequence(vec![label("a b"), at(-1.0, true)]), at(2.0, false)]);
    assert_eq!(nodes("parallel {sequence {}}"), [MotionNode::Parallel(vec![MotionNode::Sequence(vec![])])]);
    let group = |mode| MotionNode::Group { mode, nodes: vec![label("")] };
    assert_eq!(nodes("group sequence {label \"\";}"), [group(GroupMode::Sequence)]);
    assert_eq!(nodes("group parallel {label \"\";}"), [group(GroupMode::Parallel)]);
    let pattern = Some(StaggerPatternSpec::Random { seed: 1, min: 2.0, max: 3.0 });
    let stagger = StaggerSpec { pattern, delay: Some(4.0), nodes: vec![at(5.0, false)] };
    assert_eq!(nodes("stagger pattern: random(seed: 1, min: 2, max: 3), delay: 4 {at 5}"), [MotionNode::Stagger(stagger)]);
}

#[test]
fn paths_morphs_and_drawings_have_their_fields() {
    let path = PathSpec {
        target: "p".to_string(),
        svg: "M0 0".to_string(),
        duration: 1.0,
        easing: Some(EasingSpec::SlowMo { linear_ratio: 0.5, power: 2.0 }),
        auto_rotate: Some(false),
        offset: Some((0.25, 0.75)),
        loop_mode: Some(LoopSpec::Forever),
    };
    let easing = "easing: slowmo(linear_ratio: 0.5, power: 2)";
    let text = format!("path p along \"M0 0\" duration: 1 {easing} auto_rotate: false offset: 0.25..0.75 loop: forever");
    assert_eq!(nodes(&text), [MotionNode::Path(path)]);
    let rough = Some(EasingSpec::Rough { strength: 0.5, points: 9 });
    let morph = MorphSpec { from: "a".to_string(), to: "b".to_string(), samples: 7, duration: 2.0, easing: rough };
    let text = "morph \"a\" => \"b\" samples: 7 duration: 2 easing: rough(strength: 0.5, points: 9)";
    assert_eq!(nodes(text), [MotionNode::Morph(morph)]);
    let draw = DrawSpec { svg: "c".to_string(), duration: 3.0, easing: Some(EasingSpec::CubicBezier(1.0, 2.0, 3.0, 4.0)) };
    assert_eq!(nodes("draw \"c\" duration: 3 easing: cubic_bezier(1, 2, 3, 4)"), [MotionNode::Draw(draw)]);
}

#[test]
fn colours_waveforms_and_presets_have_their_fields() {
    let (from, to) = ("red".to_string(), "#00F".to_string());
    let steps = Some(EasingSpec::Steps(3));
    let color = ColorSpec { target: "p".to_string(), from, to, duration: 1.0, space: ColorSpace::Oklch, easing: steps };
    let text = "color p: \"red\" => \"#00F\" duration: 1 space: oklch easing: steps(3)";
    assert_eq!(nodes(text), [MotionNode::Color(color)]);
    let waveform = WaveformSpec {
        kind: WaveformKind::Square,
        frequency: Some(1.0),
        amplitude: Some(2.0),
        phase: Some(3.0),
        duty_cycle: Some(0.5),
        seed: Some(4),
        smoothness: Some(5.0),
        duration: Some(6.0),
    };
    let text = "waveform square frequency: 1 amplitude: 2 phase: 3 duty_cycle: 0.5 seed: 4 smoothness: 5 duration: 6";
    assert_eq!(nodes(text), [MotionNode::Waveform(waveform)]);
    let call = PresetCall { name: "fade_in".to_string(), duration: Some(2.0), easing: Some(EasingSpec::Wiggle(4)) };
    assert_eq!(nodes("preset fade_in(duration: 2, easing: wiggle(4))"), [MotionNode::Preset(call)]);
}

/// Of a choice, what stands before and behind its word, how `{:?}` prints it with `*` for the case, and each word with its case.
type Choice = (&'static str, &'static str, &'static str, &'static [(&'static str, &'static str)]);

#[rustfmt::skip]
const CHOICES: [Choice; 9] = [
    ("spring p: 0 => 1 preset: ", "", "preset: Some(*)",
        &[("gentle", "Gentle"), ("wobbly", "Wobbly"), ("stiff", "Stiff"), ("slow", "Slow"), ("snappy", "Snappy")]),
    ("spring p: 0 => 1 integrator: ", "", "integrator: Some(*)",
        &[("semi_implicit_euler", "SemiImplicitEuler"), ("rk4", "RungeKutta4")]),
    ("spring p: 0 => 1 ", "(1, 2)", "damping_mode: Some(*(1.0, 2.0))",
        &[("overdamped:", "Overdamped"), ("underdamped:", "Underdamped")]),
    ("spring p: 0 => 1 ", "(1)", "damping_mode: Some(*(1.0))", &[("critically_damped:", "CriticallyDamped")]),
    ("waveform ", "", "kind: *,", &[("sine", "Sine"), ("sawtooth", "Sawtooth"), ("square", "Square"), ("triangle", "Triangle")]),
    ("color p: \"\" => \"\" duration: 1 space: ", "", "space: *,", &[("linear", "Linear"), ("lab", "Lab"), ("oklch", "Oklch")]),
    ("tween p: 0 => 1 duration: 1 loop: ", "", "loop_mode: Some(*)",
        &[("once", "Once"), ("times(3)", "Times(3)"), ("forever", "Forever"), ("ping_pong", "PingPong"), ("ping_pong(4)", "PingPongTimes(4)")]),
    ("stagger pattern: ", "{}", "pattern: Some(*)", &[("center_out", "CenterOut"), ("edges_in", "EdgesIn")]),
    ("stagger pattern: grid(cols: 1, rows: 2, origin: ", ") {}", "Grid { cols: 1, rows: 2, origin: * }",
        &[("top_left", "TopLeft"), ("top_right", "TopRight"), ("bottom_left", "BottomLeft"), ("bottom_right", "BottomRight"),
          ("center", "Center"), ("top", "Top"), ("bottom", "Bottom"), ("left", "Left"), ("right", "Right")]),
];

#[test]
fn each_word_of_a_choice_is_its_case() {
    for (front, back, field, words) in CHOICES {
        for (word, case) in words {
            let printed = format!("{:?}", nodes(&format!("{front}{word}{back}")));
            assert!(printed.contains(&field.replace('*', case)), "{word}: {printed}");
        }
    }
}

#[test]
fn what_reading_never_gives_is_decoded_too() {
    let noise = [0, 1, 11, 0, 0, 4, 0, 0, 0, 0, 0, 0, 0];
    let tree = Tree::decode(b"waveform", &noise).unwrap();
    assert!(matches!(tree.nodes(), [MotionNode::Waveform(WaveformSpec { kind: WaveformKind::Noise, .. })]));
    assert_eq!(tree.encode(), noise);
    // a time that is a signalling NaN
    let track = [0, 1, 2, 0, 0, 0, 0, 0, 1, 0, 1, 1, 0x7F, 0x80, 0, 1, 0, 0xFF, 0xC0, 0, 7, 0, 0];
    let tree = Tree::decode(b"keyframes", &track).unwrap();
    let [MotionNode::Keyframes(spec)] = tree.nodes() else { panic!("{tree:?}") };
    assert!(matches!(spec.frames[0].time, KeyframeTime::Seconds(time) if time.to_bits() == 0x7F80_0001));
    assert_eq!(tree.encode(), track);
}

#[test]
fn places_are_told_by_record() {
    let text = b"sequence {\n path p along \"M0\" duration: 1 easing: Easing::Linear\n}\nlabel \"\";";
    let tree = Workspace::new().read(text).unwrap().tree().unwrap();
    let word = |start, length, variant| Word { start, length, variant };
    let words = vec![word(17, 1, false), word(26, 2, false), word(58, 6, true)];
    assert_eq!(tree.places(1), Some(&Places { start: 0, words: vec![] }));
    assert_eq!(tree.places(2), Some(&Places { start: 12, words }));
    assert_eq!(tree.places(3), Some(&Places { start: 67, words: vec![word(74, 0, false)] }));
    assert_eq!((tree.places(0), tree.places(4), tree.node(0), tree.node(4)), (None, None, None, None));
    assert!(matches!(tree.node(1), Some(MotionNode::Sequence(nodes)) if tree.node(2) == nodes.first()));
    assert_eq!(tree.preorder().count(), 3);
}

#[test]
fn what_is_no_sheet_has_no_tree() {
    let refused = |refusal, place| Err(Refused { refusal, place });
    assert_eq!(Tree::decode(&vec![b' '; TEXT_BYTES + 1], &[0, 0]), refused(Refusal::TextTooLong, 0));
    assert_eq!(Tree::decode(b"a\xFF", &[0, 0]), refused(Refusal::BadForm, 1));
    for sheet in [&[][..], &[0], &[0, 0, 0], &[0, 1, 13, 0, 0, 0, 1, 0, 4], &[0, 1, 14, 0, 4, 0, 0, 0, 0, 0]] {
        assert_eq!(Tree::decode(b"at 1", sheet), refused(Refusal::NotASheet, 0));
    }
}

/// Reads a text, and if it is accepted compares its tree's sheet with the one read.
fn comes_back(workspace: &mut Workspace, text: &[u8]) -> bool {
    let Ok(sheet) = workspace.read(text) else { return false };
    let tree = sheet.tree().unwrap();
    assert_eq!(tree.encode(), sheet.bytes(), "{}", String::from_utf8_lossy(text));
    assert_eq!(tree.preorder().count(), sheet.records());
    for ordinal in [0, 1, sheet.records(), sheet.records() + 1] {
        assert_eq!(tree.places(ordinal).map(|places| places.start), sheet.start(ordinal as u32));
    }
    true
}

#[test]
fn stored_scripts_come_back() {
    let mut workspace = Workspace::new();
    for (kind, least) in [("script", 1000), ("number", 500)] {
        let texts = stored(kind).0;
        let count = texts.lines().filter(|text| comes_back(&mut workspace, &bytes(text))).count();
        assert!(count >= least, "{kind}: {count}");
    }
}

/// Scripts made of the stored ones that reading accepts, some in containers. STRIP_GENERATED says how many, 500 if unset.
#[test]
fn generated_scripts_come_back() {
    let wanted: usize = std::env::var("STRIP_GENERATED").map_or(500, |count| count.parse().unwrap());
    let mut workspace = Workspace::new();
    let texts: Vec<Vec<u8>> = stored("script").0.lines().map(bytes).collect();
    let texts: Vec<&Vec<u8>> = texts.iter().filter(|text| text.len() < 4000 && workspace.read(text).is_ok()).collect();
    let (mut random, mut accepted) = (Random::new(), 0);
    while accepted < wanted {
        let mut script = Vec::new();
        for _ in 0..1 + random.below(4) {
            let text = texts[random.below(texts.len())];
            let (front, back) = [("", ""), ("sequence {", "}"), ("group parallel {", "}"), ("stagger delay: 1 {", "}")][random.below(4)];
            script.extend([front.as_bytes(), text, b";", back.as_bytes(), b"\n"].concat());
        }
        accepted += usize::from(comes_back(&mut workspace, &script));
    }
}
