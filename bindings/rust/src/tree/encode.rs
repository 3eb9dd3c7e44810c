//! From a tree to its sheet.
use super::*;
use std::slice::Iter;

/// The sheet of a tree.
pub(super) fn encoded(tree: &Tree) -> Vec<u8> {
    let mut writer = Writer { bytes: Vec::new(), places: tree.places.iter(), words: [].iter() };
    writer.nodes(&tree.nodes);
    writer.bytes
}

struct Writer<'a> {
    bytes: Vec<u8>,
    /// Those of the records that come.
    places: Iter<'a, Places>,
    /// Those that come in the record being written.
    words: Iter<'a, Word>,
}

impl Writer<'_> {
    fn byte(&mut self, value: u8) {
        self.bytes.push(value);
    }

    /// A count or a place, below 65,536 in every tree that a sheet has.
    fn count(&mut self, value: usize) {
        self.bytes.extend((value as u16).to_be_bytes());
    }

    fn whole(&mut self, value: u32) {
        self.bytes.extend(value.to_be_bytes());
    }

    fn float(&mut self, value: f32) {
        self.whole(value.to_bits());
    }

    fn truth(&mut self, value: bool) {
        self.byte(value.into());
    }

    fn optional<T>(&mut self, value: &Option<T>, write: impl FnOnce(&mut Self, &T)) {
        self.truth(value.is_some());
        if let Some(value) = value {
            write(self, value);
        }
    }

    fn optional_float(&mut self, value: Option<f32>) {
        self.optional(&value, |writer, value| writer.float(*value));
    }

    fn optional_whole(&mut self, value: Option<u32>) {
        self.optional(&value, |writer, value| writer.whole(*value));
    }

    fn next_word(&mut self) -> Word {
        *self.words.next().expect("a place for each name")
    }

    /// The place of the next name or string.
    fn text(&mut self) {
        let word = self.next_word();
        self.count(word.start);
        self.count(word.length);
    }

    fn named(&mut self) {
        let word = self.next_word();
        self.truth(word.variant);
        self.count(word.start);
        self.count(word.length);
    }

    fn easing(&mut self, easing: &EasingSpec) {
        match *easing {
            EasingSpec::Named(_) => {
                self.byte(0);
                self.named();
            }
            EasingSpec::CubicBezier(x1, y1, x2, y2) => {
                self.byte(1);
                [x1, y1, x2, y2].into_iter().for_each(|value| self.float(value));
            }
            EasingSpec::Steps(n) => {
                self.byte(2);
                self.whole(n);
            }
            EasingSpec::Wiggle(n) => {
                self.byte(3);
                self.whole(n);
            }
            EasingSpec::Rough { strength, points } => {
                self.byte(4);
                self.float(strength);
                self.whole(points);
            }
            EasingSpec::SlowMo { linear_ratio, power } => {
                self.byte(5);
                self.float(linear_ratio);
                self.float(power);
            }
        }
    }

    fn optional_easing(&mut self, easing: &Option<EasingSpec>) {
        self.optional(easing, Self::easing);
    }

    fn value(&mut self, value: &ValueExpr) {
        match value {
            ValueExpr::Scalar(value) => {
                self.byte(0);
                self.float(*value);
            }
            ValueExpr::Array(values) => {
                self.byte(1);
                self.count(values.len());
                values.iter().for_each(|value| self.float(*value));
            }
        }
    }

    fn loop_mode(&mut self, mode: &Option<LoopSpec>) {
        self.optional(mode, |writer, mode| match *mode {
            LoopSpec::Once => writer.byte(0),
            LoopSpec::Times(n) => {
                writer.byte(1);
                writer.whole(n);
            }
            LoopSpec::Forever => writer.byte(2),
            LoopSpec::PingPong => writer.byte(3),
            LoopSpec::PingPongTimes(n) => {
                writer.byte(4);
                writer.whole(n);
            }
        });
    }

    fn damping(&mut self, mode: &DampingMode) {
        match *mode {
            DampingMode::CriticallyDamped(stiffness) => {
                self.byte(0);
                self.float(stiffness);
            }
            DampingMode::Overdamped(stiffness, ratio) => {
                self.byte(1);
                self.float(stiffness);
                self.float(ratio);
            }
            DampingMode::Underdamped(stiffness, ratio) => {
                self.byte(2);
                self.float(stiffness);
                self.float(ratio);
            }
        }
    }

    fn pattern(&mut self, pattern: &StaggerPatternSpec) {
        match *pattern {
            StaggerPatternSpec::Grid { cols, rows, origin } => {
                self.byte(0);
                self.whole(cols);
                self.whole(rows);
                self.byte(origin as u8);
            }
            StaggerPatternSpec::Random { seed, min, max } => {
                self.byte(1);
                self.whole(seed);
                self.float(min);
                self.float(max);
            }
            StaggerPatternSpec::CenterOut => self.byte(2),
            StaggerPatternSpec::EdgesIn => self.byte(3),
        }
    }

    fn frame(&mut self, frame: &KeyframeEntry) {
        let (case, time) = match frame.time {
            KeyframeTime::Percent(time) => (0, time),
            KeyframeTime::Seconds(time) => (1, time),
        };
        self.byte(case);
        self.float(time);
        self.value(&frame.value);
        self.optional_easing(&frame.easing);
    }

    /// Their count, and their records.
    fn nodes(&mut self, nodes: &[MotionNode]) {
        self.count(nodes.len());
        nodes.iter().for_each(|node| self.node(node));
    }

    /// The kind and the start of a record.
    fn node(&mut self, node: &MotionNode) {
        let places = self.places.next().expect("places for each record");
        self.words = places.words.iter();
        self.byte(kind(node));
        self.count(places.start);
        self.fields(node);
    }

    fn fields(&mut self, node: &MotionNode) {
        match node {
            MotionNode::Tween(spec) => self.tween(spec),
            MotionNode::Spring(spec) => self.spring(spec),
            MotionNode::Keyframes(spec) => self.keyframes(spec),
            MotionNode::Sequence(nodes) | MotionNode::Parallel(nodes) => self.nodes(nodes),
            MotionNode::Group { mode, nodes } => {
                self.byte(*mode as u8);
                self.nodes(nodes);
            }
            MotionNode::Stagger(spec) => {
                self.optional(&spec.pattern, Self::pattern);
                self.optional_float(spec.delay);
                self.nodes(&spec.nodes);
            }
            MotionNode::Path(spec) => self.path(spec),
            MotionNode::Morph(spec) => self.morph(spec),
            MotionNode::Draw(spec) => self.draw(spec),
            MotionNode::Color(spec) => self.color(spec),
            MotionNode::Waveform(spec) => self.waveform(spec),
            MotionNode::Preset(call) => self.preset(call),
            MotionNode::Label(_) => self.text(),
            MotionNode::At(spec) => {
                self.float(spec.value);
                self.truth(spec.relative);
            }
        }
    }

    fn tween(&mut self, spec: &TweenSpec) {
        self.text();
        self.value(&spec.from);
        self.value(&spec.to);
        self.float(spec.duration);
        self.optional_easing(&spec.easing);
        self.optional_float(spec.delay);
        self.optional_float(spec.time_scale);
        self.loop_mode(&spec.loop_mode);
        self.optional_float(spec.snap);
        self.optional_whole(spec.round);
        self.truth(spec.reverse);
    }

    fn spring(&mut self, spec: &SpringSpec) {
        self.text();
        self.value(&spec.from);
        self.value(&spec.to);
        self.optional(&spec.preset, |writer, preset| writer.byte(*preset as u8));
        self.optional_float(spec.stiffness);
        self.optional_float(spec.damping);
        self.optional_float(spec.mass);
        self.optional(&spec.velocity, Self::value);
        self.optional_float(spec.epsilon);
        self.optional(&spec.integrator, |writer, integrator| writer.byte(*integrator as u8));
        self.optional(&spec.damping_mode, Self::damping);
    }

    fn keyframes(&mut self, spec: &KeyframeSpec) {
        self.text();
        self.count(spec.frames.len());
        spec.frames.iter().for_each(|frame| self.frame(frame));
        self.loop_mode(&spec.loop_mode);
    }

    fn path(&mut self, spec: &PathSpec) {
        self.text();
        self.text();
        self.float(spec.duration);
        self.optional_easing(&spec.easing);
        self.optional(&spec.auto_rotate, |writer, turns| writer.truth(*turns));
        self.optional(&spec.offset, |writer, (start, end)| {
            writer.float(*start);
            writer.float(*end);
        });
        self.loop_mode(&spec.loop_mode);
    }

    fn morph(&mut self, spec: &MorphSpec) {
        self.text();
        self.text();
        self.whole(spec.samples);
        self.float(spec.duration);
        self.optional_easing(&spec.easing);
    }

    fn draw(&mut self, spec: &DrawSpec) {
        self.text();
        self.float(spec.duration);
        self.optional_easing(&spec.easing);
    }

    fn color(&mut self, spec: &ColorSpec) {
        self.text();
        self.text();
        self.text();
        self.float(spec.duration);
        self.byte(spec.space as u8);
        self.optional_easing(&spec.easing);
    }

    fn waveform(&mut self, spec: &WaveformSpec) {
        self.byte(spec.kind as u8);
        self.optional_float(spec.frequency);
        self.optional_float(spec.amplitude);
        self.optional_float(spec.phase);
        self.optional_float(spec.duty_cycle);
        self.optional_whole(spec.seed);
        self.optional_float(spec.smoothness);
        self.optional_float(spec.duration);
    }

    fn preset(&mut self, call: &PresetCall) {
        self.text();
        self.optional_float(call.duration);
        self.optional_easing(&call.easing);
    }
}

/// A node's kind in a sheet.
fn kind(node: &MotionNode) -> u8 {
    match node {
        MotionNode::Tween(_) => 0,
        MotionNode::Spring(_) => 1,
        MotionNode::Keyframes(_) => 2,
        MotionNode::Sequence(_) => 3,
        MotionNode::Parallel(_) => 4,
        MotionNode::Group { .. } => 5,
        MotionNode::Stagger(_) => 6,
        MotionNode::Path(_) => 7,
        MotionNode::Morph(_) => 8,
        MotionNode::Draw(_) => 9,
        MotionNode::Color(_) => 10,
        MotionNode::Waveform(_) => 11,
        MotionNode::Preset(_) => 12,
        MotionNode::Label(_) => 13,
        MotionNode::At(_) => 14,
    }
}
