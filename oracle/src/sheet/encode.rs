//! From a tree to its sheet.

use super::to_snake_case;
use crate::ast::*;
use crate::places::{EasingPart, NodeParts, Part};

/// The nodes' keywords, by kind.
const KEYWORDS: [&str; 15] = [
    "tween", "spring", "keyframes", "sequence", "parallel", "group", "stagger", "path", "morph",
    "draw", "color", "waveform", "preset", "label", "at",
];

/// How names and strings are written.
pub enum Names<'a> {
    /// Their own bytes, after their length; a node has no start. For comparisons only.
    Inline,
    /// Start and length in the text, which must hold the tree's string there;
    /// else the sheet is not right.
    Parts { text: &'a [u8], nodes: std::slice::Iter<'a, NodeParts>, node: NodeParts },
}

impl<'a> Names<'a> {
    pub fn parts(text: &'a [u8], nodes: &'a [NodeParts]) -> Self {
        Names::Parts { text, nodes: nodes.iter(), node: NodeParts::default() }
    }
}

/// A sheet, and where in it some of its fields lie.
#[derive(Default)]
pub struct Sheet {
    pub bytes: Vec<u8>,
    /// The count of node records.
    pub records: usize,
    pub starts: Vec<usize>,
    pub floats: Vec<usize>,
    pub parts: Vec<usize>,
    /// A keyword or a string had no place, or a count was too large.
    pub wrong: bool,
}

pub fn encode(nodes: &[MotionNode], names: Names) -> Sheet {
    let mut writer = Writer { out: Sheet::default(), names };
    writer.count(nodes.len());
    writer.nodes(nodes);
    if let Names::Parts { nodes, .. } = &mut writer.names {
        assert!(nodes.next().is_none(), "a node too many was noted");
    }
    writer.out
}

struct Writer<'a> {
    out: Sheet,
    names: Names<'a>,
}

impl Writer<'_> {
    fn byte(&mut self, value: u8) {
        self.out.bytes.push(value);
    }

    fn count(&mut self, value: usize) {
        self.out.wrong |= value > 65_535;
        self.out.bytes.extend((value as u16).to_be_bytes());
    }

    fn whole(&mut self, value: u32) {
        self.out.bytes.extend(value.to_be_bytes());
    }

    fn float(&mut self, value: f32) {
        self.out.floats.push(self.out.bytes.len());
        self.whole(value.to_bits());
    }

    fn truth(&mut self, value: bool) {
        self.byte(value as u8);
    }

    fn optional<T: Copy>(&mut self, value: Option<T>, write: fn(&mut Self, T)) {
        self.truth(value.is_some());
        if let Some(value) = value {
            write(self, value);
        }
    }

    /// A node's kind, and the start of its keyword, which the text must hold there.
    fn kind(&mut self, kind: u8) {
        self.byte(kind);
        let Names::Parts { text, node, .. } = &self.names else { return };
        let keyword = node.keyword;
        self.out.wrong |= keyword.of(text) != KEYWORDS[kind as usize].as_bytes();
        self.out.starts.push(self.out.bytes.len());
        self.count(keyword.start);
    }

    fn part(&mut self, part: Part) {
        self.out.parts.push(self.out.bytes.len());
        self.count(part.start);
        self.count(part.length);
    }

    fn inline(&mut self, value: &str) {
        self.count(value.len());
        self.out.bytes.extend(value.as_bytes());
    }

    /// A name, or a string if `quoted`.
    fn text(&mut self, value: &str, quoted: bool) {
        let Names::Parts { text, node, .. } = &mut self.names else {
            return self.inline(value);
        };
        let whole = node.names.remove(0);
        let cut = quoted as usize;
        let part = Part { start: whole.start + cut, length: whole.length - 2 * cut };
        self.out.wrong |= part.of(text) != value.as_bytes();
        self.part(part);
    }

    fn named(&mut self, value: &str, index: usize) {
        let Names::Parts { text, node, .. } = &mut self.names else {
            return self.inline(value);
        };
        let EasingPart { path, part } = node.easings[index];
        let written = std::str::from_utf8(part.of(text)).expect("a name");
        let kept = if path { to_snake_case(written) } else { written.to_string() };
        self.out.wrong |= kept != value;
        self.truth(path);
        self.part(part);
    }

    /// The easing at `index` among those taken in this node.
    fn easing(&mut self, easing: &EasingSpec, index: usize) {
        match easing {
            EasingSpec::Named(name) => {
                self.byte(0);
                self.named(name, index);
            }
            EasingSpec::CubicBezier(x1, y1, x2, y2) => {
                self.byte(1);
                [x1, y1, x2, y2].into_iter().for_each(|value| self.float(*value));
            }
            EasingSpec::Steps(n) => {
                self.byte(2);
                self.whole(*n);
            }
            EasingSpec::Wiggle(n) => {
                self.byte(3);
                self.whole(*n);
            }
            EasingSpec::Rough { strength, points } => {
                self.byte(4);
                self.float(*strength);
                self.whole(*points);
            }
            EasingSpec::SlowMo { linear_ratio, power } => {
                self.byte(5);
                self.float(*linear_ratio);
                self.float(*power);
            }
        }
    }

    /// A node's own easing: the last one taken.
    fn last_easing(&mut self, easing: &Option<EasingSpec>) {
        self.truth(easing.is_some());
        if let Some(easing) = easing {
            let index = match &self.names {
                Names::Inline => 0,
                Names::Parts { node, .. } => node.easings.len() - 1,
            };
            self.easing(easing, index);
        }
    }

    fn value(&mut self, value: &ValueExpr) {
        match value {
            ValueExpr::Scalar(value) => {
                self.byte(0);
                self.float(*value);
            }
            ValueExpr::Array(values) => {
                self.byte(1);
                self.count(values.len());
                values.iter().for_each(|value| self.float(*value));
            }
        }
    }

    fn loop_mode(&mut self, mode: LoopSpec) {
        match mode {
            LoopSpec::Once => self.byte(0),
            LoopSpec::Times(n) => {
                self.byte(1);
                self.whole(n);
            }
            LoopSpec::Forever => self.byte(2),
            LoopSpec::PingPong => self.byte(3),
            LoopSpec::PingPongTimes(n) => {
                self.byte(4);
                self.whole(n);
            }
        }
    }

    fn damping(&mut self, mode: DampingMode) {
        let (case, first, second) = match mode {
            DampingMode::CriticallyDamped(s) => (0, s, None),
            DampingMode::Overdamped(s, r) => (1, s, Some(r)),
            DampingMode::Underdamped(s, r) => (2, s, Some(r)),
        };
        self.byte(case);
        self.float(first);
        if let Some(ratio) = second {
            self.float(ratio);
        }
    }

    fn pattern(&mut self, pattern: &StaggerPatternSpec) {
        match pattern {
            StaggerPatternSpec::Grid { cols, rows, origin } => {
                self.byte(0);
                self.whole(*cols);
                self.whole(*rows);
                self.byte(*origin as u8);
            }
            StaggerPatternSpec::Random { seed, min, max } => {
                self.byte(1);
                self.whole(*seed);
                self.float(*min);
                self.float(*max);
            }
            StaggerPatternSpec::CenterOut => self.byte(2),
            StaggerPatternSpec::EdgesIn => self.byte(3),
        }
    }

    fn frame(&mut self, frame: &KeyframeEntry, easings: &mut usize) {
        let (case, time) = match frame.time {
            KeyframeTime::Percent(time) => (0, time),
            KeyframeTime::Seconds(time) => (1, time),
        };
        self.byte(case);
        self.float(time);
        self.value(&frame.value);
        self.truth(frame.easing.is_some());
        if let Some(easing) = &frame.easing {
            self.easing(easing, *easings);
            *easings += 1;
        }
    }

    fn nodes(&mut self, nodes: &[MotionNode]) {
        nodes.iter().for_each(|node| self.node(node));
    }

    fn node(&mut self, motion: &MotionNode) {
        self.out.records += 1;
        if let Names::Parts { nodes, node, .. } = &mut self.names {
            assert!(node.names.is_empty(), "a name too many was noted");
            *node = nodes.next().expect("a node was noted").clone();
        }
        self.record(motion);
    }

    fn record(&mut self, motion: &MotionNode) {
        match motion {
            MotionNode::Tween(spec) => self.tween(spec),
            MotionNode::Spring(spec) => self.spring(spec),
            MotionNode::Keyframes(spec) => self.keyframes(spec),
            MotionNode::Sequence(nodes) => {
                self.kind(3);
                self.children(nodes);
            }
            MotionNode::Parallel(nodes) => {
                self.kind(4);
                self.children(nodes);
            }
            MotionNode::Group { mode, nodes } => {
                self.kind(5);
                self.byte(*mode as u8);
                self.children(nodes);
            }
            MotionNode::Stagger(spec) => self.stagger(spec),
            MotionNode::Path(spec) => self.path(spec),
            MotionNode::Morph(spec) => self.morph(spec),
            MotionNode::Draw(spec) => self.draw(spec),
            MotionNode::Color(spec) => self.color(spec),
            MotionNode::Waveform(spec) => self.waveform(spec),
            MotionNode::Preset(call) => self.preset(call),
            MotionNode::Label(text) => {
                self.kind(13);
                self.text(text, true);
            }
            MotionNode::At(spec) => {
                self.kind(14);
                self.float(spec.value);
                self.truth(spec.relative);
            }
        }
    }

    fn children(&mut self, nodes: &[MotionNode]) {
        self.count(nodes.len());
        self.nodes(nodes);
    }

    fn tween(&mut self, spec: &TweenSpec) {
        self.kind(0);
        self.text(&spec.target, false);
        self.value(&spec.from);
        self.value(&spec.to);
        self.float(spec.duration);
        self.last_easing(&spec.easing);
        self.optional(spec.delay, Self::float);
        self.optional(spec.time_scale, Self::float);
        self.optional(spec.loop_mode, Self::loop_mode);
        self.optional(spec.snap, Self::float);
        self.optional(spec.round, Self::whole);
        self.truth(spec.reverse);
    }

    fn spring(&mut self, spec: &SpringSpec) {
        self.kind(1);
        self.text(&spec.target, false);
        self.value(&spec.from);
        self.value(&spec.to);
        self.optional(spec.preset.map(|p| p as u8), Self::byte);
        self.optional(spec.stiffness, Self::float);
        self.optional(spec.damping, Self::float);
        self.optional(spec.mass, Self::float);
        self.truth(spec.velocity.is_some());
        if let Some(velocity) = &spec.velocity {
            self.value(velocity);
        }
        self.optional(spec.epsilon, Self::float);
        self.optional(spec.integrator.map(|i| i as u8), Self::byte);
        self.optional(spec.damping_mode, Self::damping);
    }

    fn keyframes(&mut self, spec: &KeyframeSpec) {
        self.kind(2);
        self.text(&spec.target, false);
        self.count(spec.frames.len());
        let mut easings = 0;
        for frame in &spec.frames {
            self.frame(frame, &mut easings);
        }
        self.optional(spec.loop_mode, Self::loop_mode);
    }

    fn stagger(&mut self, spec: &StaggerSpec) {
        self.kind(6);
        self.truth(spec.pattern.is_some());
        if let Some(pattern) = &spec.pattern {
            self.pattern(pattern);
        }
        self.optional(spec.delay, Self::float);
        self.children(&spec.nodes);
    }

    fn path(&mut self, spec: &PathSpec) {
        self.kind(7);
        self.text(&spec.target, false);
        self.text(&spec.svg, true);
        self.float(spec.duration);
        self.last_easing(&spec.easing);
        self.optional(spec.auto_rotate, Self::truth);
        self.optional(spec.offset, |writer, (start, end)| {
            writer.float(start);
            writer.float(end);
        });
        self.optional(spec.loop_mode, Self::loop_mode);
    }

    fn morph(&mut self, spec: &MorphSpec) {
        self.kind(8);
        self.text(&spec.from, true);
        self.text(&spec.to, true);
        self.whole(spec.samples);
        self.float(spec.duration);
        self.last_easing(&spec.easing);
    }

    fn draw(&mut self, spec: &DrawSpec) {
        self.kind(9);
        self.text(&spec.svg, true);
        self.float(spec.duration);
        self.last_easing(&spec.easing);
    }

    fn color(&mut self, spec: &ColorSpec) {
        self.kind(10);
        self.text(&spec.target, false);
        self.text(&spec.from, true);
        self.text(&spec.to, true);
        self.float(spec.duration);
        self.byte(spec.space as u8);
        self.last_easing(&spec.easing);
    }

    fn waveform(&mut self, spec: &WaveformSpec) {
        self.kind(11);
        self.byte(spec.kind as u8);
        self.optional(spec.frequency, Self::float);
        self.optional(spec.amplitude, Self::float);
        self.optional(spec.phase, Self::float);
        self.optional(spec.duty_cycle, Self::float);
        self.optional(spec.seed, Self::whole);
        self.optional(spec.smoothness, Self::float);
        self.optional(spec.duration, Self::float);
    }

    fn preset(&mut self, call: &PresetCall) {
        self.kind(12);
        self.text(&call.name, false);
        self.optional(call.duration, Self::float);
        self.last_easing(&call.easing);
    }
}
