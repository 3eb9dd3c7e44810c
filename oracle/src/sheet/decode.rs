//! From a sheet to its tree, by 01's rules and 02 (a).

use super::to_snake_case;
use crate::ast::*;
use proc_macro2::Span;

const SHEET_LIMIT: usize = 65_535;
const CONTAINER_LIMIT: usize = 16;

/// The tree that `sheet` encodes, or none if it is no sheet for `text`.
pub fn decode(text: &[u8], sheet: &[u8]) -> Option<Vec<MotionNode>> {
    walk(text, sheet).map(|(nodes, _)| nodes)
}

/// The sizes of the records of `sheet`, or none if it is no sheet for `text`.
pub fn record_sizes(text: &[u8], sheet: &[u8]) -> Option<Vec<usize>> {
    let (_, starts) = walk(text, sheet)?;
    Some(starts.windows(2).map(|pair| pair[1] - pair[0]).collect())
}

/// The tree, and the places where its records start, with the sheet's length.
fn walk(text: &[u8], sheet: &[u8]) -> Option<(Vec<MotionNode>, Vec<usize>)> {
    if sheet.len() > SHEET_LIMIT {
        return None;
    }
    let mut reader = Reader { text, rest: sheet, left: vec![sheet.len()] };
    let count = reader.count()?;
    let nodes = reader.nodes(count, 0)?;
    reader.left.push(0);
    let starts = reader.left.iter().map(|left| sheet.len() - left).collect();
    reader.rest.is_empty().then_some((nodes, starts))
}

struct Reader<'a> {
    text: &'a [u8],
    rest: &'a [u8],
    /// The bytes left where each record starts.
    left: Vec<usize>,
}

impl Reader<'_> {
    fn take<const N: usize>(&mut self) -> Option<[u8; N]> {
        let (head, rest) = self.rest.split_at_checked(N)?;
        self.rest = rest;
        head.try_into().ok()
    }

    fn byte(&mut self) -> Option<u8> {
        self.take::<1>().map(|[byte]| byte)
    }

    fn count(&mut self) -> Option<usize> {
        self.take().map(|bytes| u16::from_be_bytes(bytes) as usize)
    }

    fn whole(&mut self) -> Option<u32> {
        self.take().map(u32::from_be_bytes)
    }

    fn float(&mut self) -> Option<f32> {
        self.whole().map(f32::from_bits)
    }

    fn truth(&mut self) -> Option<bool> {
        self.case(&[false, true])
    }

    /// A byte that is the position of one of `cases`.
    fn case<T: Copy>(&mut self, cases: &[T]) -> Option<T> {
        let position = self.byte()?;
        cases.get(position as usize).copied()
    }

    fn optional<T>(&mut self, read: impl Fn(&mut Self) -> Option<T>) -> Option<Option<T>> {
        if self.truth()? { read(self).map(Some) } else { Some(None) }
    }

    fn text(&mut self) -> Option<String> {
        let start = self.count()?;
        let length = self.count()?;
        let bytes = self.text.get(start..start + length)?;
        Some(String::from_utf8(bytes.to_vec()).expect("ASCII"))
    }

    fn named(&mut self) -> Option<EasingSpec> {
        let path = self.truth()?;
        let name = self.text()?;
        Some(EasingSpec::Named(if path { to_snake_case(&name) } else { name }))
    }

    fn easing(&mut self) -> Option<EasingSpec> {
        Some(match self.byte()? {
            0 => self.named()?,
            1 => EasingSpec::CubicBezier(self.float()?, self.float()?, self.float()?, self.float()?),
            2 => EasingSpec::Steps(self.whole()?),
            3 => EasingSpec::Wiggle(self.whole()?),
            4 => EasingSpec::Rough { strength: self.float()?, points: self.whole()? },
            5 => EasingSpec::SlowMo { linear_ratio: self.float()?, power: self.float()? },
            _ => return None,
        })
    }

    fn value(&mut self) -> Option<ValueExpr> {
        Some(match self.byte()? {
            0 => ValueExpr::Scalar(self.float()?),
            1 => {
                let count = self.count()?;
                ValueExpr::Array((0..count).map(|_| self.float()).collect::<Option<_>>()?)
            }
            _ => return None,
        })
    }

    fn loop_mode(&mut self) -> Option<LoopSpec> {
        Some(match self.byte()? {
            0 => LoopSpec::Once,
            1 => LoopSpec::Times(self.whole()?),
            2 => LoopSpec::Forever,
            3 => LoopSpec::PingPong,
            4 => LoopSpec::PingPongTimes(self.whole()?),
            _ => return None,
        })
    }

    fn damping(&mut self) -> Option<DampingMode> {
        Some(match self.byte()? {
            0 => DampingMode::CriticallyDamped(self.float()?),
            1 => DampingMode::Overdamped(self.float()?, self.float()?),
            2 => DampingMode::Underdamped(self.float()?, self.float()?),
            _ => return None,
        })
    }

    fn origin(&mut self) -> Option<GridOriginSpec> {
        use GridOriginSpec::*;
        self.case(&[TopLeft, TopRight, BottomLeft, BottomRight, Center, Top, Bottom, Left, Right])
    }

    fn pattern(&mut self) -> Option<StaggerPatternSpec> {
        Some(match self.byte()? {
            0 => StaggerPatternSpec::Grid {
                cols: self.whole()?,
                rows: self.whole()?,
                origin: self.origin()?,
            },
            1 => StaggerPatternSpec::Random {
                seed: self.whole()?,
                min: self.float()?,
                max: self.float()?,
            },
            2 => StaggerPatternSpec::CenterOut,
            3 => StaggerPatternSpec::EdgesIn,
            _ => return None,
        })
    }

    fn frame(&mut self) -> Option<KeyframeEntry> {
        let time = match self.byte()? {
            0 => KeyframeTime::Percent(self.float()?),
            1 => KeyframeTime::Seconds(self.float()?),
            _ => return None,
        };
        Some(KeyframeEntry { time, value: self.value()?, easing: self.optional(Self::easing)? })
    }

    /// `count` nodes inside `depth` containers.
    fn nodes(&mut self, count: usize, depth: usize) -> Option<Vec<MotionNode>> {
        (0..count).map(|_| self.node(depth)).collect()
    }

    fn children(&mut self, depth: usize) -> Option<Vec<MotionNode>> {
        let count = self.count()?;
        if depth == CONTAINER_LIMIT { None } else { self.nodes(count, depth + 1) }
    }

    /// The start of a node's keyword: a place in the text.
    fn start(&mut self) -> Option<usize> {
        let start = self.count()?;
        (start < self.text.len()).then_some(start)
    }

    fn node(&mut self, depth: usize) -> Option<MotionNode> {
        self.left.push(self.rest.len());
        let kind = self.byte()?;
        self.start()?;
        Some(match kind {
            0 => MotionNode::Tween(self.tween()?),
            1 => MotionNode::Spring(self.spring()?),
            2 => MotionNode::Keyframes(self.keyframes()?),
            3 => MotionNode::Sequence(self.children(depth)?),
            4 => MotionNode::Parallel(self.children(depth)?),
            5 => MotionNode::Group {
                mode: self.case(&[GroupMode::Sequence, GroupMode::Parallel])?,
                nodes: self.children(depth)?,
            },
            6 => MotionNode::Stagger(StaggerSpec {
                pattern: self.optional(Self::pattern)?,
                delay: self.optional(Self::float)?,
                nodes: self.children(depth)?,
                span: Span::call_site(),
            }),
            7 => MotionNode::Path(self.path()?),
            8 => MotionNode::Morph(self.morph()?),
            9 => MotionNode::Draw(self.draw()?),
            10 => MotionNode::Color(self.color()?),
            11 => MotionNode::Waveform(self.waveform()?),
            12 => MotionNode::Preset(self.preset()?),
            13 => MotionNode::Label(self.text()?),
            14 => MotionNode::At(AtSpec { value: self.float()?, relative: self.truth()? }),
            _ => return None,
        })
    }

    // Fields are read in the order written, which is ast.rs' order.

    fn tween(&mut self) -> Option<TweenSpec> {
        Some(TweenSpec {
            target: self.text()?,
            from: self.value()?,
            to: self.value()?,
            duration: self.float()?,
            easing: self.optional(Self::easing)?,
            delay: self.optional(Self::float)?,
            time_scale: self.optional(Self::float)?,
            loop_mode: self.optional(Self::loop_mode)?,
            snap: self.optional(Self::float)?,
            round: self.optional(Self::whole)?,
            reverse: self.truth()?,
            span: Span::call_site(),
        })
    }

    fn spring(&mut self) -> Option<SpringSpec> {
        use SpringPreset::*;
        Some(SpringSpec {
            target: self.text()?,
            from: self.value()?,
            to: self.value()?,
            preset: self.optional(|r| r.case(&[Gentle, Wobbly, Stiff, Slow, Snappy]))?,
            stiffness: self.optional(Self::float)?,
            damping: self.optional(Self::float)?,
            mass: self.optional(Self::float)?,
            velocity: self.optional(Self::value)?,
            epsilon: self.optional(Self::float)?,
            integrator: self.optional(|r| {
                r.case(&[IntegratorSpec::SemiImplicitEuler, IntegratorSpec::RungeKutta4])
            })?,
            damping_mode: self.optional(Self::damping)?,
            span: Span::call_site(),
        })
    }

    fn keyframes(&mut self) -> Option<KeyframeSpec> {
        let target = self.text()?;
        let count = self.count()?;
        let frames = (0..count).map(|_| self.frame()).collect::<Option<_>>()?;
        let loop_mode = self.optional(Self::loop_mode)?;
        Some(KeyframeSpec { target, frames, loop_mode, span: Span::call_site() })
    }

    fn path(&mut self) -> Option<PathSpec> {
        Some(PathSpec {
            target: self.text()?,
            svg: self.text()?,
            duration: self.float()?,
            easing: self.optional(Self::easing)?,
            auto_rotate: self.optional(Self::truth)?,
            offset: self.optional(|r| Some((r.float()?, r.float()?)))?,
            loop_mode: self.optional(Self::loop_mode)?,
            span: Span::call_site(),
        })
    }

    fn morph(&mut self) -> Option<MorphSpec> {
        Some(MorphSpec {
            from: self.text()?,
            to: self.text()?,
            samples: self.whole()?,
            duration: self.float()?,
            easing: self.optional(Self::easing)?,
            span: Span::call_site(),
        })
    }

    fn draw(&mut self) -> Option<DrawSpec> {
        Some(DrawSpec {
            svg: self.text()?,
            duration: self.float()?,
            easing: self.optional(Self::easing)?,
            span: Span::call_site(),
        })
    }

    fn color(&mut self) -> Option<ColorSpec> {
        Some(ColorSpec {
            target: self.text()?,
            from: self.text()?,
            to: self.text()?,
            duration: self.float()?,
            space: self.case(&[ColorSpace::Linear, ColorSpace::Lab, ColorSpace::Oklch])?,
            easing: self.optional(Self::easing)?,
            span: Span::call_site(),
        })
    }

    fn waveform(&mut self) -> Option<WaveformSpec> {
        use WaveformKind::*;
        Some(WaveformSpec {
            kind: self.case(&[Sine, Sawtooth, Square, Triangle, Noise])?,
            frequency: self.optional(Self::float)?,
            amplitude: self.optional(Self::float)?,
            phase: self.optional(Self::float)?,
            duty_cycle: self.optional(Self::float)?,
            seed: self.optional(Self::whole)?,
            smoothness: self.optional(Self::float)?,
            duration: self.optional(Self::float)?,
            span: Span::call_site(),
        })
    }

    fn preset(&mut self) -> Option<PresetCall> {
        Some(PresetCall {
            name: self.text()?,
            duration: self.optional(Self::float)?,
            easing: self.optional(Self::easing)?,
            span: Span::call_site(),
        })
    }
}
