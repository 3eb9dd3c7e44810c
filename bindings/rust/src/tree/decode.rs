//! From a sheet to its tree.
use super::*;

/// The longest sheet, in bytes.
const SHEET_LIMIT: usize = 65_535;
/// The most containers inside one another.
const CONTAINER_LIMIT: usize = 16;

/// The tree of a sheet and its places, by record; none if the bytes are no sheet for the text.
pub(super) fn decoded(text: &[u8], sheet: &[u8]) -> Option<Tree> {
    if sheet.len() > SHEET_LIMIT {
        return None;
    }
    let mut reader = Reader { text, rest: sheet, places: Vec::new() };
    let nodes = reader.nodes(0)?;
    reader.rest.is_empty().then_some(Tree { nodes, places: reader.places })
}

struct Reader<'a> {
    text: &'a [u8],
    rest: &'a [u8],
    /// Those of the records up to here; the last is that of the record being read.
    places: Vec<Places>,
}

impl Reader<'_> {
    fn take<const N: usize>(&mut self) -> Option<[u8; N]> {
        let (head, rest) = self.rest.split_first_chunk()?;
        self.rest = rest;
        Some(*head)
    }

    fn byte(&mut self) -> Option<u8> {
        self.take().map(|[byte]| byte)
    }

    fn count(&mut self) -> Option<usize> {
        self.take().map(|bytes| u16::from_be_bytes(bytes).into())
    }

    fn whole(&mut self) -> Option<u32> {
        self.take().map(u32::from_be_bytes)
    }

    fn float(&mut self) -> Option<f32> {
        self.whole().map(f32::from_bits)
    }

    fn truth(&mut self) -> Option<bool> {
        self.case(&[false, true])
    }

    /// A byte that is the position of one of `cases`.
    fn case<T: Copy>(&mut self, cases: &[T]) -> Option<T> {
        let position = self.byte()?;
        cases.get(usize::from(position)).copied()
    }

    fn optional<T>(&mut self, read: impl FnOnce(&mut Self) -> Option<T>) -> Option<Option<T>> {
        if self.truth()? { read(self).map(Some) } else { Some(None) }
    }

    fn several<T>(&mut self, read: impl Fn(&mut Self) -> Option<T>) -> Option<Vec<T>> {
        let count = self.count()?;
        (0..count).map(|_| read(self)).collect()
    }

    /// A name or a string, whose place is kept.
    fn word(&mut self, variant: bool) -> Option<String> {
        let word = Word { start: self.count()?, length: self.count()?, variant };
        self.places.last_mut()?.words.push(word);
        let bytes = self.text.get(word.start..word.start + word.length)?;
        String::from_utf8(bytes.to_vec()).ok()
    }

    fn text(&mut self) -> Option<String> {
        self.word(false)
    }

    fn named(&mut self) -> Option<EasingSpec> {
        let variant = self.truth()?;
        let name = self.word(variant)?;
        Some(EasingSpec::Named(if variant { snake_case(&name) } else { name }))
    }

    fn easing(&mut self) -> Option<EasingSpec> {
        Some(match self.byte()? {
            0 => self.named()?,
            1 => EasingSpec::CubicBezier(self.float()?, self.float()?, self.float()?, self.float()?),
            2 => EasingSpec::Steps(self.whole()?),
            3 => EasingSpec::Wiggle(self.whole()?),
            4 => EasingSpec::Rough { strength: self.float()?, points: self.whole()? },
            5 => EasingSpec::SlowMo { linear_ratio: self.float()?, power: self.float()? },
            _ => return None,
        })
    }

    fn value(&mut self) -> Option<ValueExpr> {
        Some(match self.byte()? {
            0 => ValueExpr::Scalar(self.float()?),
            1 => ValueExpr::Array(self.several(Self::float)?),
            _ => return None,
        })
    }

    fn loop_mode(&mut self) -> Option<LoopSpec> {
        Some(match self.byte()? {
            0 => LoopSpec::Once,
            1 => LoopSpec::Times(self.whole()?),
            2 => LoopSpec::Forever,
            3 => LoopSpec::PingPong,
            4 => LoopSpec::PingPongTimes(self.whole()?),
            _ => return None,
        })
    }

    fn damping(&mut self) -> Option<DampingMode> {
        Some(match self.byte()? {
            0 => DampingMode::CriticallyDamped(self.float()?),
            1 => DampingMode::Overdamped(self.float()?, self.float()?),
            2 => DampingMode::Underdamped(self.float()?, self.float()?),
            _ => return None,
        })
    }

    fn origin(&mut self) -> Option<GridOriginSpec> {
        use GridOriginSpec::*;
        self.case(&[TopLeft, TopRight, BottomLeft, BottomRight, Center, Top, Bottom, Left, Right])
    }

    fn pattern(&mut self) -> Option<StaggerPatternSpec> {
        Some(match self.byte()? {
            0 => StaggerPatternSpec::Grid { cols: self.whole()?, rows: self.whole()?, origin: self.origin()? },
            1 => StaggerPatternSpec::Random { seed: self.whole()?, min: self.float()?, max: self.float()? },
            2 => StaggerPatternSpec::CenterOut,
            3 => StaggerPatternSpec::EdgesIn,
            _ => return None,
        })
    }

    fn frame(&mut self) -> Option<KeyframeEntry> {
        let time = match self.byte()? {
            0 => KeyframeTime::Percent(self.float()?),
            1 => KeyframeTime::Seconds(self.float()?),
            _ => return None,
        };
        Some(KeyframeEntry { time, value: self.value()?, easing: self.optional(Self::easing)? })
    }

    /// A count, and so many nodes inside `depth` containers.
    fn nodes(&mut self, depth: usize) -> Option<Vec<MotionNode>> {
        if depth > CONTAINER_LIMIT { None } else { self.several(|reader| reader.node(depth)) }
    }

    fn node(&mut self, depth: usize) -> Option<MotionNode> {
        let (kind, start) = (self.byte()?, self.count()?);
        if start >= self.text.len() {
            return None;
        }
        self.places.push(Places { start, words: Vec::new() });
        Some(match kind {
            0 => MotionNode::Tween(self.tween()?),
            1 => MotionNode::Spring(self.spring()?),
            2 => MotionNode::Keyframes(self.keyframes()?),
            3 => MotionNode::Sequence(self.nodes(depth + 1)?),
            4 => MotionNode::Parallel(self.nodes(depth + 1)?),
            5 => MotionNode::Group { mode: self.case(&[GroupMode::Sequence, GroupMode::Parallel])?, nodes: self.nodes(depth + 1)? },
            6 => MotionNode::Stagger(StaggerSpec {
                pattern: self.optional(Self::pattern)?,
                delay: self.optional(Self::float)?,
                nodes: self.nodes(depth + 1)?,
            }),
            7 => MotionNode::Path(self.path()?),
            8 => MotionNode::Morph(self.morph()?),
            9 => MotionNode::Draw(self.draw()?),
            10 => MotionNode::Color(self.color()?),
            11 => MotionNode::Waveform(self.waveform()?),
            12 => MotionNode::Preset(self.preset()?),
            13 => MotionNode::Label(self.text()?),
            14 => MotionNode::At(AtSpec { value: self.float()?, relative: self.truth()? }),
            _ => return None,
        })
    }

    // Fields are read in the order written, which is the sheet's.

    fn tween(&mut self) -> Option<TweenSpec> {
        Some(TweenSpec {
            target: self.text()?,
            from: self.value()?,
            to: self.value()?,
            duration: self.float()?,
            easing: self.optional(Self::easing)?,
            delay: self.optional(Self::float)?,
            time_scale: self.optional(Self::float)?,
            loop_mode: self.optional(Self::loop_mode)?,
            snap: self.optional(Self::float)?,
            round: self.optional(Self::whole)?,
            reverse: self.truth()?,
        })
    }

    fn spring(&mut self) -> Option<SpringSpec> {
        use IntegratorSpec::*;
        use SpringPreset::*;
        Some(SpringSpec {
            target: self.text()?,
            from: self.value()?,
            to: self.value()?,
            preset: self.optional(|reader| reader.case(&[Gentle, Wobbly, Stiff, Slow, Snappy]))?,
            stiffness: self.optional(Self::float)?,
            damping: self.optional(Self::float)?,
            mass: self.optional(Self::float)?,
            velocity: self.optional(Self::value)?,
            epsilon: self.optional(Self::float)?,
            integrator: self.optional(|reader| reader.case(&[SemiImplicitEuler, RungeKutta4]))?,
            damping_mode: self.optional(Self::damping)?,
        })
    }

    fn keyframes(&mut self) -> Option<KeyframeSpec> {
        Some(KeyframeSpec { target: self.text()?, frames: self.several(Self::frame)?, loop_mode: self.optional(Self::loop_mode)? })
    }

    fn path(&mut self) -> Option<PathSpec> {
        Some(PathSpec {
            target: self.text()?,
            svg: self.text()?,
            duration: self.float()?,
            easing: self.optional(Self::easing)?,
            auto_rotate: self.optional(Self::truth)?,
            offset: self.optional(|reader| Some((reader.float()?, reader.float()?)))?,
            loop_mode: self.optional(Self::loop_mode)?,
        })
    }

    fn morph(&mut self) -> Option<MorphSpec> {
        Some(MorphSpec {
            from: self.text()?,
            to: self.text()?,
            samples: self.whole()?,
            duration: self.float()?,
            easing: self.optional(Self::easing)?,
        })
    }

    fn draw(&mut self) -> Option<DrawSpec> {
        Some(DrawSpec { svg: self.text()?, duration: self.float()?, easing: self.optional(Self::easing)? })
    }

    fn color(&mut self) -> Option<ColorSpec> {
        Some(ColorSpec {
            target: self.text()?,
            from: self.text()?,
            to: self.text()?,
            duration: self.float()?,
            space: self.case(&[ColorSpace::Linear, ColorSpace::Lab, ColorSpace::Oklch])?,
            easing: self.optional(Self::easing)?,
        })
    }

    fn waveform(&mut self) -> Option<WaveformSpec> {
        use WaveformKind::*;
        Some(WaveformSpec {
            kind: self.case(&[Sine, Sawtooth, Square, Triangle, Noise])?,
            frequency: self.optional(Self::float)?,
            amplitude: self.optional(Self::float)?,
            phase: self.optional(Self::float)?,
            duty_cycle: self.optional(Self::float)?,
            seed: self.optional(Self::whole)?,
            smoothness: self.optional(Self::float)?,
            duration: self.optional(Self::float)?,
        })
    }

    fn preset(&mut self) -> Option<PresetCall> {
        Some(PresetCall { name: self.text()?, duration: self.optional(Self::float)?, easing: self.optional(Self::easing)? })
    }
}

/// A variant of `Easing` as the name that it stands for: `EaseOutCubic` is `ease_out_cubic`.
fn snake_case(name: &str) -> String {
    let mut result = String::new();
    for (at, letter) in name.char_indices() {
        if letter.is_ascii_uppercase() && at > 0 {
            result.push('_');
        }
        result.push(letter.to_ascii_lowercase());
    }
    result
}
