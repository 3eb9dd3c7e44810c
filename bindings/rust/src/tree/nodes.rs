//! The types of the nodes: those of animato-macro's ast.rs, under its names and in its order, spans left out. Its last six types, those
//! of values and choices, are in values.rs.
use super::values::{DampingMode, EasingSpec, IntegratorSpec, LoopSpec, SpringPreset, ValueExpr};

/// A node. Its kind in a sheet is its position here, tween 0 to at 14.
#[derive(Clone, Debug, PartialEq)]
pub enum MotionNode {
    /// `tween p: 0 => 1 duration: 1`
    Tween(TweenSpec),
    /// `spring p: 0 => 1 preset: snappy`
    Spring(SpringSpec),
    /// `keyframes p {0%: 0, 50%: 0.7 ease_out_cubic, 1s: 1}`
    Keyframes(KeyframeSpec),
    /// `sequence {..}`
    Sequence(Vec<MotionNode>),
    /// `parallel {..}`
    Parallel(Vec<MotionNode>),
    /// `group sequence {..}` or `group parallel {..}`
    Group {
        /// One after another, or all at once.
        mode: GroupMode,
        /// The nodes in it.
        nodes: Vec<MotionNode>,
    },
    /// `stagger delay: 0.05 {..}`
    Stagger(StaggerSpec),
    /// `path p along "M0 0 L9 9" duration: 1`
    Path(PathSpec),
    /// `morph "M0 0" => "M9 9" duration: 1`
    Morph(MorphSpec),
    /// `draw "M0 0 L9 9" duration: 1`
    Draw(DrawSpec),
    /// `color p: "red" => "#00F" duration: 1`
    Color(ColorSpec),
    /// `waveform sine frequency: 2`
    Waveform(WaveformSpec),
    /// `preset fade_in`
    Preset(PresetCall),
    /// `label "intro"`
    Label(String),
    /// `at 1.25` or `at +0.2`
    At(AtSpec),
}

/// How a group plays.
#[derive(Clone, Copy, Debug, PartialEq, Eq)]
pub enum GroupMode {
    /// One after another.
    Sequence,
    /// All at once.
    Parallel,
}

/// A tween.
#[derive(Clone, Debug, PartialEq)]
pub struct TweenSpec {
    /// The property.
    pub target: String,
    /// Its first value.
    pub from: ValueExpr,
    /// Its last value.
    pub to: ValueExpr,
    /// In seconds.
    pub duration: f32,
    /// The curve.
    pub easing: Option<EasingSpec>,
    /// In seconds, before it starts.
    pub delay: Option<f32>,
    /// A factor of its speed.
    pub time_scale: Option<f32>,
    /// Whether and how it repeats.
    pub loop_mode: Option<LoopSpec>,
    /// Values are multiples of this.
    pub snap: Option<f32>,
    /// Values are rounded to so many decimals.
    pub round: Option<u32>,
    /// Whether it plays backwards.
    pub reverse: bool,
}

/// A spring.
#[derive(Clone, Debug, PartialEq)]
pub struct SpringSpec {
    /// The property.
    pub target: String,
    /// Its first value.
    pub from: ValueExpr,
    /// The value it comes to rest at.
    pub to: ValueExpr,
    /// A named spring, whose numbers those below override.
    pub preset: Option<SpringPreset>,
    /// The stiffness.
    pub stiffness: Option<f32>,
    /// The damping.
    pub damping: Option<f32>,
    /// The mass.
    pub mass: Option<f32>,
    /// The velocity at the start.
    pub velocity: Option<ValueExpr>,
    /// The distance at which it has settled.
    pub epsilon: Option<f32>,
    /// The method of integration.
    pub integrator: Option<IntegratorSpec>,
    /// The damping by a ratio.
    pub damping_mode: Option<DampingMode>,
}

/// A keyframe track.
#[derive(Clone, Debug, PartialEq)]
pub struct KeyframeSpec {
    /// The property.
    pub target: String,
    /// The entries, in the text's order.
    pub frames: Vec<KeyframeEntry>,
    /// Whether and how it repeats.
    pub loop_mode: Option<LoopSpec>,
}

/// An entry of a track.
#[derive(Clone, Debug, PartialEq)]
pub struct KeyframeEntry {
    /// When.
    pub time: KeyframeTime,
    /// The value then.
    pub value: ValueExpr,
    /// The curve from here to the next entry.
    pub easing: Option<EasingSpec>,
}

/// The time of an entry.
#[derive(Clone, Copy, Debug, PartialEq)]
pub enum KeyframeTime {
    /// `50%`, as 0.5.
    Percent(f32),
    /// `0.25` or `0.25s`.
    Seconds(f32),
}

/// Nodes that start one after another.
#[derive(Clone, Debug, PartialEq)]
pub struct StaggerSpec {
    /// The order of their starts.
    pub pattern: Option<StaggerPatternSpec>,
    /// In seconds, from start to start.
    pub delay: Option<f32>,
    /// The nodes in it.
    pub nodes: Vec<MotionNode>,
}

/// The order in which the nodes of a stagger start.
#[derive(Clone, Debug, PartialEq)]
pub enum StaggerPatternSpec {
    /// `grid(cols: 4, rows: 3, origin: center)`
    Grid {
        /// How many columns.
        cols: u32,
        /// How many rows.
        rows: u32,
        /// Where it begins.
        origin: GridOriginSpec,
    },
    /// `random(seed: 42, min: 0.02, max: 0.12)`
    Random {
        /// The seed.
        seed: u32,
        /// The least delay, in seconds.
        min: f32,
        /// The greatest delay, in seconds.
        max: f32,
    },
    /// `center_out`
    CenterOut,
    /// `edges_in`
    EdgesIn,
}

/// The cells of a grid that start first.
#[derive(Clone, Copy, Debug, PartialEq, Eq)]
pub enum GridOriginSpec {
    /// The cell at the top left.
    TopLeft,
    /// The cell at the top right.
    TopRight,
    /// The cell at the bottom left.
    BottomLeft,
    /// The cell at the bottom right.
    BottomRight,
    /// The cells in the middle.
    Center,
    /// The top row.
    Top,
    /// The bottom row.
    Bottom,
    /// The left column.
    Left,
    /// The right column.
    Right,
}

/// A motion along a path.
#[derive(Clone, Debug, PartialEq)]
pub struct PathSpec {
    /// The property.
    pub target: String,
    /// The path, in SVG's notation.
    pub svg: String,
    /// In seconds.
    pub duration: f32,
    /// The curve.
    pub easing: Option<EasingSpec>,
    /// Whether it turns with the path.
    pub auto_rotate: Option<bool>,
    /// The parts of the path's length at which it starts and ends.
    pub offset: Option<(f32, f32)>,
    /// Whether and how it repeats.
    pub loop_mode: Option<LoopSpec>,
}

/// A shape that becomes another.
#[derive(Clone, Debug, PartialEq)]
pub struct MorphSpec {
    /// The first shape's path.
    pub from: String,
    /// The last shape's path.
    pub to: String,
    /// How many points are taken of each.
    pub samples: u32,
    /// In seconds.
    pub duration: f32,
    /// The curve.
    pub easing: Option<EasingSpec>,
}

/// A path that is drawn.
#[derive(Clone, Debug, PartialEq)]
pub struct DrawSpec {
    /// The path, in SVG's notation.
    pub svg: String,
    /// In seconds.
    pub duration: f32,
    /// The curve.
    pub easing: Option<EasingSpec>,
}

/// A colour that becomes another.
#[derive(Clone, Debug, PartialEq)]
pub struct ColorSpec {
    /// The property.
    pub target: String,
    /// The first colour, a name or a `#` form.
    pub from: String,
    /// The last colour.
    pub to: String,
    /// In seconds.
    pub duration: f32,
    /// The space that the colours between them are taken in.
    pub space: ColorSpace,
    /// The curve.
    pub easing: Option<EasingSpec>,
}

/// A colour space.
#[derive(Clone, Copy, Debug, Default, PartialEq, Eq)]
pub enum ColorSpace {
    /// Linear RGB.
    #[default]
    Linear,
    /// CIE L*a*b*.
    Lab,
    /// Oklch.
    Oklch,
}

/// A waveform.
#[derive(Clone, Debug, PartialEq)]
pub struct WaveformSpec {
    /// Its kind.
    pub kind: WaveformKind,
    /// Periods a second.
    pub frequency: Option<f32>,
    /// The peak.
    pub amplitude: Option<f32>,
    /// In radians.
    pub phase: Option<f32>,
    /// The part of a period that a square is at its peak.
    pub duty_cycle: Option<f32>,
    /// The seed of noise.
    pub seed: Option<u32>,
    /// The smoothness of noise.
    pub smoothness: Option<f32>,
    /// In seconds.
    pub duration: Option<f32>,
}

/// The kind of a waveform.
#[derive(Clone, Copy, Debug, PartialEq, Eq)]
pub enum WaveformKind {
    /// A sine.
    Sine,
    /// A ramp.
    Sawtooth,
    /// Two values by turns.
    Square,
    /// A ramp up and down.
    Triangle,
    /// Retired: a sheet may hold it, and reading gives none.
    Noise,
}

/// A preset that is called.
#[derive(Clone, Debug, PartialEq)]
pub struct PresetCall {
    /// The preset.
    pub name: String,
    /// In seconds, in the place of its own.
    pub duration: Option<f32>,
    /// The curve, in the place of its own.
    pub easing: Option<EasingSpec>,
}

/// A place in time.
#[derive(Clone, Debug, PartialEq)]
pub struct AtSpec {
    /// In seconds.
    pub value: f32,
    /// Whether it counts from the node before it, being written with a sign.
    pub relative: bool,
}
