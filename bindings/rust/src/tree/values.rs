//! The types of values and choices, the last six of animato-macro's ast.rs, under its names and in its order.

/// One number or several.
#[derive(Clone, Debug, PartialEq)]
pub enum ValueExpr {
    /// One.
    Scalar(f32),
    /// Several, as `[0, 20]`.
    Array(Vec<f32>),
}

impl ValueExpr {
    /// How many numbers it has.
    ///
    /// ```
    /// use strip::tree::ValueExpr;
    /// assert_eq!(ValueExpr::Scalar(0.5).component_count(), 1);
    /// assert_eq!(ValueExpr::Array(vec![0.0, 20.0]).component_count(), 2);
    /// ```
    pub fn component_count(&self) -> usize {
        match self {
            Self::Scalar(_) => 1,
            Self::Array(v) => v.len(),
        }
    }
}

/// A curve.
#[derive(Clone, Debug, PartialEq)]
pub enum EasingSpec {
    /// `ease_out_cubic`; `Easing::EaseOutCubic` has this name too.
    Named(String),
    /// `cubic_bezier(x1, y1, x2, y2)`
    CubicBezier(f32, f32, f32, f32),
    /// `steps(n)`
    Steps(u32),
    /// `wiggle(n)`
    Wiggle(u32),
    /// `rough(strength: s, points: n)`
    Rough {
        /// How far it strays.
        strength: f32,
        /// How often.
        points: u32,
    },
    /// `slowmo(linear_ratio: r, power: p)`
    SlowMo {
        /// The part of time that is slow.
        linear_ratio: f32,
        /// How sharply it speeds up at the ends.
        power: f32,
    },
}

/// Whether and how something repeats.
#[derive(Clone, Copy, Debug, PartialEq)]
pub enum LoopSpec {
    /// `once`
    Once,
    /// `times(n)`
    Times(u32),
    /// `forever`
    Forever,
    /// `ping_pong`
    PingPong,
    /// `ping_pong(n)`
    PingPongTimes(u32),
}

/// A named spring.
#[derive(Clone, Copy, Debug, PartialEq, Eq)]
pub enum SpringPreset {
    /// Soft.
    Gentle,
    /// It swings.
    Wobbly,
    /// Firm.
    Stiff,
    /// Slow.
    Slow,
    /// Quick.
    Snappy,
}

/// A method of integration.
#[derive(Clone, Copy, Debug, PartialEq, Eq)]
pub enum IntegratorSpec {
    /// Euler's, semi-implicit.
    SemiImplicitEuler,
    /// Runge's and Kutta's, of order 4.
    RungeKutta4,
}

/// Damping by a ratio.
#[derive(Clone, Copy, Debug, PartialEq)]
pub enum DampingMode {
    /// `critically_damped(stiffness)`
    CriticallyDamped(f32),
    /// `overdamped(stiffness, ratio)`
    Overdamped(f32, f32),
    /// `underdamped(stiffness, ratio)`
    Underdamped(f32, f32),
}
