//! The refusals: their numbers, names and causes.
use std::error::Error;
use std::fmt;

/// Makes the enum, and from the same list its numbers, names and causes.
macro_rules! refusals {
    ($($name:ident = $number:literal, $cause:literal;)*) => {
        /// A cause of refusal. Its value is its number; it is displayed as its cause.
        #[derive(Clone, Copy, Debug, PartialEq, Eq, Hash)]
        #[non_exhaustive]
        #[repr(u8)]
        pub enum Refusal {
            $(#[doc = $cause] $name = $number,)*
        }

        impl Refusal {
            /// All of them, by their numbers.
            pub const ALL: &'static [Refusal] = &[$(Refusal::$name,)*];

            /// The refusal with a number.
            ///
            /// ```
            /// assert_eq!(strip::Refusal::of(6), Some(strip::Refusal::Missing));
            /// assert_eq!(strip::Refusal::of(0), None);
            /// ```
            pub const fn of(number: u8) -> Option<Refusal> {
                match number {
                    $($number => Some(Refusal::$name),)*
                    _ => None,
                }
            }

            /// Its name.
            ///
            /// ```
            /// assert_eq!(strip::Refusal::DuplicateTime.name(), "DuplicateTime");
            /// ```
            pub const fn name(self) -> &'static str {
                match self {
                    $(Refusal::$name => stringify!($name),)*
                }
            }

            /// Its cause, in words.
            ///
            /// ```
            /// assert_eq!(strip::Refusal::TooFewFrames.cause(), "a track of fewer than 2 frames");
            /// ```
            pub const fn cause(self) -> &'static str {
                match self {
                    $(Refusal::$name => $cause,)*
                }
            }
        }
    };
}

refusals! {
    TextTooLong = 1, "a text of more than 16,384 bytes";
    BadForm = 2, "a byte or a form outside the text rules";
    TooManyDigits = 3, "a number with more than 40 digits before or after its point";
    Unbalanced = 4, "a closer without its opener, or an opener that is not closed";
    TooManyOpen = 5, "a 65th opener while 64 are open";
    Missing = 6, "a name, mark, string, whole number, truth value or delimiter is missing";
    UnknownKeyword = 7, "an unknown word for a node, or an unknown field";
    Malformed = 8, "a number or a word that does not go where it stands";
    UnknownSpringPreset = 9, "an unknown spring preset";
    MissingDuration = 10, "a node that needs a duration has none";
    StaggerGridIncomplete = 11, "a grid without its columns or rows";
    TooManyNested = 12, "a 17th container inside 16 others";
    Leftover = 13, "tokens left inside a delimiter";
    SheetTooShort = 14, "a sheet slice that is shorter than the encoding";
    NoiseWritten = 15, "a waveform of the kind noise, in a text";
    ScratchTooShort = 16, "a scratch of fewer than 64 words";
    NotASheet = 20, "bytes that are no sheet for the text";
    OutOfRange = 21, "a number outside its range";
    ValueTypeMismatch = 22, "two values of different counts of numbers";
    UnknownEasing = 23, "an unknown easing";
    UnknownPreset = 24, "an unknown preset";
    InvalidColor = 25, "a colour that is neither a name nor a `#` form";
    DuplicateTime = 26, "two keyframes of a track at the same time";
    TooFewFrames = 27, "a track of fewer than 2 frames";
    NoiseHeld = 28, "a waveform of the kind noise, in a sheet";
    NoSuchRecord = 31, "no record has the ordinal";
    OutputTooShort = 32, "an output slice that is shorter than what is to be written";
    TooManyScripts = 33, "a 4,097th script, or totals with a figure above the limit";
    Unwritable = 34, "no text without an exponent reads to the tree of a sheet";
    ScriptTooLong = 35, "a script of more than 16,384 bytes, or longer than the buffer";
    UnknownList = 36, "a list of colours other than 1 and 2";
    NameTwice = 37, "two items of a book with the same name";
    TooManyItems = 38, "a 129th item in a book";
    RingOfCalls = 39, "a chain of calls in a book that comes round to its start";
    NotPlaned = 40, "the bytes are the planed form of no sheet for the text";
    NotDrawn = 41, "a waveform that is not drawn: noise, or a number that is no kind";
    PhaseTooLarge = 42, "a phase of 256 or more";
    NoSuchItem = 43, "neither book has the name";
}

impl Refusal {
    /// Its number.
    ///
    /// ```
    /// assert_eq!(strip::Refusal::DuplicateTime.number(), 26);
    /// ```
    pub const fn number(self) -> u8 {
        self as u8
    }
}

impl fmt::Display for Refusal {
    fn fmt(&self, f: &mut fmt::Formatter) -> fmt::Result {
        f.write_str(self.cause())
    }
}

/// A refusal and its place, the error of every operation.
///
/// ```
/// use strip::{Refusal, Refused, Workspace};
///
/// let refused = Workspace::new().read(b"at 0.5; tween").unwrap_err();
/// assert_eq!(refused, Refused { refusal: Refusal::Missing, place: 13 });
/// let words = "a name, mark, string, whole number, truth value or delimiter is missing";
/// assert_eq!(refused.to_string(), format!("refused with 6 at 13: {words}"));
/// let _: Box<dyn std::error::Error> = refused.into();
/// ```
#[derive(Clone, Copy, Debug, PartialEq, Eq, Hash)]
pub struct Refused {
    /// Why.
    pub refusal: Refusal,
    /// Where: of reading a place in the text, of checking a record's ordinal; each operation tells.
    pub place: usize,
}

/// What checking says of a script.
pub type Verdict = Result<(), Refused>;

impl Refused {
    /// The ordinal of the record that breaks a rule of checking, the head being 0; none for every other refusal.
    ///
    /// ```
    /// let refused = strip::Workspace::new().compile(b"at 1; preset fadein", strip::RUST_COLORS).unwrap_err();
    /// assert_eq!((refused.refusal, refused.record()), (strip::Refusal::UnknownPreset, Some(2)));
    /// ```
    pub fn record(&self) -> Option<usize> {
        let by_rule = Refusal::OutOfRange.number()..=Refusal::NoiseHeld.number();
        // the string of `color` has no record
        (by_rule.contains(&self.refusal.number()) && self.place > 0).then_some(self.place)
    }
}

impl fmt::Display for Refused {
    fn fmt(&self, f: &mut fmt::Formatter) -> fmt::Result {
        write!(f, "refused with {} at {}: {}", self.refusal.number(), self.place, self.refusal)
    }
}

impl Error for Refused {}
