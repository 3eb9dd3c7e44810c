//! The totals of a morning sheet: feeding scripts, and the means.
use crate::raw::{self, accepted, accepted_value, bits};
use crate::{ENTRIES_WORD, KIND_WORD, Refusal, Refused, TOTALS_WORDS, Verdict};
use std::fmt;

/// The totals of a morning sheet, 60 words; empty by default. Word 0 counts the accepted scripts, word r those refused under r, word
/// 44 + k the node records of kind k in accepted scripts, word 59 their keyframe entries.
#[derive(Clone, Debug, PartialEq, Eq)]
pub struct Totals(pub [u32; TOTALS_WORDS]);

impl Default for Totals {
    fn default() -> Totals {
        Totals([0; TOTALS_WORDS])
    }
}

impl Totals {
    /// Empty totals.
    ///
    /// ```
    /// assert_eq!(strip::Totals::new().scripts(), 0);
    /// ```
    pub fn new() -> Totals {
        Totals::default()
    }

    /// How many scripts were fed.
    ///
    /// ```
    /// let (mut totals, mut workspace) = (strip::Totals::new(), strip::Workspace::new());
    /// for text in [&b"at 1"[..], b"tween"] {
    ///     workspace.feed(&mut totals, text, strip::RUST_COLORS)?.ok();
    /// }
    /// assert_eq!(totals.scripts(), 2);
    /// # Ok::<(), strip::Refused>(())
    /// ```
    pub fn scripts(&self) -> u64 {
        self.0[..KIND_WORD].iter().map(|&word| u64::from(word)).sum()
    }

    /// How many were accepted.
    ///
    /// ```
    /// let mut totals = strip::Totals::new();
    /// totals.0[0] = 7;
    /// assert_eq!(totals.accepted(), 7);
    /// ```
    pub fn accepted(&self) -> u32 {
        self.0[0]
    }

    /// How many were refused, by reading or by checking, for a cause.
    ///
    /// ```
    /// let mut totals = strip::Totals::new();
    /// strip::Workspace::new().feed(&mut totals, b"tween", strip::RUST_COLORS)?.ok();
    /// assert_eq!(totals.refused(strip::Refusal::Missing), 1);
    /// # Ok::<(), strip::Refused>(())
    /// ```
    pub fn refused(&self, refusal: Refusal) -> u32 {
        self.0[usize::from(refusal.number())]
    }

    /// How many node records of a kind, 0 to 14 as in [`KINDS`](crate::KINDS), the accepted scripts have, those in containers too.
    /// Panics for any other kind.
    ///
    /// ```
    /// let mut totals = strip::Totals::new();
    /// strip::Workspace::new().feed(&mut totals, b"at 1; sequence {at 2}", strip::RUST_COLORS)?.ok();
    /// assert_eq!((totals.records(3), totals.records(14)), (1, 2));
    /// # Ok::<(), strip::Refused>(())
    /// ```
    pub fn records(&self, kind: usize) -> u32 {
        self.0[KIND_WORD..ENTRIES_WORD][kind]
    }

    /// How many keyframe entries they have.
    ///
    /// ```
    /// let mut totals = strip::Totals::new();
    /// strip::Workspace::new().feed(&mut totals, b"keyframes p {0: 0, 1: 1, 2: 0}", strip::RUST_COLORS)?.ok();
    /// assert_eq!(totals.entries(), 3);
    /// # Ok::<(), strip::Refused>(())
    /// ```
    pub fn entries(&self) -> u32 {
        self.0[ENTRIES_WORD]
    }
}

/// The two means of a morning sheet.
#[derive(Clone, Copy, Debug, PartialEq, Eq)]
pub enum Mean {
    /// Node records of an accepted script.
    RecordsPerScript,
    /// Entries of a keyframe track.
    EntriesPerTrack,
}

/// A fraction in lowest terms.
#[derive(Clone, Copy, Debug, PartialEq, Eq, Hash)]
pub struct Fraction {
    /// Above the line.
    pub numerator: u32,
    /// Below it.
    pub denominator: u32,
}

impl fmt::Display for Fraction {
    fn fmt(&self, f: &mut fmt::Formatter) -> fmt::Result {
        write!(f, "{}/{}", self.numerator, self.denominator)
    }
}

/// Reads and checks a text, and counts it in totals: as accepted, with its node records and keyframe entries, or as refused under the
/// number of its refusal. The answer is that verdict on the script, its place as [`read`](crate::read) or [`check`](crate::check) gives
/// it; scratch and sheet are as [`read`](crate::read) leaves them. Totals of [`SCRIPT_LIMIT`](crate::SCRIPT_LIMIT) scripts, or with a
/// figure above [`FIGURE_LIMIT`](crate::FIGURE_LIMIT), are refused with [`TooManyScripts`](Refusal::TooManyScripts) at 0 before all
/// else, and nothing is touched. `list` is checking's; a script that reading accepts counts under [`UnknownList`](Refusal::UnknownList)
/// for a list that is none.
///
/// ```
/// let (mut scratch, mut sheet) = ([0; strip::SCRATCH_WORDS], vec![0; strip::SHEET_BYTES]);
/// let mut totals = strip::Totals::new();
/// let verdict = strip::feed(&mut totals, b"at 1; preset fadein", &mut scratch, &mut sheet, strip::RUST_COLORS)?;
/// assert_eq!(verdict, Err(strip::Refused { refusal: strip::Refusal::UnknownPreset, place: 2 }));
///
/// totals.0[0] = strip::SCRIPT_LIMIT;
/// let refused = strip::feed(&mut totals, b"at 1", &mut scratch, &mut sheet, strip::RUST_COLORS).unwrap_err();
/// assert_eq!(refused.refusal, strip::Refusal::TooManyScripts);
/// # Ok::<(), strip::Refused>(())
/// ```
pub fn feed(totals: &mut Totals, text: &[u8], scratch: &mut [u16], sheet: &mut [u8], list: u32) -> Result<Verdict, Refused> {
    // SAFETY: the totals are 60 words; the slices are whole, and nothing overlaps.
    let answer = accepted(unsafe {
        raw::strip_feed(
            totals.0.as_mut_ptr(),
            text.as_ptr(),
            text.len(),
            scratch.as_mut_ptr(),
            scratch.len(),
            sheet.as_mut_ptr(),
            sheet.len(),
            list,
        )
    })?;
    Ok(match bits(answer, 32, 8) as u8 {
        0 => Ok(()),
        number => Err(raw::refused(number, answer)),
    })
}

/// A mean over totals; none where there was no such script or track. Totals with a figure above [`FIGURE_LIMIT`](crate::FIGURE_LIMIT)
/// are refused with [`TooManyScripts`](Refusal::TooManyScripts) at 0.
///
/// ```
/// use strip::{Fraction, Mean, Totals, Workspace};
///
/// let (mut totals, mut workspace) = (Totals::new(), Workspace::new());
/// for text in [&b"sequence {at 1}"[..], b"at 1; at 2; at 3"] {
///     workspace.feed(&mut totals, text, strip::RUST_COLORS)?.ok();
/// }
/// let mean = strip::mean(&totals, Mean::RecordsPerScript)?;
/// assert_eq!(mean, Some(Fraction { numerator: 5, denominator: 2 }));
/// assert_eq!(strip::mean(&totals, Mean::EntriesPerTrack)?, None);
/// # Ok::<(), strip::Refused>(())
/// ```
pub fn mean(totals: &Totals, which: Mean) -> Result<Option<Fraction>, Refused> {
    let mut out = [0; 2];
    // SAFETY: the totals are 60 words, and 2 are written to.
    let found = accepted_value(unsafe { raw::strip_mean(totals.0.as_ptr(), which as u32, out.as_mut_ptr()) })?;
    Ok((found != 0).then_some(Fraction { numerator: out[0], denominator: out[1] }))
}
