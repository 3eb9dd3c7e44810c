//! Reading, checking, converting, and the bytes of a colour.
use crate::raw::{self, accepted, accepted_value, bits};
use crate::{Refused, Verdict};

/// What [`read`] has written.
#[derive(Clone, Copy, Debug, PartialEq, Eq)]
pub struct Read {
    /// The sheet's length in bytes.
    pub length: usize,
    /// How many records of nodes it has; the head is not counted.
    pub records: usize,
    /// How many of the written numbers are stored as another f32 than what is written, as 0.1 is. A number that is kept as a whole
    /// number is not; one that a later field overrides is counted all the same.
    pub rounded: usize,
}

/// Reads a text into the front of a sheet. The place of a refusal is one in the text, in bytes. Afterwards scratch is all zero, and the
/// sheet zero past its length, or everywhere on a refusal; but [`TextTooLong`](crate::Refusal::TextTooLong) and
/// [`ScratchTooShort`](crate::Refusal::ScratchTooShort) leave both as they were.
///
/// ```
/// use strip::{Read, Refusal, Refused};
///
/// let (mut scratch, mut sheet) = ([0; strip::SCRATCH_WORDS], [0; 64]);
/// let answer = strip::read(b"at 0.5;", &mut scratch, &mut sheet)?;
/// assert_eq!(answer, Read { length: 10, records: 1, rounded: 0 });
/// assert_eq!(sheet[..answer.length], [0, 1, 14, 0, 0, 0x3F, 0, 0, 0, 0]);
///
/// let refused = Refused { refusal: Refusal::Missing, place: 13 };
/// assert_eq!(strip::read(b"at 0.5; tween", &mut scratch, &mut sheet), Err(refused));
/// # Ok::<(), Refused>(())
/// ```
pub fn read(text: &[u8], scratch: &mut [u16], sheet: &mut [u8]) -> Result<Read, Refused> {
    // SAFETY: the three slices are whole, and do not overlap.
    let answer = accepted(unsafe {
        raw::strip_read(text.as_ptr(), text.len(), scratch.as_mut_ptr(), scratch.len(), sheet.as_mut_ptr(), sheet.len())
    })?;
    Ok(Read { length: bits(answer, 0, 24), records: bits(answer, 24, 16), rounded: bits(answer, 40, 16) })
}

/// Checks a sheet. `sheet` is what [`read`] gave for this text, up to its length; any other bytes are refused unless they are a sheet
/// for the text. `list` is [`RUST_COLORS`](crate::RUST_COLORS) or [`CSS_COLORS`](crate::CSS_COLORS); any other is refused behind what
/// is wrong with the text. The place of a refusal is the record's ordinal; for [`BadForm`](crate::Refusal::BadForm) one in the text; 0
/// for a text that is too long, a list that is none and bytes that are no sheet.
///
/// ```
/// let (text, sheet) = (b"at 0.5;", [0, 1, 14, 0, 0, 0x3F, 0, 0, 0, 0]);
/// assert_eq!(strip::check(text, &sheet, strip::RUST_COLORS), Ok(()));
/// let refused = strip::check(text, &sheet[1..], strip::RUST_COLORS).unwrap_err();
/// assert_eq!((refused.refusal, refused.place), (strip::Refusal::NotASheet, 0));
/// ```
pub fn check(text: &[u8], sheet: &[u8], list: u32) -> Verdict {
    // SAFETY: the two slices are whole.
    accepted(unsafe { raw::strip_check(text.as_ptr(), text.len(), sheet.as_ptr(), sheet.len(), list) })?;
    Ok(())
}

/// Overwrites a sheet with one that has triangle where it had the retired waveform noise, and every other byte as it was. Refused as
/// [`check`] refuses a text or bytes that are no sheet, and then the sheet is as it was.
///
/// ```
/// let text = b"waveform triangle";
/// let mut old = [0, 1, 11, 0, 0, 4, 0, 0, 0, 0, 0, 0, 0];
/// let refused = strip::check(text, &old, strip::RUST_COLORS).unwrap_err();
/// assert_eq!(refused.refusal, strip::Refusal::NoiseHeld);
/// strip::convert(text, &mut old)?;
/// assert_eq!(old, [0, 1, 11, 0, 0, 3, 0, 0, 0, 0, 0, 0, 0]);
/// # Ok::<(), strip::Refused>(())
/// ```
pub fn convert(text: &[u8], sheet: &mut [u8]) -> Result<(), Refused> {
    // SAFETY: the two slices are whole, and do not overlap.
    accepted(unsafe { raw::strip_convert(text.as_ptr(), text.len(), sheet.as_mut_ptr(), sheet.len()) })?;
    Ok(())
}

/// The red, green, blue and alpha of a string under the second list: a name of [`CSS_COLORS`](crate::CSS_COLORS) in letters of any
/// case, or `#` and 3, 4, 6 or 8 hexadecimal digits. Alpha is 255 where none is written. Refused with
/// [`InvalidColor`](crate::Refusal::InvalidColor) alone, at 0.
///
/// ```
/// assert_eq!(strip::color(b"Tomato"), Ok([255, 99, 71, 255]));
/// assert_eq!(strip::color(b"#1234"), Ok([0x11, 0x22, 0x33, 0x44]));
/// assert_eq!(strip::color(b"transparent").unwrap_err().refusal, strip::Refusal::InvalidColor);
/// ```
pub fn color(string: &[u8]) -> Result<[u8; 4], Refused> {
    // SAFETY: the slice is whole.
    let value = accepted_value(unsafe { raw::strip_color(string.as_ptr(), string.len()) })?;
    Ok((value as u32).to_be_bytes())
}
