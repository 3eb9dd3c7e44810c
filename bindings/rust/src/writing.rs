//! What is written from a text and its sheet: lines, pages, scripts and planes; and waveforms.
use crate::Refused;
use crate::raw::{self, accepted, accepted_value};

/// Writes the line of the record with an ordinal, the head being 0, and gives its length, its line feed included. Past the line the
/// output is as it was, and on a refusal all of it is. A record of n bytes needs 2n + 7 bytes of output. The place of a refusal is the
/// ordinal; for [`BadForm`](crate::Refusal::BadForm) one in the text; 0 for a text that is too long and bytes that are no sheet.
///
/// ```
/// let (text, sheet) = (b"at 0.5;", [0, 1, 14, 0, 0, 0x3F, 0, 0, 0, 0]);
/// let mut output = [0; 64];
/// let length = strip::line(text, &sheet, 1, &mut output)?;
/// assert_eq!(&output[..length], b"00080E00003F00000000AB\n");
/// let refused = strip::line(text, &sheet, 2, &mut output).unwrap_err();
/// assert_eq!((refused.refusal, refused.place), (strip::Refusal::NoSuchRecord, 2));
/// # Ok::<(), strip::Refused>(())
/// ```
pub fn line(text: &[u8], sheet: &[u8], ordinal: u32, output: &mut [u8]) -> Result<usize, Refused> {
    // SAFETY: the three slices are whole, and the output overlaps neither of the others.
    accepted_value(unsafe {
        raw::strip_line(text.as_ptr(), text.len(), sheet.as_ptr(), sheet.len(), ordinal, output.as_mut_ptr(), output.len())
    })
}

/// Writes a fresh script from a text and its sheet, one that [`read`](crate::read) gives the same tree for, its starts apart, and gives
/// its length. Past the script the buffer is zero, and on a refusal all of it is. Refused: what [`check`](crate::check) refuses, as it
/// does; then [`Unwritable`](crate::Refusal::Unwritable) if no text without an exponent reads to the tree, which a sheet that reading
/// gave for such a text cannot bring about; then [`ScriptTooLong`](crate::Refusal::ScriptTooLong); both at 0.
///
/// ```
/// // tokens one blank apart, the fewest digits, no default
/// let (text, sheet) = (b"at 0.5;", [0, 1, 14, 0, 0, 0x3F, 0, 0, 0, 0]);
/// let mut script = [0; 64];
/// let length = strip::write(text, &sheet, &mut script, strip::RUST_COLORS)?;
/// assert_eq!(&script[..length], b"at 0.5 ;");
/// # Ok::<(), strip::Refused>(())
/// ```
pub fn write(text: &[u8], sheet: &[u8], out: &mut [u8], list: u32) -> Result<usize, Refused> {
    // SAFETY: the three slices are whole, and the buffer overlaps neither of the others.
    accepted_value(unsafe { raw::strip_write(text.as_ptr(), text.len(), sheet.as_ptr(), sheet.len(), out.as_mut_ptr(), out.len(), list) })
}

/// Writes the planed form of a sheet, as long as the sheet, and gives its length: the numbers of its frames, each time and each value
/// that is no array, are taken out; what remains comes first, then the numbers as four planes, all their first bytes to all their
/// fourth. Past it the output is as it was, and on a refusal all of it is. Refused: a text or bytes that are no sheet as
/// [`check`](crate::check) refuses them; then [`OutputTooShort`](crate::Refusal::OutputTooShort) at 0.
///
/// ```
/// let text = b"keyframes p {0: 1}";
/// let sheet = strip::Workspace::new().read(text)?;
/// let mut planed = vec![0; sheet.bytes().len()];
/// let length = strip::plane(text, sheet.bytes(), &mut planed)?;
/// assert_eq!(length, planed.len());
/// assert_eq!(planed[length - 8..], [0, 0x3F, 0, 0x80, 0, 0, 0, 0]);
/// # Ok::<(), strip::Refused>(())
/// ```
pub fn plane(text: &[u8], sheet: &[u8], out: &mut [u8]) -> Result<usize, Refused> {
    // SAFETY: the three slices are whole, and the output overlaps neither of the others.
    accepted_value(unsafe { raw::strip_plane(text.as_ptr(), text.len(), sheet.as_ptr(), sheet.len(), out.as_mut_ptr(), out.len()) })
}

/// Writes the sheet that [`plane`] gives some bytes for, and gives its length. Past it the output is as it was, and on a refusal all of
/// it is. Refused: a text as [`check`](crate::check) refuses it; then [`NotPlaned`](crate::Refusal::NotPlaned) if no sheet for the text
/// planes to the bytes; then [`OutputTooShort`](crate::Refusal::OutputTooShort); both at 0.
///
/// ```
/// let text = b"keyframes p {0: 1}";
/// let sheet = strip::Workspace::new().read(text)?;
/// let (mut planed, mut again) = (vec![0; sheet.bytes().len()], vec![0; sheet.bytes().len()]);
/// strip::plane(text, sheet.bytes(), &mut planed)?;
/// strip::unplane(text, &planed, &mut again)?;
/// assert_eq!(again, sheet.bytes());
/// # Ok::<(), strip::Refused>(())
/// ```
pub fn unplane(text: &[u8], planed: &[u8], out: &mut [u8]) -> Result<usize, Refused> {
    // SAFETY: the three slices are whole, and the output overlaps neither of the others.
    accepted_value(unsafe { raw::strip_unplane(text.as_ptr(), text.len(), planed.as_ptr(), planed.len(), out.as_mut_ptr(), out.len()) })
}

/// Reads and checks a text, writes at the front of a page what the program prints for it, and gives its length: a line for each record,
/// then `accept N`; or `refuse R at P`. `list` is checking's, the program's is [`RUST_COLORS`](crate::RUST_COLORS). Past that the page
/// is as it was; scratch and sheet are as [`read`](crate::read) leaves them. A page of fewer than [`PAGE_BYTES`](crate::PAGE_BYTES) is
/// refused with [`OutputTooShort`](crate::Refusal::OutputTooShort) at 0, and nothing is touched.
///
/// ```
/// let (mut scratch, mut sheet) = ([0; strip::SCRATCH_WORDS], vec![0; strip::SHEET_BYTES]);
/// let mut page = vec![0; strip::PAGE_BYTES];
/// let length = strip::print(b"at 0.5;", &mut scratch, &mut sheet, &mut page, strip::RUST_COLORS)?;
/// assert_eq!(&page[..length], b"00020001FD\n00080E00003F00000000AB\naccept 1\n");
/// # Ok::<(), strip::Refused>(())
/// ```
pub fn print(text: &[u8], scratch: &mut [u16], sheet: &mut [u8], page: &mut [u8], list: u32) -> Result<usize, Refused> {
    // SAFETY: the four slices are whole, and do not overlap.
    accepted_value(unsafe {
        raw::strip_print(
            text.as_ptr(),
            text.len(),
            scratch.as_mut_ptr(),
            scratch.len(),
            sheet.as_mut_ptr(),
            sheet.len(),
            page.as_mut_ptr(),
            page.len(),
            list,
        )
    })
}

/// Draws one period of a waveform of a kind ([`SINE`](crate::SINE), [`SAWTOOTH`](crate::SAWTOOTH), [`SQUARE`](crate::SQUARE) or
/// [`TRIANGLE`](crate::TRIANGLE)) into the first [`WAVE_HEIGHTS`](crate::WAVE_HEIGHTS) heights, from -32,767 to 32,767. The phase is in
/// 256ths of the period: the first height is that of so many steps on. Heights behind them are as they were, and on a refusal all of
/// them are. Refused, at 0: [`NotDrawn`](crate::Refusal::NotDrawn), then [`PhaseTooLarge`](crate::Refusal::PhaseTooLarge) for a phase of
/// 256 or more, then [`OutputTooShort`](crate::Refusal::OutputTooShort).
///
/// ```
/// // a sine, from its peak on
/// let mut heights = [0; strip::WAVE_HEIGHTS];
/// strip::wave(strip::SINE, 64, &mut heights)?;
/// assert_eq!((heights[0], heights[64], heights[128], heights[193]), (32_767, 0, -32_767, 804));
/// # Ok::<(), strip::Refused>(())
/// ```
pub fn wave(kind: u32, phase: u32, heights: &mut [i16]) -> Result<(), Refused> {
    // SAFETY: the slice is whole.
    accepted(unsafe { raw::strip_wave(kind, phase, heights.as_mut_ptr(), heights.len()) })?;
    Ok(())
}
