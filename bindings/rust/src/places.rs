//! From a record's line to its node's start, and from a place to a line and a column.

/// The start in the text of the keyword of a record's node, from the line that [`line()`](crate::line()) wrote for the record, its line
/// feed included: the two bytes behind the kind. The head's line has none, and neither has what is no line: another length than it says,
/// a sum other than zero, or a byte that is no capital hexadecimal digit.
///
/// ```
/// assert_eq!(strip::start(b"00090C0008000F00060000CE\n"), Some(8));
/// assert_eq!(strip::start(b"00020001FD\n"), None);
/// ```
pub fn start(line: &[u8]) -> Option<usize> {
    let digits = line.strip_suffix(b"\n")?;
    let mut sum: u8 = 0;
    for pair in digits.chunks(2) {
        sum = sum.wrapping_add(hexadecimal(pair)?);
    }
    let byte = |at: usize| hexadecimal(digits.get(2 * at..2 * at + 2)?).map(usize::from);
    let word = |at: usize| Some(256 * byte(at)? + byte(at + 1)?);
    let length = word(0)?;
    // two bytes of length, the record and the check byte
    if length < 3 || digits.len() != 2 * (length + 3) || sum != 0 {
        return None;
    }
    word(3)
}

/// The line and the column of a place in a text, both from 1 on; the column counts bytes.
///
/// ```
/// assert_eq!(strip::line_and_column(b"at 1;\n  preset fadein", 8), (2, 3));
/// ```
pub fn line_and_column(text: &[u8], place: usize) -> (usize, usize) {
    let before = &text[..place.min(text.len())];
    let line = 1 + before.iter().filter(|&&byte| byte == b'\n').count();
    let column = 1 + before.iter().rev().take_while(|&&byte| byte != b'\n').count();
    (line, column)
}

/// The byte that two capital hexadecimal digits spell.
fn hexadecimal(digits: &[u8]) -> Option<u8> {
    let worth = |digit: &u8| b"0123456789ABCDEF".iter().position(|each| each == digit);
    match digits {
        [high, low] => Some((16 * worth(high)? + worth(low)?) as u8),
        _ => None,
    }
}
