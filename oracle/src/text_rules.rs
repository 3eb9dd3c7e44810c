//! A model of 01's text rules with 02 (n)'s numbers, refusals 1 to 5. Not the Rust: its lexer takes
//! more texts than these rules do.

use crate::answer::Refusal;

pub const TEXT_LIMIT: usize = 16_384;
const OPEN_LIMIT: usize = 64;
const WHOLE_DIGITS: usize = 40;
const POINT_DIGITS: usize = 40;
const POWER_DIGITS: usize = 2;

/// The first refusal of the text rules, if any.
pub fn refusal(text: &[u8]) -> Option<Refusal> {
    if text.len() > TEXT_LIMIT {
        return Some(Refusal { number: 1, place: 0 });
    }
    scan(text).err()
}

fn refuse<T>(number: u32, place: usize) -> Result<T, Refusal> {
    Err(Refusal { number, place })
}

fn scan(text: &[u8]) -> Result<(), Refusal> {
    let mut open = Vec::new();
    let mut at = 0;
    while at < text.len() {
        at = match text[at] {
            b' ' | b'\t' | b'\n' | b'\r' => at + 1,
            b'"' => string(text, at)?,
            byte if byte.is_ascii_digit() => number(text, at)?,
            byte if is_name(byte) => name(text, at)?,
            b':' | b';' | b',' | b'=' | b'>' | b'.' | b'+' | b'-' | b'%' => at + 1,
            b'(' | b'[' | b'{' => opener(text, at, &mut open)?,
            b')' | b']' | b'}' => closer(text, at, &mut open)?,
            _ => return refuse(2, at),
        };
    }
    if open.is_empty() { Ok(()) } else { refuse(4, text.len()) }
}

pub fn is_name(byte: u8) -> bool {
    byte.is_ascii_alphanumeric() || byte == b'_'
}

/// How many bytes from `at` on satisfy `test`.
fn run(text: &[u8], at: usize, test: impl Fn(u8) -> bool) -> usize {
    text[at..].iter().take_while(|byte| test(**byte)).count()
}

fn name(text: &[u8], at: usize) -> Result<usize, Refusal> {
    let end = at + run(text, at, is_name);
    if text.get(end) == Some(&b'"') { refuse(2, at) } else { Ok(end) }
}

fn string(text: &[u8], at: usize) -> Result<usize, Refusal> {
    let inside = |byte: u8| (b' '..=b'~').contains(&byte) && byte != b'"' && byte != b'\\';
    let end = at + 1 + run(text, at + 1, inside);
    let after = text.get(end + 1).copied();
    if text.get(end) != Some(&b'"') || after.is_some_and(is_name) {
        return refuse(2, at);
    }
    Ok(end + 1)
}

fn number(text: &[u8], at: usize) -> Result<usize, Refusal> {
    let digit = |byte: u8| byte.is_ascii_digit();
    let whole = run(text, at, digit);
    let mut end = at + whole;
    let mut point = 0;
    if text.get(end) == Some(&b'.') {
        match text.get(end + 1) {
            Some(b'.') => {}
            Some(byte) if byte.is_ascii_digit() => {
                point = run(text, end + 1, digit);
                end += 1 + point;
            }
            _ => return refuse(2, at),
        }
    }
    if matches!(text.get(end), Some(b'e' | b'E')) {
        let sign = usize::from(matches!(text.get(end + 1), Some(b'+' | b'-')));
        let power = run(text, end + 1 + sign, digit);
        if power == 0 || power > POWER_DIGITS {
            return refuse(2, at);
        }
        end += 1 + sign + power;
    }
    if text.get(end) == Some(&b's') {
        end += 1;
    }
    if text.get(end).copied().is_some_and(is_name) {
        return refuse(2, at);
    }
    if whole > WHOLE_DIGITS || point > POINT_DIGITS { refuse(3, at) } else { Ok(end) }
}

fn opener(text: &[u8], at: usize, open: &mut Vec<u8>) -> Result<usize, Refusal> {
    if open.len() == OPEN_LIMIT {
        return refuse(5, at);
    }
    open.push(text[at]);
    Ok(at + 1)
}

fn closer(text: &[u8], at: usize, open: &mut Vec<u8>) -> Result<usize, Refusal> {
    let wanted = match text[at] {
        b')' => b'(',
        b']' => b'[',
        _ => b'{',
    };
    if open.pop() == Some(wanted) { Ok(at + 1) } else { refuse(4, at) }
}
