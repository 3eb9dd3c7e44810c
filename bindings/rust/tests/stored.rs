//! The stored cases of the operations, whose answers are the Rust's or a model's of the rules (oracle/README.md).
mod cases;

use cases::{Random, bytes, stored, text_and_sheet};
use std::fmt::Write;
use strip::{Book, Found, Fraction, Mean, Refused, Totals, Verdict};
use strip::{ENTRIES_WORD, KIND_WORD, RUST_COLORS, SCRATCH_WORDS, SCRIPT_LIMIT, SHEET_BYTES, TEXT_BYTES, TOTALS_WORDS};
use strip::{check, color, convert, feed, line, lookup, mean, order, plane, read, unplane, wave, write};

fn refusal_line(refused: Refused) -> String {
    format!("{}\n", refusal_words(refused))
}

fn refusal_words(refused: Refused) -> String {
    format!("refuse {} at {}", refused.refusal.number(), refused.place)
}

/// Compares line by line, so that a difference is short to print.
fn compare(ours: &str, stored: &str) {
    for (number, (a, b)) in ours.lines().zip(stored.lines()).enumerate() {
        assert_eq!(a, b, "line {}", number + 1);
    }
    assert_eq!(ours.lines().count(), stored.lines().count());
}

fn check_line(verdict: Verdict) -> String {
    verdict.map_or_else(refusal_line, |()| "accept\n".to_string())
}

/// Each text of a kind is read, and its sheet checked.
fn read_and_checked(kind: &str) {
    let (cases, answers) = stored(kind);
    let (mut scratch, mut sheet) = (vec![0; SCRATCH_WORDS], vec![0; SHEET_BYTES]);
    let mut ours = String::new();
    for case in cases.lines() {
        let text = bytes(case);
        match read(&text, &mut scratch, &mut sheet) {
            Err(refused) => ours += &refusal_line(refused),
            Ok(answer) => {
                let sheet = &sheet[..answer.length];
                write!(ours, "accept {} ", answer.records).unwrap();
                sheet.iter().for_each(|b| write!(ours, "{b:02X}").unwrap());
                ours += "\t";
                ours += &check_line(check(&text, sheet, RUST_COLORS));
            }
        }
    }
    compare(&ours, &answers);
}

#[test]
fn scripts() {
    read_and_checked("script");
}

#[test]
fn numbers() {
    read_and_checked("number");
}

#[test]
fn checking() {
    let (cases, answers) = stored("check");
    let mut ours = String::new();
    for case in cases.lines() {
        let (text, sheet) = text_and_sheet(case);
        ours += &check_line(check(&text, &sheet, RUST_COLORS));
    }
    compare(&ours, &answers);
}

/// A list, a text and a sheet, which are checked; or a string, whose four bytes are asked for.
#[test]
fn colours() {
    let (cases, answers) = stored("color");
    let mut ours = String::new();
    for case in cases.lines() {
        let (list, rest) = case.split_once('\t').unwrap();
        if list.is_empty() {
            let answer = color(&bytes(rest));
            answer.unwrap_or_default().iter().for_each(|byte| write!(ours, "{byte} ").unwrap());
            ours += &check_line(answer.map(|_| ()));
        } else {
            let (text, sheet) = text_and_sheet(rest);
            ours += &check_line(check(&text, &sheet, u32::from_str_radix(list, 16).unwrap()));
        }
    }
    compare(&ours, &answers);
}

/// Each sheet converted in place.
#[test]
fn converting() {
    let (cases, answers) = stored("convert");
    let mut ours = String::new();
    for (text, mut sheet) in cases.lines().map(text_and_sheet) {
        ours += check_line(convert(&text, &mut sheet)).trim_end();
        ours += "\t";
        sheet.iter().for_each(|b| write!(ours, "{b:02x}").unwrap());
        ours += "\n";
    }
    compare(&ours, &answers);
}

/// Each line of a sheet up to a refusal, with 101 bytes of output.
#[test]
fn lining() {
    let (cases, answers) = stored("line");
    let mut ours = String::new();
    for (text, sheet) in cases.lines().map(text_and_sheet) {
        for ordinal in 0.. {
            let mut output = [0; 101];
            match line(&text, &sheet, ordinal, &mut output) {
                Ok(length) => ours += std::str::from_utf8(&output[..length]).unwrap(),
                Err(refused) => {
                    ours += &refusal_line(refused);
                    break;
                }
            }
        }
    }
    compare(&ours, &answers);
}

/// Each text and sheet written back into a buffer in which something stands, and whether the rest of it is zero afterwards.
#[test]
fn writing() {
    let (cases, answers) = stored("back");
    let mut ours = String::new();
    for (text, sheet, room) in cases.lines().map(written_case) {
        let mut out = vec![7; room];
        let mut used = 0;
        match write(&text, &sheet, &mut out, RUST_COLORS) {
            Ok(length) => {
                used = length;
                write!(ours, "accept {length} {}", std::str::from_utf8(&out[..length]).unwrap()).unwrap();
            }
            Err(refused) => ours += &refusal_words(refused),
        }
        ours += if out[used..].iter().all(|&b| b == 0) { "\tzero\n" } else { "\tnot zero\n" };
    }
    compare(&ours, &answers);
}

/// The text, the sheet and the buffer's length of a line.
fn written_case(case: &str) -> (Vec<u8>, Vec<u8>, usize) {
    let (pair, room) = case.rsplit_once('\t').unwrap();
    let (text, sheet) = text_and_sheet(pair);
    (text, sheet, usize::from_str_radix(room, 16).unwrap())
}

/// Each line is a lookup in two books, or a listing of one into an output in which something stands.
#[test]
fn books() {
    let (cases, answers) = stored("book");
    let mut ours = String::new();
    for case in cases.lines() {
        let fields: Vec<Vec<u8>> = case.split('\t').map(bytes).collect();
        if fields[0] == [0] {
            ours += &lookup_line(&fields[1], &fields[2], lookup(&fields[1], &fields[2], &fields[3]));
            continue;
        }
        let mut out = vec![7; usize::from(fields[2][0]) << 8 | usize::from(fields[2][1])];
        match order(&fields[1], &mut out) {
            Ok(items) => write!(ours, "list {items} ").unwrap(),
            Err(refused) => write!(ours, "{} ", refusal_words(refused)).unwrap(),
        }
        out.iter().for_each(|b| write!(ours, "{b:02X}").unwrap());
        ours += "\n";
    }
    compare(&ours, &answers);
}

/// The book that a body is lent from, where it starts there, its size and its bytes.
fn lookup_line(store: &[u8], chain: &[u8], answer: Result<Found, Refused>) -> String {
    match answer {
        Err(refused) => refusal_line(refused),
        Ok(Found { book, body }) => {
            let (name, text) = if book == Book::Store { ("store", store) } else { ("chain", chain) };
            let start = body.as_ptr() as usize - text.as_ptr() as usize;
            let hex: String = body.iter().map(|b| format!("{b:02X}")).collect();
            format!("{name} {start} {} {hex}\n", body.len())
        }
    }
}

/// Each line does one thing to totals, which its first byte tells: feeding a text, with less scratch or sheet, emptying, setting a
/// word, and writing the totals and the means.
#[test]
fn feeding() {
    let (cases, answers) = stored("feed");
    let mut totals = Totals::default();
    let mut ours = String::new();
    for case in cases.lines().map(bytes) {
        let rest = &case[1..];
        let (words, room) = match case[0] {
            0 => (SCRATCH_WORDS, SHEET_BYTES),
            1 => (SCRATCH_WORDS - 1, SHEET_BYTES),
            2 => (SCRATCH_WORDS, 8),
            3 => {
                totals = Totals::default();
                continue;
            }
            4 => {
                totals.0[usize::from(rest[0])] = u32::from_be_bytes(rest[1..5].try_into().unwrap());
                continue;
            }
            5 => {
                totals.0.iter().for_each(|word| write!(ours, "{word} ").unwrap());
                ours += "\n";
                continue;
            }
            _ => {
                ours += &mean_line(mean(&totals, Mean::RecordsPerScript));
                ours += &mean_line(mean(&totals, Mean::EntriesPerTrack));
                continue;
            }
        };
        ours += &match feed(&mut totals, rest, &mut vec![0; words], &mut vec![0; room], RUST_COLORS) {
            Ok(verdict) => check_line(verdict),
            Err(refused) => format!("unfed {}", refusal_line(refused)),
        };
    }
    compare(&ours, &answers);
}

fn mean_line(answer: Result<Option<Fraction>, Refused>) -> String {
    match answer {
        Ok(Some(fraction)) => format!("{fraction}\n"),
        Ok(None) => "none\n".to_string(),
        Err(refused) => refusal_line(refused),
    }
}

/// What a script adds to totals, by reading, checking and the lines of its records: of a line the record's kind, and behind a track's
/// start and target its count of entries.
fn counted(words: &mut [u32; TOTALS_WORDS], text: &[u8], scratch: &mut [u16], sheet: &mut [u8]) {
    let answer = match read(text, scratch, sheet) {
        Ok(answer) => answer,
        Err(refused) => return words[usize::from(refused.refusal.number())] += 1,
    };
    let sheet = &sheet[..answer.length];
    if let Err(refused) = check(text, sheet, RUST_COLORS) {
        return words[usize::from(refused.refusal.number())] += 1;
    }
    words[0] += 1;
    let mut output = vec![0; 131_077];
    for ordinal in 1..=answer.records as u32 {
        let length = line(text, sheet, ordinal, &mut output).expect("a record's line");
        let record = bytes(std::str::from_utf8(&output[4..length - 3]).unwrap());
        words[KIND_WORD + usize::from(record[0])] += 1;
        if record[0] == 2 {
            words[ENTRIES_WORD] += u32::from(record[7]) << 8 | u32::from(record[8]);
        }
    }
}

/// The stored scripts and damaged copies of them, fed, against the counts of each. STRIP_COPIES says how many copies of each, 2 if unset.
#[test]
fn totals_are_the_counts_of_each_script() {
    let copies: u64 = std::env::var("STRIP_COPIES").map_or(2, |n| n.parse().unwrap());
    let texts: Vec<Vec<u8>> = stored("script").0.lines().map(bytes).collect();
    let (mut scratch, mut sheet) = (vec![0; SCRATCH_WORDS], vec![0; SHEET_BYTES]);
    let (mut totals, mut words) = (Totals::default(), [0; TOTALS_WORDS]);
    let mut random = Random::new();
    for text in &texts {
        for copy in 0..=copies {
            let mut text = text.clone();
            if copy > 0 && !text.is_empty() {
                // a byte of another script, or one less, or a part of another script behind it
                let other = &texts[random.below(texts.len())];
                let at = random.below(text.len());
                match random.below(3) {
                    0 if !other.is_empty() => text[at] = other[random.below(other.len())],
                    1 => drop(text.remove(at)),
                    _ => text.extend_from_slice(&other[..other.len().min(TEXT_BYTES - text.len().min(TEXT_BYTES))]),
                }
            }
            if totals.scripts() == u64::from(SCRIPT_LIMIT) {
                assert_eq!(totals.0, words);
                (totals, words) = (Totals::default(), [0; TOTALS_WORDS]);
            }
            counted(&mut words, &text, &mut scratch, &mut sheet);
            assert!(feed(&mut totals, &text, &mut scratch, &mut sheet, RUST_COLORS).is_ok());
        }
    }
    assert_eq!(totals.0, words);
    assert!(words[0] > 0 && words[ENTRIES_WORD] > 0);
}

/// Each line is a sheet that is planed, or planed bytes that are turned back, into an output in which something stands.
#[test]
fn planing() {
    let (cases, answers) = stored("plane");
    let mut ours = String::new();
    for case in cases.lines() {
        let fields: Vec<Vec<u8>> = case.split('\t').map(bytes).collect();
        let mut out = vec![7; usize::from(fields[3][0]) << 8 | usize::from(fields[3][1])];
        let answer = if fields[0] == [0] { plane(&fields[1], &fields[2], &mut out) } else { unplane(&fields[1], &fields[2], &mut out) };
        match answer {
            Ok(length) => write!(ours, "accept {length} ").unwrap(),
            Err(refused) => write!(ours, "{} ", refusal_words(refused)).unwrap(),
        }
        out.iter().for_each(|b| write!(ours, "{b:02X}").unwrap());
        ours += "\n";
    }
    compare(&ours, &answers);
}

/// Each line is a waveform's kind and a phase, and how many heights are lent, in each of which something stands.
#[test]
fn drawing() {
    let (cases, answers) = stored("wave");
    let mut ours = String::new();
    for case in cases.lines() {
        let fields: Vec<u32> = case.split('\t').map(|field| u32::from_str_radix(field, 16).unwrap()).collect();
        let mut heights = vec![0x0707; fields[2] as usize];
        ours += check_line(wave(fields[0], fields[1], &mut heights)).trim_end();
        ours += "\t";
        heights.iter().for_each(|height| write!(ours, "{height:04X}").unwrap());
        ours += "\n";
    }
    compare(&ours, &answers);
}
