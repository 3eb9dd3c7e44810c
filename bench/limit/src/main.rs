//! Measures reading against a reader written by hand in C (limit.c), on the kinds of script that it covers, and compares their sheets.
//! run.sh runs it.
#[allow(dead_code)]
#[path = "../../strip/src/scripts.rs"]
mod scripts;

use std::hint::black_box;
use std::time::Instant;

extern "C" {
    fn limit_read(text: *const u8, n: usize, sheet: *mut u8, size: usize) -> u64;
}

/// The zero bytes that the reader in C wants behind a text.
const BEHIND: usize = 16;

/// A script with those bytes behind it.
struct Text {
    bytes: Vec<u8>,
}

impl Text {
    fn new(script: &str) -> Text {
        let mut bytes = script.as_bytes().to_vec();
        bytes.resize(script.len() + BEHIND, 0);
        Text { bytes }
    }

    fn script(&self) -> &[u8] {
        &self.bytes[..self.bytes.len() - BEHIND]
    }
}

/// Length, records and rounded numbers, if the script is covered.
fn by_hand(text: &Text, sheet: &mut [u8]) -> Option<[u64; 3]> {
    let script = text.script();
    // SAFETY: 16 bytes stand behind the script, and the sheet holds that of any text of at most 16,384 bytes and 64 bytes more.
    let answer = unsafe { limit_read(script.as_ptr(), script.len(), sheet.as_mut_ptr(), sheet.len()) };
    (answer >> 56 == 0).then_some([answer & 0xFF_FFFF, answer >> 24 & 0xFFFF, answer >> 40 & 0xFFFF])
}

fn by_library(text: &Text, scratch: &mut [u16], sheet: &mut [u8]) -> [u64; 3] {
    let read = strip::read(text.script(), scratch, sheet).expect("an accepted script");
    [read.length, read.records, read.rounded].map(|n| n as u64)
}

/// The time of one call, in nanoseconds, from as many as take some 50 microseconds.
fn time<T>(calls: usize, call: &mut impl FnMut() -> T) -> f64 {
    let start = Instant::now();
    for _ in 0..calls {
        black_box(call());
    }
    start.elapsed().as_nanos() as f64 / calls as f64
}

fn calls<T>(call: &mut impl FnMut() -> T) -> usize {
    1 + (50_000.0 / time(3, call)) as usize
}

/// The two by turns, and the least time of each.
fn times<T, U>(mut first: impl FnMut() -> T, mut second: impl FnMut() -> U) -> (f64, f64) {
    let (a, b) = (calls(&mut first), calls(&mut second));
    let mut least = (f64::MAX, f64::MAX);
    let start = Instant::now();
    for round in 0.. {
        least.0 = least.0.min(time(a, &mut first));
        least.1 = least.1.min(time(b, &mut second));
        if round >= 20 && start.elapsed().as_millis() > 300 {
            break;
        }
    }
    least
}

fn main() {
    let (mut scratch, mut sheet) = (vec![0; strip::SCRATCH_WORDS], vec![0; strip::SHEET_BYTES + 64]);
    let mut other = sheet.clone();
    println!("| script | bytes | library, us | by hand in C, us | ratio |");
    println!("|---|---|---|---|---|");
    for size in scripts::SIZES {
        for kind in &scripts::KINDS {
            let text = Text::new(&kind.script(size));
            let Some(answer) = by_hand(&text, &mut other) else {
                println!("| {} | {size} | not covered by the reader in C | | |", kind.name);
                continue;
            };
            assert_eq!(by_library(&text, &mut scratch, &mut sheet), answer, "{} at {size}: the answers differ", kind.name);
            assert!(sheet == other, "{} at {size}: the sheets differ", kind.name);
            let (library, hand) = times(
                || strip::read(black_box(text.script()), &mut scratch, &mut sheet),
                || by_hand(black_box(&text), &mut other),
            );
            println!("| {} | {size} | {:.3} | {:.3} | {:.2} |", kind.name, library / 1000.0, hand / 1000.0, library / hand);
        }
    }
}
