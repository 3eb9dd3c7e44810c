//! Measures the library against the Rust on the same scripts: reading against lexing and parsing, checking against
//! validate_nodes, and both together; lines and what is printed. run.sh runs it. With a folder it writes the scripts there instead.
#![allow(dead_code)]

mod scripts;

include!(concat!(env!("OUT_DIR"), "/sources.rs"));

/// The name by which the Rust sources call it.
mod error {
    pub use crate::real_error::*;
}

use parser::AnimatoInput;
use std::hint::black_box;
use std::time::Instant;
use strip::Read;

/// What the program of 01 lends.
struct Lent {
    scratch: Vec<u16>,
    sheet: Vec<u8>,
    output: Vec<u8>,
}

/// The least times of one call, in nanoseconds.
#[derive(Clone, Copy)]
struct Pair {
    ours: f64,
    rust: f64,
}

impl Pair {
    fn ratio(self) -> f64 {
        self.ours / self.rust
    }

    fn and(self, other: Pair) -> Pair {
        Pair { ours: self.ours + other.ours, rust: self.rust + other.rust }
    }
}

/// The time of one call, from as many as take some 50 microseconds.
fn time<T>(calls: usize, call: &mut impl FnMut() -> T) -> f64 {
    let start = Instant::now();
    for _ in 0..calls {
        black_box(call());
    }
    start.elapsed().as_nanos() as f64 / calls as f64
}

fn calls<T>(call: &mut impl FnMut() -> T) -> usize {
    1 + (50_000.0 / time(3, call)) as usize
}

/// The two by turns, and the least time of each.
fn times<T, U>(mut ours: impl FnMut() -> T, mut rust: impl FnMut() -> U) -> Pair {
    let (a, b) = (calls(&mut ours), calls(&mut rust));
    let mut least = Pair { ours: f64::MAX, rust: f64::MAX };
    let start = Instant::now();
    for round in 0.. {
        least.ours = least.ours.min(time(a, &mut ours));
        least.rust = least.rust.min(time(b, &mut rust));
        if round >= 20 && start.elapsed().as_millis() > 300 {
            break;
        }
    }
    least
}

fn rust_reads(text: &str) -> syn::Result<AnimatoInput> {
    syn::parse_str(text)
}

fn reading(lent: &mut Lent, text: &str) -> Pair {
    times(
        || strip::read(black_box(text).as_bytes(), &mut lent.scratch, &mut lent.sheet),
        || rust_reads(black_box(text)),
    )
}

fn checking(text: &str, sheet: &[u8], input: &AnimatoInput) -> Pair {
    times(
        || strip::check(black_box(text).as_bytes(), black_box(sheet), strip::RUST_COLORS),
        || validate::validate_nodes(black_box(&input.nodes)).is_ok(),
    )
}

/// Bytes in millions a second.
fn speed(bytes: usize, nanoseconds: f64) -> f64 {
    1000.0 * bytes as f64 / nanoseconds
}

fn columns(p: Pair) -> String {
    format!("{:.3} | {:.3} | {:.2}", p.ours / 1000.0, p.rust / 1000.0, p.ratio())
}

fn speeds(bytes: usize, p: Pair) -> String {
    format!("{:.1} | {:.1}", speed(bytes, p.ours), speed(bytes, p.rust))
}

/// A row of the table: a script by both.
fn row(lent: &mut Lent, name: &str, text: &str) {
    let answer = strip::read(text.as_bytes(), &mut lent.scratch, &mut lent.sheet);
    let rust = rust_reads(text);
    let read = reading(lent, text);
    let (length, input) = match (answer, rust) {
        (Ok(Read { length, .. }), Ok(input)) => (length, input),
        (Err(refused), Err(_)) => {
            let refused = format!("refused, {}", refused.refusal.number());
            return println!("| {name} | {} | {refused} | {} | | | | {} | {:.2} |", text.len(), columns(read), speeds(text.len(), read), read.ratio());
        }
        _ => panic!("{name}: reading and the Rust differ"),
    };
    let sheet = lent.sheet[..length].to_vec();
    let accepted = strip::check(text.as_bytes(), &sheet, strip::RUST_COLORS).is_ok();
    assert_eq!(accepted, validate::validate_nodes(&input.nodes).is_ok(), "{name}");
    let check = checking(text, &sheet, &input);
    let both = read.and(check);
    println!(
        "| {name} | {} | {length} | {} | {} | {} | {:.2} |",
        text.len(),
        columns(read),
        columns(check),
        speeds(text.len(), both),
        both.ratio()
    );
}

/// All lines of a script, for which there is no Rust.
fn line_row(lent: &mut Lent, name: &str, text: &str) {
    let Ok(Read { length, records, .. }) = strip::read(text.as_bytes(), &mut lent.scratch, &mut lent.sheet) else {
        panic!("{name}: refused");
    };
    let Lent { sheet, output, .. } = lent;
    let mut all = || {
        let mut bytes = 0;
        for ordinal in 0..=records as u32 {
            bytes += strip::line(text.as_bytes(), &sheet[..length], ordinal, output).unwrap_or_else(|refused| panic!("{name}: {refused}"));
        }
        bytes
    };
    let bytes = all();
    let least = times(all, || ()).ours;
    println!("| {name} | {} | {} | {bytes} | {:.1} | {:.2} | {:.2} |", text.len(), records + 1, least / 1000.0, least / 1000.0 / (records + 1) as f64, speed(bytes, least));
}

/// What is printed for a script, on a page: reading, checking and all lines in one call.
fn print_row(lent: &mut Lent, page: &mut [u8], name: &str, text: &str) {
    let Lent { scratch, sheet, .. } = lent;
    let mut all = || strip::print(text.as_bytes(), scratch, sheet, page, strip::RUST_COLORS).unwrap_or_else(|refused| panic!("{name}: {refused}"));
    let bytes = all();
    let least = times(all, || ()).ours;
    println!("| {name} | {} | {bytes} | {:.1} | {:.2} |", text.len(), least / 1000.0, least / text.len() as f64);
}

/// Writes each script to a file of a folder, so that its instructions can be counted.
fn write_scripts(folder: &str) {
    for size in scripts::SIZES {
        for kind in &scripts::KINDS {
            let name = kind.name.replace(", ", "-").replace(' ', "-").replace('#', "hash");
            std::fs::write(format!("{folder}/{name}-{size}"), kind.script(size)).expect("a file");
        }
    }
}

fn main() {
    if let Some(folder) = std::env::args().nth(1) {
        return write_scripts(&folder);
    }
    let mut lent = Lent { scratch: vec![0; strip::SCRATCH_WORDS], sheet: vec![0; strip::SHEET_BYTES], output: vec![0; 65_536] };
    println!("Buffers: not cleared first. Each call gets scratch and sheet as the last one left them; reading itself writes zeros to");
    println!("all of scratch ({} bytes) and to the sheet behind its length (of {} bytes), which is in its time.", 2 * lent.scratch.len(), lent.sheet.len());
    println!();
    println!("| script | bytes | sheet | read, us | parse, us | ratio | check, us | validate, us | ratio | library, MB/s | Rust, MB/s | both, ratio |");
    println!("|---|---|---|---|---|---|---|---|---|---|---|---|");
    for size in scripts::SIZES {
        for kind in &scripts::KINDS {
            row(&mut lent, kind.name, &kind.script(size));
        }
    }
    for (name, text) in scripts::worst() {
        row(&mut lent, &name, &text);
    }
    println!();
    println!("All lines of a script, for which the Rust has nothing:");
    println!();
    println!("| script | bytes | lines | bytes of lines | all, us | one, us | MB/s |");
    println!("|---|---|---|---|---|---|---|");
    for size in scripts::SIZES {
        let kind = &scripts::KINDS[1];
        line_row(&mut lent, kind.name, &kind.script(size));
    }
    println!();
    println!("What is printed for a script, in one call (`print`):");
    println!();
    println!("| script | bytes | bytes printed | all, us | ns a byte of the script |");
    println!("|---|---|---|---|---|");
    let mut page = vec![0; strip::PAGE_BYTES];
    for size in scripts::SIZES {
        for kind in &scripts::KINDS {
            print_row(&mut lent, &mut page, kind.name, &kind.script(size));
        }
    }
}
