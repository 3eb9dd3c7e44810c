//! Measures checking against the Rust's validate_nodes on the tree of the same sheet. run.sh runs it.
//! The trees are the Rust's, read from scripts of several lengths; one sheet is made by hand.
#![allow(dead_code)]

#[path = "../../../oracle/src/answer.rs"]
mod answer;
#[path = "../../../oracle/src/check.rs"]
mod check;
#[path = "../../../oracle/src/error.rs"]
mod error;
#[path = "../../../oracle/src/hex.rs"]
mod hex;
mod lines {
    include!(concat!(env!("OUT_DIR"), "/lines.rs"));
}
#[path = "../../../oracle/src/places.rs"]
mod places;
#[path = "../../../oracle/src/read.rs"]
mod read;
#[path = "../../../oracle/src/sheet/mod.rs"]
mod sheet;
#[path = "../../../oracle/src/text_rules.rs"]
mod text_rules;

include!(concat!(env!("OUT_DIR"), "/sources.rs"));

use std::hint::black_box;
use std::time::Instant;

/// An ordinary script, as far as whole nodes go; blanks behind them.
fn script(size: usize) -> Vec<u8> {
    let node = "sequence {\n  tween opacity: 0 => 1 duration: 0.5s easing: ease_in_out_quad;\n  keyframes x { 0%: -20, 50%: 1.25, 100%: 0 };\n  label \"here\";\n}\n";
    let mut text = node.repeat(size / node.len()).into_bytes();
    text.resize(size, b' ');
    text
}

/// A sheet of one track for the text `x`, its frames' times distinct.
fn track(frames: u16) -> Vec<u8> {
    let mut sheet = vec![0, 1, 2, 0, 0, 0, 0, 0, 1];
    sheet.extend(frames.to_be_bytes());
    for i in 0..frames {
        sheet.push(1);
        sheet.extend(f32::from(i).to_be_bytes());
        sheet.extend([0, 0, 0, 0, 0, 0]);
    }
    sheet.push(0);
    sheet
}

/// The least times of the two in some rounds, by turns, in microseconds.
fn times(text: &[u8], sheet: &[u8], rounds: usize) -> (f64, f64) {
    let nodes = sheet::decode(text, sheet).expect("a sheet");
    assert_eq!(strip::check(text, sheet, strip::RUST_COLORS), Ok(()));
    assert!(validate::validate_nodes(&nodes).is_ok());
    let mut least = (f64::MAX, f64::MAX);
    for _ in 0..rounds {
        let start = Instant::now();
        let _ = black_box(strip::check(black_box(text), black_box(sheet), strip::RUST_COLORS));
        least.0 = least.0.min(start.elapsed().as_nanos() as f64 / 1000.0);
        let start = Instant::now();
        let _ = black_box(validate::validate_nodes(black_box(&nodes)));
        least.1 = least.1.min(start.elapsed().as_nanos() as f64 / 1000.0);
    }
    least
}

fn report(name: &str, text: &[u8], sheet: &[u8], rounds: usize) -> f64 {
    let (ours, rust) = times(text, sheet, rounds);
    println!("{name}: sheet of {} bytes; checking to validate_nodes {:.2}", sheet.len(), ours / rust);
    ours / sheet.len() as f64
}

fn main() {
    let mut each = Vec::new();
    for size in [1_250, 2_500, 5_000, 10_000, 16_000] {
        let text = script(size);
        let tree = read::read(&text, read::Rules::All).ok().expect("a tree");
        let sheet = read::encoded(&text, &tree);
        assert!(!sheet.wrong);
        each.push(report(&format!("script of {size} bytes"), &text, &sheet.bytes, 2000));
    }
    println!("time for each byte of the sheet, the longest to the shortest {:.2}", each[4] / each[0]);
    let frames = track(5_900);
    let half = track(2_950);
    let whole = report("track of 5900 frames", b"x", &frames, 5) * frames.len() as f64;
    let part = report("track of 2950 frames", b"x", &half, 5) * half.len() as f64;
    println!("time of 5900 frames to that of 2950 {:.2}", whole / part);
}
