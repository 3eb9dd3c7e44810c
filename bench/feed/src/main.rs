//! Measures feeding 4,096 scripts of 1 to 11 KB against reading and checking them alone, by turns in one run. `tools/staticlib.py strip` goes
//! first:
//!
//!     cargo run --release --offline --manifest-path bench/feed/Cargo.toml --target-dir target/bench/feed
use std::hint::black_box;
use std::time::Instant;
use strip::{SCRATCH_WORDS, SHEET_BYTES, Totals};

const SCRIPTS: usize = 4096;
const ROUNDS: usize = 7;

/// A script of at least so many bytes, from nodes of every kind in turn, some of them in containers.
fn script(size: usize, seed: usize) -> Vec<u8> {
    let mut text = String::new();
    let mut i = seed;
    while text.len() < size {
        let node = match i % 13 {
            0 => format!("tween box_{i}: [0, {i}] => [1.5, 2] duration: 0.25s easing: ease_out_cubic delay: 0.1;\n"),
            1 => format!("spring knob: 0 => {i} preset: gentle;\n"),
            2 => format!("keyframes price_{i} {{0%: 0, 25%: {i}, 50%: 1.5, 100%: 2, loop: once}};\n"),
            3 => format!("sequence {{ at {}; label \"part {i}\"; tween a: 0 => 1 duration: 1; }}\n", i % 7),
            4 => "parallel { preset fade_in; draw \"#logo\" duration: 1; }\n".to_string(),
            5 => format!("group parallel {{ sequence {{ keyframes k {{0: 0, 1: 1, 2: {i}}}; }} }}\n"),
            6 => "stagger delay: 0.05 { tween p: 0 => 1 duration: 0.5; }\n".to_string(),
            7 => "path dot along \"m 0 0 l 10 10\" duration: 2;\n".to_string(),
            8 => "morph \"a\" => \"b\" duration: 1;\n".to_string(),
            9 => "color back: \"red\" => \"#00ff00\" duration: 0.5;\n".to_string(),
            10 => "waveform sine frequency: 2 amplitude: 0.5;\n".to_string(),
            11 => "preset fade_in, duration: 0.5;\n".to_string(),
            _ => format!("at +{}.5;\n", i % 10),
        };
        text += &node;
        i += 1;
    }
    text.into_bytes()
}

fn main() {
    let texts: Vec<Vec<u8>> = (0..SCRIPTS).map(|i| script(1024 + i * 7919 % 10_000, i)).collect();
    let (mut scratch, mut sheet) = (vec![0; SCRATCH_WORDS], vec![0; SHEET_BYTES]);
    let (mut alone, mut fed, mut accepted) = (f64::MAX, f64::MAX, 0);
    for _ in 0..ROUNDS {
        let start = Instant::now();
        accepted = 0;
        for text in &texts {
            if let Ok(strip::Read { length, .. }) = strip::read(black_box(text), &mut scratch, &mut sheet) {
                accepted += u32::from(strip::check(text, &sheet[..length], strip::RUST_COLORS).is_ok());
            }
        }
        alone = alone.min(start.elapsed().as_secs_f64());

        let start = Instant::now();
        let mut totals = Totals::default();
        for text in &texts {
            let answer = strip::feed(&mut totals, black_box(text), &mut scratch, &mut sheet, strip::RUST_COLORS);
            assert!(answer.is_ok());
        }
        fed = fed.min(start.elapsed().as_secs_f64());
        assert_eq!((totals.scripts(), totals.accepted()), (SCRIPTS as u64, accepted));
    }
    let bytes: usize = texts.iter().map(Vec::len).sum();
    println!("{SCRIPTS} scripts, {} KB, {accepted} accepted", bytes / 1024);
    println!("reading and checking {:.1} ms, feeding {:.1} ms, ratio {:.3}", alone * 1e3, fed * 1e3, fed / alone);
}
