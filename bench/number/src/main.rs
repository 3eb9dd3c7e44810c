//! Compares number::decimal with `str::parse::<f32>`, from the same texts to the same f32, in one run.
//! Our side scans the digits here, in Rust, and calls the proved function; parse does both by itself.
//! Run at the repository's root: tools/staticlib.py number_c && cargo run -j1 --release --manifest-path bench/number/Cargo.toml
use std::hint::black_box;
use std::time::Instant;

extern "C" {
    fn number_decimal(negative: bool, digits: u64, places: usize) -> f32;
}

/// Numbers as scripts have them, and some at the ends of the range.
const COMMON: [&str; 16] = [
    "0", "1", "0.5", "0.25", "100", "0.4", "1.25", "0.05", "0.3", "2", "0.8", "12.5", "360", "0.1", "-20", "1.5",
];
const RARE: [&str; 8] = [
    "16777217", "0.000000119", "-0", "9999999999.999999999", "16777217.000000001", "3.141592653", "4294967295", "0.123456789",
];

/// The digits before and after the point as one number, with the count of those after it. At most 10 and 9 of them.
#[inline(never)]
fn ours(text: &str) -> f32 {
    let bytes = text.as_bytes();
    let negative = bytes[0] == b'-';
    let mut digits: u64 = 0;
    let mut point = bytes.len();
    for (i, &b) in bytes.iter().enumerate().skip(negative as usize) {
        if b == b'.' {
            point = i + 1;
        } else {
            digits = digits * 10 + (b - b'0') as u64;
        }
    }
    let places = bytes.len() - point;
    assert!(places <= 9);
    // SAFETY: the function reads its arguments alone, and `places` is at most 9, which it requires.
    unsafe { number_decimal(negative, digits, places) }
}

#[inline(never)]
fn parse(text: &str) -> f32 {
    text.parse().unwrap()
}

/// The time of one call over a list, in nanoseconds.
fn time(texts: &[&str], f: fn(&str) -> f32) -> f64 {
    let start = Instant::now();
    for _ in 0..1000 {
        for text in texts {
            black_box(f(black_box(text)));
        }
    }
    start.elapsed().as_nanos() as f64 / (1000 * texts.len()) as f64
}

fn main() {
    for text in COMMON.iter().chain(&RARE) {
        assert_eq!(ours(text).to_bits(), parse(text).to_bits(), "{text}");
    }
    for (name, texts) in [("numbers of scripts", &COMMON[..]), ("long numbers", &RARE[..])] {
        // the two in turn, and the least time of each
        let (mut a, mut b) = (f64::MAX, f64::MAX);
        for _ in 0..1000 {
            a = a.min(time(texts, ours));
            b = b.min(time(texts, parse));
        }
        println!("{name}: ours {a:.1} ns, parse {b:.1} ns, ratio {:.2}", a / b);
    }
}
