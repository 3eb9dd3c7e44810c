//! Measures token::split for each byte of a text, at 1,024 and at 16,384 bytes, and token::is_keyword for each word.
//! Run at the repository's root: tools/staticlib.py token_c && cargo run -j1 --release --manifest-path bench/token/Cargo.toml
use std::hint::black_box;
use std::time::Instant;

extern "C" {
    fn token_split(text: *const u8, size: usize, scratch: *mut u16, words: usize) -> u8;
    fn token_is_keyword(word: *const u8, size: usize) -> bool;
}

fn split(text: &[u8], scratch: &mut [u16]) -> u8 {
    // SAFETY: the two slices are whole, and do not overlap.
    unsafe { token_split(text.as_ptr(), text.len(), scratch.as_mut_ptr(), scratch.len()) }
}

fn is_keyword(word: &str) -> bool {
    // SAFETY: the slice is whole.
    unsafe { token_is_keyword(word.as_ptr(), word.len()) }
}

/// An ordinary script, as far as whole nodes go; blanks behind them.
fn script(size: usize) -> Vec<u8> {
    let node = "sequence {\n  tween opacity: 0 => 1 duration: 0.5s easing: ease_in_out_quad;\n  keyframes x { 0%: -20, 50%: 1.25, 100%: 0 };\n  label \"here\";\n}\n";
    let mut text = node.repeat(size / node.len()).into_bytes();
    text.resize(size, b' ');
    text
}

fn string(size: usize) -> Vec<u8> {
    let mut text = vec![b'x'; size];
    text[0] = b'"';
    text[size - 1] = b'"';
    text
}

fn marks(size: usize) -> Vec<u8> {
    let all = b"([{}]):;,=>.+-%";
    let mut text = all.repeat(size / all.len());
    text.resize(size, b';');
    text
}

/// The least time of one call for each byte, in nanoseconds.
fn time(text: &[u8]) -> f64 {
    let mut scratch = [0u16; 64];
    assert_eq!(split(text, &mut scratch), 0);
    let rounds = 4 * 16_384 / text.len();
    let mut least = f64::MAX;
    for _ in 0..400 {
        let start = Instant::now();
        for _ in 0..rounds {
            black_box(split(black_box(text), &mut scratch));
        }
        least = least.min(start.elapsed().as_nanos() as f64 / (rounds * text.len()) as f64);
    }
    least
}

fn main() {
    let kinds: [(&str, fn(usize) -> Vec<u8>); 4] = [
        ("one long string", string),
        ("all blanks", |size| vec![b' '; size]),
        ("marks only", marks),
        ("an ordinary script", script),
    ];
    for (name, make) in kinds {
        let (short, long) = (time(&make(1024)), time(&make(16_384)));
        println!("{name}: {short:.2} and {long:.2} ns a byte, ratio {:.2}", long / short);
    }
    for word in ["x", "opacity", "tween", "duration", "while", "ease_in_out_quad"] {
        let start = Instant::now();
        for _ in 0..1_000_000 {
            black_box(is_keyword(black_box(word)));
        }
        println!("is_keyword {word}: {:.1} ns", start.elapsed().as_nanos() as f64 / 1e6);
    }
}
