//! Measures reading against the Rust's lexing and parsing of the same text, and each byte's time in long and short texts.
//! run.sh runs it.
#![allow(dead_code)]

include!(concat!(env!("OUT_DIR"), "/sources.rs"));

/// The name by which the Rust sources call it.
mod error {
    pub use crate::real_error::*;
}

use std::hint::black_box;
use std::time::Instant;
use strip::{Read, Refused};

/// What the program of 01 lends.
struct Lent {
    scratch: Vec<u16>,
    sheet: Vec<u8>,
}

impl Lent {
    fn read(&mut self, text: &str) -> Result<Read, Refused> {
        strip::read(text.as_bytes(), &mut self.scratch, &mut self.sheet)
    }
}

fn rust_reads(text: &str) -> bool {
    syn::parse_str::<parser::AnimatoInput>(text).is_ok()
}

/// A script is a beginning, a part as often as it fits, an end, and blanks.
struct Script(&'static str, [&'static str; 3]);

const SCRIPTS: &[Script] = &[
    Script("places and labels in containers", ["", "sequence {\n  at 0.5;\n  label \"here\";\n  stagger delay: 0.1 { at -2.25 }\n}\n", ""]),
    Script("an ordinary script", ["", "sequence {\n  tween opacity: 0 => 1 duration: 0.5s easing: ease_in_out_quad;\n  keyframes x { 0%: -20, 50%: 1.25, 100%: 0 };\n  label \"here\";\n}\n", ""]),
    Script("each kind of node", ["", "tween p: [0, 1] => [1, 2] duration: 1 loop: times(3) round: 2;\nspring p: 0 => 1 preset: gentle, velocity: 2;\nkeyframes p { 0: 1 linear, 1: 2 }\nsequence { at 1 }\nparallel { }\ngroup parallel { label \"a\"; }\nstagger pattern: grid(cols: 2, rows: 3), delay: 0.1 { }\npath p along \"M0 0\" duration: 1 offset: 0..1;\nmorph \"a\" => \"b\" duration: 1 samples: 64;\ndraw \"m\" duration: 1 easing: cubic_bezier(0.1, 0.2, 0.3, 0.4);\ncolor c: \"red\" => \"#fff\" duration: 1 space: lab;\nwaveform square seed: 7, duration: 2;\npreset fade_in(duration: 1);\n", ""]),
    Script("long numbers", ["", "at 1234567890.123456789;", ""]),
    Script("long names", ["", "label \"aaaaaaaaaaaaaaaaaaaaaaaaaaaaaaaaaaaaaaaaaaaaaaaaaaaaaaaaaaaaaaaaaaaaaaaaaaaaaaaaaaaaaaaaaaaaa\";", ""]),
    Script("marks only", ["", ";", ""]),
    Script("blanks only", ["", " ", ""]),
    Script("16 containers", ["", "group sequence{stagger{sequence{parallel{sequence{sequence{sequence{sequence{sequence{sequence{sequence{sequence{sequence{sequence{sequence{sequence{at 1}}}}}}}}}}}}}}}}", ""]),
    Script("one track", ["keyframes p {", "0.5: 1 linear, ", "}"]),
    Script("one array", ["tween p: [", "1,", "] => 1 duration: 1"]),
    Script("one list of fields", ["tween p: 0 => 1 duration: 1", " easing: rough(points: 3)", ""]),
];

impl Script {
    fn of(&self, size: usize) -> String {
        let [head, part, tail] = self.1;
        let mut text = head.to_string();
        while text.len() + part.len() + tail.len() <= size {
            text += part;
        }
        text += tail;
        format!("{text:size$}")
    }
}

/// The least time of a call in some rounds, in nanoseconds.
fn least<T>(mut call: impl FnMut() -> T) -> f64 {
    let mut least = f64::MAX;
    for _ in 0..300 {
        let start = Instant::now();
        black_box(call());
        least = least.min(start.elapsed().as_nanos() as f64);
    }
    least
}

/// `empty` is the time of an empty text: of clearing what is lent.
fn report(lent: &mut Lent, empty: f64, script: &Script) {
    let Script(name, _) = script;
    let text = script.of(10_240);
    assert!(rust_reads(&text), "{name}");
    if let Err(refused) = lent.read(&text) {
        return println!("{name}: reading refuses it with {}", refused.refusal.number());
    }
    let rust = least(|| rust_reads(black_box(&text)));
    let mut time = |size: usize| {
        let text = script.of(size);
        least(|| lent.read(black_box(&text)))
    };
    let (short, ten, long) = (time(1_024), time(10_240), time(16_384));
    println!(
        "{name}: reading to the Rust {:.2}; a byte of 16,384 to one of 1,024 {:.2}, without the time of an empty text {:.2} ({:.1} ns)",
        ten / rust,
        long / short / 16.0,
        (long - empty) / (short - empty) / 16.0,
        (long - empty) / 16_384.0,
    );
}

fn main() {
    let mut lent = Lent { scratch: vec![0; strip::SCRATCH_WORDS], sheet: vec![0; strip::SHEET_BYTES] };
    let empty = least(|| lent.read(black_box("")));
    println!("an empty text: {:.1} microseconds", empty / 1000.0);
    for script in SCRIPTS {
        report(&mut lent, empty, script);
    }
}
