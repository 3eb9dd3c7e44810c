//! Makes scripts: by the grammar, damaged, at the limits, with every reserved
//! word as a name, short ones at chosen spots, ones for rare refusals, and ones
//! with long numbers and exponents.

mod damage;
mod grammar;
mod limits;
mod long;
mod numbers;
mod rare;
mod short;
mod words;

use crate::hex;
use crate::random::Random;
use std::io::{self, BufWriter, Write};

pub use grammar::{Grammar, Slips};

/// Keeps the numbers that choose the kind apart from those that make the script.
const MIXED: u64 = 0x5DEECE66D;

/// Writes `count` scripts in hexadecimal, one a line.
pub fn run(seed: u64, count: u64, kind: &str) {
    let mut out = BufWriter::new(io::stdout().lock());
    for index in 0..count {
        let Some(script) = script(seed, index, kind) else {
            eprintln!("unknown kind {kind}");
            std::process::exit(2)
        };
        writeln!(out, "{}", hex::write(&script)).expect("output");
    }
}

/// Writes every short string of tokens at every chosen spot.
pub fn short() {
    let mut out = BufWriter::new(io::stdout().lock());
    for script in short::all() {
        writeln!(out, "{}", hex::write(script.as_bytes())).expect("output");
    }
}

fn script(seed: u64, index: u64, kind: &str) -> Option<Vec<u8>> {
    let mut random = Random::new(seed, index);
    let random = &mut random;
    Some(match kind {
        "all" => return script(seed ^ MIXED, index, mixed(random)),
        "grammar" => right(random),
        "damage" => damage::script(random),
        "limits" => limits::script(random),
        "words" => words::script(index as usize, random),
        "short" => short::script(random),
        "rare" => rare::script(random),
        "long" => long::script(random),
        _ => return None,
    })
}

/// All but `rare` and `long`, so that the stored files stay as they are.
fn mixed(random: &mut Random) -> &'static str {
    match random.below(100) {
        0..=44 => "grammar",
        45..=69 => "damage",
        70..=84 => "short",
        85..=92 => "words",
        _ => "limits",
    }
}

/// A script that reading should accept; checking may not.
pub fn right(random: &mut Random) -> Vec<u8> {
    let count = random.pick(&[1, 1, 1, 1, 2, 2, 3, 4]);
    let tokens = Grammar::new(random, Slips::None).nodes_at_top(count);
    render(random, &tokens)
}

/// Puts blanks between the tokens: where they are needed, and elsewhere too.
pub fn render(random: &mut Random, tokens: &[String]) -> Vec<u8> {
    let loose = random.pick(&[0, 10, 40, 90]);
    let mut text: Vec<u8> = Vec::new();
    let mut last = "";
    for token in tokens {
        if needs_blank(last, token) || random.chance(loose) {
            text.extend(random.pick(&[" ", " ", " ", " ", "\n", "\t", "\r\n", "  "]).as_bytes());
        }
        text.extend(token.as_bytes());
        last = token;
    }
    if random.chance(loose / 4) {
        text.push(b'\n');
    }
    text
}

fn needs_blank(last: &str, next: &str) -> bool {
    let name = |byte: Option<&u8>| byte.is_some_and(|b| b.is_ascii_alphanumeric() || *b == b'_');
    let (end, begin) = (last.as_bytes().last(), next.as_bytes().first());
    let last_is_name = name(end) && !last.as_bytes()[0].is_ascii_digit();
    name(end) && name(begin)
        || last_is_name && begin == Some(&b'"')
        || end == Some(&b'"') && name(begin)
}

/// Tokens parted by blanks in `text`; a string holds no blank here.
pub fn tokens(text: &str) -> Vec<String> {
    text.split_whitespace().map(String::from).collect()
}
