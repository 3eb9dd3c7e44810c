//! Runs the unchanged Rust parser and validator over many scripts.
//!
//! The README gives the modes and the formats.

#![allow(dead_code)]

mod answer;
mod check;
mod compare;
mod error;
mod gen;
mod gen_sheets;
mod hex;
mod lines {
    include!(concat!(env!("OUT_DIR"), "/lines.rs"));
}
mod places;
mod random;
mod read;
mod sheet;
mod text_rules;

include!(concat!(env!("OUT_DIR"), "/sources.rs"));

use std::io::{self, BufRead, BufWriter, Write};
use std::thread;

/// Scripts per thread. The lexer keeps all texts of a thread, and looks
/// through them for each place.
const BATCH: usize = 64;

/// Enough for the deepest text that `--rust-only` may meet.
const STACK: usize = 256 << 20;

fn main() {
    let args: Vec<String> = std::env::args().skip(1).collect();
    let words: Vec<&str> = args.iter().map(String::as_str).collect();
    match words[..] {
        ["read"] => each_line(|line| read::line(line, read::Rules::All)),
        ["read", "--rust-only"] => each_line(|line| read::line(line, read::Rules::RustOnly)),
        ["read", "--dump"] => each_line(read::dump_line),
        ["tree"] => each_line(read::tree_line),
        ["check"] => each_line(check::line),
        ["records"] => each_line(check::records_line),
        ["compare-syn", plain] => compare::run(plain),
        ["gen", seed, count] => gen::run(number(seed), number(count), "all"),
        ["gen", seed, count, kind] => gen::run(number(seed), number(count), kind),
        ["gen-short"] => gen::short(),
        ["gen-sheets", seed, count] => gen_sheets::run(number(seed), number(count)),
        _ => usage(),
    }
}

fn usage() -> ! {
    eprintln!("usage: oracle read [--rust-only | --dump] | check | records | tree | compare-syn PLAIN-ORACLE");
    eprintln!("     | gen SEED COUNT [grammar|damage|limits|words|short|rare|long] | gen-short | gen-sheets SEED COUNT");
    std::process::exit(2)
}

fn number(word: &str) -> u64 {
    word.parse().unwrap_or_else(|_| usage())
}

/// Answers every line of standard input, in order.
fn each_line(answer: impl Fn(&str) -> String + Sync) {
    let mut out = BufWriter::new(io::stdout().lock());
    let mut lines = io::stdin().lock().lines();
    loop {
        let batch: Vec<String> = lines.by_ref().take(BATCH).map(|l| l.expect("a line")).collect();
        if batch.is_empty() {
            return;
        }
        for answer in answers(&batch, &answer) {
            writeln!(out, "{answer}").expect("output");
        }
    }
}

/// Answers a batch in a thread of its own.
pub fn answers(batch: &[String], answer: &(impl Fn(&str) -> String + Sync)) -> Vec<String> {
    thread::scope(|scope| {
        thread::Builder::new()
            .stack_size(STACK)
            .spawn_scoped(scope, || batch.iter().map(|line| answer(line)).collect())
            .expect("a thread")
            .join()
            .unwrap_or_else(|_| std::process::exit(1))
    })
}
