//! The changed syn against the unchanged one.

use crate::{answers, hex, read, text_rules, BATCH};
use std::io::{self, BufRead, Write};
use std::process::{Command, Stdio};
use std::thread;

/// Names to syn 1.0.107, keywords to edition 2021.
const WORDS: [&[u8]; 4] = [b"try", b"async", b"await", b"dyn"];

/// Answers standard input with both builds and reports where they differ.
pub fn run(plain: &str) {
    let scripts: Vec<String> = io::stdin().lock().lines().map(|l| l.expect("a line")).collect();
    let theirs = plain_answers(plain, &scripts);
    let ours: Vec<String> =
        scripts.chunks(BATCH).flat_map(|batch| answers(batch, &read::tree_line)).collect();
    assert_eq!(ours.len(), theirs.len());
    let mut expected = 0;
    let mut other = 0;
    for ((script, ours), theirs) in scripts.iter().zip(&ours).zip(&theirs) {
        if agree(ours, theirs) {
            continue;
        }
        if has_word(script) {
            expected += 1;
        } else {
            other += 1;
            println!("{script}\t{ours}\t{theirs}");
        }
    }
    let count = scripts.len();
    println!("{count} scripts: {expected} differ by the four words, {other} otherwise");
    std::process::exit((other > 0) as i32)
}

fn plain_answers(plain: &str, scripts: &[String]) -> Vec<String> {
    let mut child = Command::new(plain)
        .arg("tree")
        .stdin(Stdio::piped())
        .stdout(Stdio::piped())
        .spawn()
        .expect("the oracle over the unchanged syn");
    let mut input = child.stdin.take().expect("its input");
    thread::scope(|scope| {
        scope.spawn(move || scripts.iter().for_each(|s| writeln!(input, "{s}").expect("a script")));
        let output = child.wait_with_output().expect("its output");
        assert!(output.status.success());
        String::from_utf8(output.stdout).expect("text").lines().map(String::from).collect()
    })
}

/// The same, a place that the unchanged syn cannot give apart.
fn agree(ours: &str, theirs: &str) -> bool {
    let no_place = theirs.starts_with("refuse") && !theirs.contains(" at ");
    ours == theirs || no_place && ours.split(" at ").next() == Some(theirs)
}

fn has_word(script: &str) -> bool {
    let text = hex::read(script).expect("hexadecimal");
    text.split(|byte| !text_rules::is_name(*byte)).any(|name| WORDS.contains(&name))
}
