//! The stored cases (crates/run_sheet_cases and crates/run_script_cases).
#![allow(dead_code)]
use std::path::Path;

/// The stored cases of a kind, and their answers, which stand behind the line `== KIND`.
pub fn stored(kind: &str) -> (String, String) {
    let crates = Path::new(env!("CARGO_MANIFEST_DIR")).join("../../crates");
    let folders = ["run_sheet_cases", "run_script_cases"].map(|name| crates.join(name));
    let folder = folders.iter().find(|folder| folder.join("data").join(kind).exists()).unwrap();
    let file = |part: &str| std::fs::read_to_string(folder.join(part)).unwrap();
    let all = file("stdout");
    let answers = all.lines().skip_while(|line| line.strip_prefix("== ") != Some(kind)).skip(1);
    let answers: Vec<&str> = answers.take_while(|line| !line.starts_with("== ")).collect();
    assert!(!answers.is_empty());
    (file(&format!("data/{kind}/cases")), answers.join("\n"))
}

/// The bytes of hexadecimal digits.
pub fn bytes(hex: &str) -> Vec<u8> {
    let digit = |b: u8| (b as char).to_digit(16).unwrap() as u8;
    hex.as_bytes().chunks(2).map(|pair| digit(pair[0]) << 4 | digit(pair[1])).collect()
}

/// Bytes as hexadecimal digits, in capitals.
pub fn hexadecimal(bytes: &[u8]) -> String {
    let digit = |worth: u8| char::from_digit(worth.into(), 16).unwrap().to_ascii_uppercase();
    bytes.iter().flat_map(|byte| [digit(byte >> 4), digit(byte & 15)]).collect()
}

/// The text and the sheet of a line.
pub fn text_and_sheet(case: &str) -> (Vec<u8>, Vec<u8>) {
    let (text, sheet) = case.split_once('\t').unwrap();
    (bytes(text), bytes(sheet))
}

/// Numbers that look random, the same in each run.
pub struct Random(u64);

impl Random {
    pub fn new() -> Random {
        Random(1)
    }

    /// A number below another.
    pub fn below(&mut self, limit: usize) -> usize {
        self.0 = self.0.wrapping_mul(6_364_136_223_846_793_005).wrapping_add(1_442_695_040_888_963_407);
        (self.0 >> 33) as usize % limit
    }
}
