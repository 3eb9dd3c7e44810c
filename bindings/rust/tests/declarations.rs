//! The crate's declarations beside those of bindings/c/strip.h, and its public functions' examples.
use std::collections::BTreeMap;
use std::fs;
use std::path::{Path, PathBuf};
use strip::{Refusal, *};

/// A function's parameters, each its kind and its name, and what it gives.
type Signature = (Vec<(String, String)>, String);

fn source(path: &str) -> String {
    fs::read_to_string(Path::new(env!("CARGO_MANIFEST_DIR")).join(path)).unwrap()
}

/// The header without its comments.
fn header() -> String {
    let mut text = source("../c/strip.h");
    while let Some(start) = text.find("/*") {
        let end = start + text[start..].find("*/").expect("a comment's end") + 2;
        text.replace_range(start..end, " ");
    }
    text
}

/// The kind that Rust gives a parameter of C: `const uint8_t *text` is `*const u8`, and so is an array.
fn kind_in_rust(parameter: &str) -> (String, String) {
    let pointer = parameter.contains(['*', '[']);
    let constant = parameter.starts_with("const ");
    let words: Vec<&str> = parameter.trim_start_matches("const ").split(['*', ' ', '[']).filter(|word| !word.is_empty()).collect();
    let kind = match words[0] {
        "uint8_t" => "u8",
        "uint16_t" => "u16",
        "int16_t" => "i16",
        "uint32_t" => "u32",
        "uint64_t" => "u64",
        "size_t" => "usize",
        other => panic!("{other} in the header"),
    };
    let mark = if !pointer {
        ""
    } else if constant {
        "*const "
    } else {
        "*mut "
    };
    (format!("{mark}{kind}"), words[1].to_string())
}

/// The functions that the header declares.
fn functions_of_c() -> BTreeMap<String, Signature> {
    let text = header().split_whitespace().collect::<Vec<_>>().join(" ");
    let mut functions = BTreeMap::new();
    for statement in text.split(';') {
        // an inline function has a body, and is none of the library's
        let Some(start) = statement.find("uint64_t strip_").filter(|_| !statement.contains("static inline")) else { continue };
        let declaration = &statement[start..];
        let (front, parameters) = declaration.split_once('(').unwrap();
        let (kind, name) = kind_in_rust(front);
        let parameters = parameters.strip_suffix(')').unwrap().split(", ").map(kind_in_rust).collect();
        functions.insert(name, (parameters, kind));
    }
    functions
}

/// The functions that the crate declares.
fn functions_of_rust() -> BTreeMap<String, Signature> {
    let text = source("src/raw.rs");
    let start = text.find("unsafe extern \"C\" {").expect("a block of declarations");
    let block = &text[start..start + text[start..].find("\n}").unwrap()];
    let block = block.split_whitespace().collect::<Vec<_>>().join(" ");
    let mut functions = BTreeMap::new();
    for declaration in block.split("pub(crate) fn ").skip(1) {
        let (name, rest) = declaration.split_once('(').unwrap();
        let (parameters, result) = rest.split_once(") -> ").unwrap();
        let parameters = parameters.split(", ").map(|parameter| {
            let (name, kind) = parameter.split_once(": ").unwrap();
            (kind.to_string(), name.to_string())
        });
        let result = result.trim_end().trim_end_matches(';').to_string();
        functions.insert(name.to_string(), (parameters.collect(), result));
    }
    functions
}

#[test]
fn functions_are_declared_as_the_header_does() {
    let (rust, c) = (functions_of_rust(), functions_of_c());
    assert_eq!(c.len(), 14);
    assert_eq!(c["strip_mean"].0[2], ("*mut u32".to_string(), "out".to_string()));
    assert_eq!(rust, c);
}

/// The numbers that the header defines.
fn numbers_of_c() -> BTreeMap<String, u64> {
    let text = header();
    let defined = text.lines().filter_map(|line| line.strip_prefix("#define STRIP_")?.split_once(' '));
    defined.map(|(name, number)| (name.to_string(), number.trim().parse().unwrap())).collect()
}

#[test]
fn constants_are_those_of_the_header() {
    let ours = [
        ("TEXT_BYTES", TEXT_BYTES as u64),
        ("SCRATCH_WORDS", SCRATCH_WORDS as u64),
        ("SHEET_BYTES", SHEET_BYTES as u64),
        ("PAGE_BYTES", PAGE_BYTES as u64),
        ("ITEM_LIMIT", ITEM_LIMIT as u64),
        ("RUST_COLORS", RUST_COLORS.into()),
        ("CSS_COLORS", CSS_COLORS.into()),
        ("SINE", SINE.into()),
        ("SAWTOOTH", SAWTOOTH.into()),
        ("SQUARE", SQUARE.into()),
        ("TRIANGLE", TRIANGLE.into()),
        ("WAVE_HEIGHTS", WAVE_HEIGHTS as u64),
        ("TOTALS_WORDS", TOTALS_WORDS as u64),
        ("KIND_WORD", KIND_WORD as u64),
        ("ENTRIES_WORD", ENTRIES_WORD as u64),
    ];
    assert_eq!(BTreeMap::from(ours.map(|(name, number)| (name.to_string(), number))), numbers_of_c());
    // the two limits that the header has in words
    let words = source("../c/strip.h").replace(',', "");
    assert!(words.contains(&format!("Totals of {SCRIPT_LIMIT} scripts")) && words.contains(&format!("above {FIGURE_LIMIT}")));
    assert_eq!(KIND_WORD + KINDS.len(), ENTRIES_WORD);
}

/// `NotASheet` as the header writes it, `NOT_A_SHEET`.
fn name_in_c(name: &str) -> String {
    let letters = name.char_indices().flat_map(|(at, letter)| {
        let gap = (at > 0 && letter.is_ascii_uppercase()).then_some('_');
        gap.into_iter().chain([letter.to_ascii_uppercase()])
    });
    letters.collect()
}

#[test]
fn refusals_are_those_of_the_header() {
    let text = header();
    let start = text.find("enum strip_refusal {").unwrap();
    let list = &text[start..start + text[start..].find('}').unwrap()];
    let rows = list.split(['{', ',']).filter_map(|row| row.trim().strip_prefix("STRIP_")?.split_once(" = "));
    let theirs: BTreeMap<String, u8> = rows.map(|(name, number)| (name.to_string(), number.trim().parse().unwrap())).collect();
    let accepted = [("ACCEPTED".to_string(), 0)].into_iter();
    let ours = Refusal::ALL.iter().map(|refusal| (name_in_c(refusal.name()), refusal.number()));
    assert_eq!(accepted.chain(ours).collect::<BTreeMap<_, _>>(), theirs);
}

/// The files of a folder and of those in it.
fn files(folder: PathBuf) -> Vec<PathBuf> {
    let entries = fs::read_dir(folder).unwrap().map(|entry| entry.unwrap().path());
    entries.flat_map(|path| if path.is_dir() { files(path) } else { vec![path] }).collect()
}

#[test]
fn each_public_function_has_an_example() {
    let mut count = 0;
    for path in files(Path::new(env!("CARGO_MANIFEST_DIR")).join("src")) {
        let text = fs::read_to_string(&path).unwrap();
        let mut comment = String::new();
        for line in text.lines().map(str::trim_start) {
            if line.starts_with("///") {
                comment += line;
            } else if line.starts_with("pub fn ") || line.starts_with("pub const fn ") {
                assert!(comment.contains("```"), "{}: {line}", path.display());
                count += 1;
            } else if !line.starts_with("#[") {
                comment.clear();
            }
        }
    }
    assert!(count >= 50, "{count} functions");
}
