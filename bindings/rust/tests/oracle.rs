//! Trees beside those of the Rust, on generated scripts, and their types. Not part of the gate: STRIP_ORACLE names the program that
//! oracle/build.sh builds, STRIP_GENERATED says how many scripts (100,000 if unset), STRIP_SEED where they begin (1 if unset),
//! ORACLE_SOURCES the folder of the Rust sources (that of oracle/build.sh if unset).
//! oracle/README.md has the command.
mod cases;

use cases::{bytes, hexadecimal};
use std::fs::{self, File};
use std::path::{Path, PathBuf};
use std::process::{Command, Stdio};
use strip::tree::Tree;
use strip::{RUST_COLORS, Refused, Sheet, Workspace};

/// Scripts of one call of the program.
const BATCH: u64 = 5_000;

fn setting(name: &str, default: u64) -> u64 {
    std::env::var(name).map_or(default, |number| number.parse().unwrap())
}

/// What the program prints, with a file of lines as its input.
fn answers(arguments: &[&str], input: Option<&PathBuf>) -> String {
    let program = std::env::var_os("STRIP_ORACLE").expect("STRIP_ORACLE names the program");
    let input = input.map_or(Stdio::null(), |path| File::open(path).unwrap().into());
    let output = Command::new(program).args(arguments).stdin(input).stderr(Stdio::inherit()).output().unwrap();
    assert!(output.status.success(), "{arguments:?}");
    String::from_utf8(output.stdout).unwrap()
}

/// Lines that the program generates, and a file that holds them.
fn generated(arguments: &[&str], name: &str) -> (String, PathBuf) {
    let lines = answers(arguments, None);
    let path = Path::new(env!("CARGO_TARGET_TMPDIR")).join(name);
    fs::write(&path, &lines).unwrap();
    (lines, path)
}

fn refusal(refused: Refused) -> String {
    format!("refuse {} at {}", refused.refusal.number(), refused.place)
}

/// Compares a sheet, its verdict and its tree with the program's: the sheet that the tree is encoded to bit for bit, and the tree with
/// its fields' and cases' names as `{:?}` prints it.
fn compare(sheet: &Sheet, read: &str, dump: &str) {
    let tree = sheet.tree().unwrap();
    let verdict = sheet.check(RUST_COLORS).map_or_else(refusal, |()| "accept".to_string());
    assert_eq!(format!("accept {} {}\t{verdict}", sheet.records(), hexadecimal(&tree.encode())), read);
    assert_eq!(format!("{:?}", tree.nodes()), dump);
    assert_eq!(tree.encode(), sheet.bytes());
}

/// Reads so many scripts of a kind, from a seed on, and gives how many are accepted.
fn compared(seed: u64, count: u64, kind: &str) -> u64 {
    let (texts, path) = generated(&["gen", &seed.to_string(), &count.to_string(), kind], kind);
    let (reads, dumps) = (answers(&["read"], Some(&path)), answers(&["read", "--dump"], Some(&path)));
    fs::remove_file(path).unwrap();
    let (mut workspace, mut accepted) = (Workspace::new(), 0);
    let mut answers = reads.lines().zip(dumps.lines());
    for text in texts.lines() {
        let (read, dump) = answers.next().expect("an answer for each script");
        match workspace.read(&bytes(text)) {
            Ok(sheet) => {
                compare(&sheet, read, dump);
                accepted += 1;
            }
            Err(refused) => assert_eq!((refusal(refused), refusal(refused)), (read.to_string(), dump.to_string()), "{text}"),
        }
    }
    assert_eq!(answers.next(), None);
    accepted
}

/// What a file of types declares: its lines without comments, attributes, imports and spans.
fn declared(path: PathBuf) -> Vec<String> {
    let text = fs::read_to_string(&path).unwrap_or_else(|error| panic!("{}: {error}", path.display()));
    let left_out = ["//", "#[", "use ", "pub span: Span,"];
    let lines = text.lines().filter(|line| !left_out.iter().any(|front| line.trim_start().starts_with(front)));
    lines.filter(|line| !line.trim().is_empty()).map(String::from).collect()
}

#[test]
#[ignore = "needs the Rust sources"]
fn types_are_those_of_the_rust() {
    let here = Path::new(env!("CARGO_MANIFEST_DIR"));
    let sources = std::env::var_os("ORACLE_SOURCES").map_or(here.join("../../../shared/docs/src"), PathBuf::from);
    let ours = ["nodes.rs", "values.rs"].map(|file| declared(here.join("src/tree").join(file))).concat();
    assert_eq!(ours, declared(sources.join("crates/animato-macro/src/ast.rs")));
    println!("{} lines of declarations", ours.len());
}

#[test]
#[ignore = "needs the program of oracle/"]
fn trees_are_those_of_the_rust() {
    let wanted = setting("STRIP_GENERATED", 100_000);
    let (mut seed, mut scripts, mut accepted) = (setting("STRIP_SEED", 1), 0, 0);
    while accepted < wanted {
        for (kind, count) in [("grammar", BATCH), ("all", BATCH / 2), ("long", BATCH / 4), ("rare", BATCH / 4)] {
            accepted += compared(seed, count, kind);
            scripts += count;
        }
        seed += 1;
        println!("{scripts} scripts, {accepted} trees compared, the next seed is {seed}");
    }
}

/// The program's verdict on a sheet if there is nothing to check: 1, 2 or 20.
fn unopened(verdict: &str) -> Option<&str> {
    ["refuse 1 ", "refuse 2 ", "refuse 20 "].iter().any(|front| verdict.starts_with(front)).then_some(verdict)
}

#[test]
#[ignore = "needs the program of oracle/"]
fn sheets_have_a_tree_exactly_if_the_program_checks_them() {
    let (wanted, mut seed) = (setting("STRIP_GENERATED", 100_000), setting("STRIP_SEED", 1));
    let (mut sheets, mut trees) = (0, 0);
    while sheets < wanted {
        let (lines, path) = generated(&["gen-sheets", &seed.to_string(), &BATCH.to_string()], "sheets");
        let verdicts = answers(&["check"], Some(&path));
        fs::remove_file(path).unwrap();
        assert_eq!(lines.lines().count(), verdicts.lines().count());
        for (line, verdict) in lines.lines().zip(verdicts.lines()) {
            let (text, sheet) = cases::text_and_sheet(line);
            let answer = Tree::decode(&text, &sheet);
            assert_eq!(answer.as_ref().err().copied().map(refusal).as_deref(), unopened(verdict), "{line}");
            if let Ok(tree) = answer {
                assert_eq!(tree.encode(), sheet, "{line}");
                trees += 1;
            }
        }
        sheets += BATCH;
        seed += 1;
        println!("{sheets} sheets, {trees} trees encoded again, the next seed is {seed}");
    }
}
