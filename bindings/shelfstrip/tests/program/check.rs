use crate::room::{EXAMPLES, Room, example};

#[test]
fn accepts_the_examples() {
    let ran = Room::new().run(["check".into()].into_iter().chain(EXAMPLES.map(|name| example(&format!("{name}.strip")))));
    assert_eq!((ran.status, ran.out.as_str(), ran.err.as_str()), (0, "", ""));
}

#[test]
fn shows_a_record_by_its_keyword() {
    let room = Room::new();
    let ran = room.file("a.strip", "at 1;\n  preset fadein").run(["check", "a.strip"]);
    let wanted = "\
error[24]: UnknownPreset: an unknown preset
  --> a.strip:2:3
  |
2 |   preset fadein
  |   ^^^^^^ record 2

";
    assert_eq!((ran.status, ran.out.as_str(), ran.err.as_str()), (1, "", wanted));
    // the repository's README shows it
    let readme = std::fs::read_to_string(example("../README.md")).unwrap();
    assert!(readme.contains(&format!("$ shelfstrip check a.strip\n{}", wanted.trim_end())));
}

#[test]
fn shows_a_place_in_the_text() {
    let cases = [("tween : 0 => 1", "1:7", "tween : 0 => 1\n  |       ^\n"), ("sequence {", "1:11", "sequence {\n  |           ^\n")];
    for (text, place, mark) in cases {
        let ran = Room::new().feed(text.as_bytes(), ["check", "-"]);
        assert_eq!(ran.status, 1);
        assert!(ran.err.contains(&format!("  --> standard input:{place}\n")), "{}", ran.err);
        assert!(ran.err.contains(mark), "{}", ran.err);
    }
}

#[test]
fn shows_the_place_behind_the_last_line_feed() {
    let ran = Room::new().feed(b"at 1;\nsequence {\n", ["check", "-"]);
    assert!(ran.err.starts_with("error[4]: Unbalanced: ") && ran.err.contains("standard input:3:1\n"), "{}", ran.err);
}

#[test]
fn shows_the_part_of_a_long_line_that_has_the_place() {
    let text = format!("{}preset fadein; {}", "at 1; ".repeat(500), "at 2; ".repeat(500));
    let ran = Room::new().feed(text.as_bytes(), ["check", "-"]);
    assert!(ran.err.contains("standard input:1:3001\n"), "{}", ran.err);
    assert!(ran.err.lines().all(|line| line.len() < 140), "{}", ran.err);
    let lines: Vec<&str> = ran.err.lines().collect();
    let column = lines[4].find('^').unwrap();
    assert!(lines[3][column..].starts_with("preset fadein"), "{}", ran.err);
}

#[test]
fn control_characters_do_not_reach_the_terminal() {
    let ran = Room::new().feed(b"at 1; \x1b[31m \xff \xc3\xa4", ["check", "-"]);
    assert_eq!(ran.status, 1);
    assert!(ran.err.starts_with("error[2]: BadForm: ") && ran.err.contains("standard input:1:7\n"), "{}", ran.err);
    assert!(!ran.err.contains('\x1b'), "{}", ran.err);
}

#[test]
fn takes_a_list_of_colours() {
    let text = br#"color c: "tomato" => "red" duration: 1"#;
    assert_eq!(Room::new().feed(text, ["check", "-", "--colors", "css"]).status, 0);
    for arguments in [&["check", "-"][..], &["check", "--colors", "rust", "-"]] {
        let ran = Room::new().feed(text, arguments);
        assert_eq!(ran.status, 1);
        assert!(ran.err.starts_with("error[25]: InvalidColor: "), "{}", ran.err);
    }
}

#[test]
fn tells_each_refused_file_and_goes_on() {
    let room = Room::new();
    room.file("a", "tween").file("b", "at 1").file("c", "preset x");
    let ran = room.run(["check", "a", "b", "c"]);
    assert_eq!(ran.status, 1);
    assert!(ran.err.contains("--> a:1:6\n") && ran.err.contains("--> c:1:1\n") && !ran.err.contains("--> b"), "{}", ran.err);
}

#[test]
fn guesses_no_near_name() {
    let ran = Room::new().feed(b"preset fade_inn", ["check", "-"]);
    assert!(!ran.err.contains("fade_in\n") && !ran.err.contains("did you mean"), "{}", ran.err);
}

#[test]
fn shows_every_refusal_of_reading_at_its_place() {
    let digits = format!("at {}", "1".repeat(41));
    let openers = "(".repeat(65);
    let nested = format!("{}{}", "sequence{".repeat(17), "}".repeat(17));
    let cases: [(u8, &str, usize); 13] = [
        (2, "at 1x", 3),
        (3, &digits, 3),
        (4, "sequence {", 10),
        (5, &openers, 64),
        (6, "tween : 0 => 1", 6),
        (7, "twen p: 0 => 1", 5),
        (8, "tween p: x => 1", 9),
        (9, "spring p: 0 => 1 preset: soft", 29),
        (10, "tween p: 0 => 1", 15),
        (11, "stagger pattern: grid(cols: 2) {}", 29),
        (12, &nested, 152),
        (13, "draw \"m\" duration: 1 easing: steps(3, 4)", 36),
        (15, "waveform noise", 14),
    ];
    for (number, script, place) in cases {
        let ran = Room::new().feed(script.as_bytes(), ["check", "-"]);
        assert_eq!(ran.status, 1);
        assert!(ran.err.starts_with(&format!("error[{number}]: ")), "{}", ran.err);
        assert!(ran.err.contains(&format!("--> standard input:1:{}\n", place + 1)), "{}", ran.err);
        // the mark is under the place; of what is before it, 60 bytes are shown
        let shown = if place > 60 { "...".len() + 60 } else { place };
        let marked = ran.err.lines().nth(4).unwrap();
        let told = if matches!(number, 7 | 9..=11 | 15) { " what is refused stands before this" } else { "" };
        assert_eq!(marked, format!("  | {}^{told}", " ".repeat(shown)), "{}", ran.err);
    }
}

#[test]
fn shows_every_refusal_of_checking_at_its_record() {
    let cases = [
        (21, "tween p: 0 => 1 duration: -1"),
        (22, "tween p: 0 => [] duration: 1"),
        (23, "tween p: 0 => 1 duration: 1 easing: fast"),
        (24, "preset fadein"),
        (25, "color c: \"redd\" => \"red\" duration: 1"),
        (26, "keyframes p {50%: 0, 0.5s: 1}"),
        (27, "keyframes p {0: 0}"),
    ];
    for (number, script) in cases {
        let ran = Room::new().feed(format!("at 1;\n\tsequence {{ {script} }}").as_bytes(), ["check", "-"]);
        assert_eq!(ran.status, 1);
        assert!(ran.err.starts_with(&format!("error[{number}]: ")), "{}", ran.err);
        assert!(ran.err.contains("--> standard input:2:13\n"), "{}", ran.err);
        let keyword = script.split(' ').next().unwrap();
        let marked = ran.err.lines().nth(4).unwrap();
        assert_eq!(marked, format!("  | {}{} record 3", " ".repeat(12), "^".repeat(keyword.len())), "{}", ran.err);
    }
}
