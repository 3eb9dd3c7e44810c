//! The workspace and its sheets beside the functions over slices.
use crate::{refused, sheet_of};
use strip::{CSS_COLORS, RUST_COLORS, SCRIPT_LIMIT, SHEET_BYTES, TEXT_BYTES};
use strip::{Refusal, Refused, Totals, Workspace, feed, plane, unplane};

#[test]
fn a_workspace_is_used_again() {
    let mut workspace = Workspace::new();
    let most = "at 1;".repeat(TEXT_BYTES / 5);
    let first = workspace.compile(most.as_bytes(), RUST_COLORS).unwrap();
    assert_eq!(workspace.compile(b"at 1; tween", RUST_COLORS), Err(refused(Refusal::Missing, 11)));
    assert_eq!(workspace.compile(&vec![b' '; TEXT_BYTES + 1], RUST_COLORS), Err(refused(Refusal::TextTooLong, 0)));
    for text in [&b"at 0.1"[..], b"", b"keyframes p {0: 0, 1: [1]}"] {
        let sheet = workspace.read(text).unwrap();
        assert_eq!((sheet.bytes(), sheet.records()), (&sheet_of(text).0[..], sheet_of(text).1));
        assert_eq!(sheet.text(), text);
    }
    // a sheet outlives the use of its workspace for another text
    assert_eq!((first.bytes(), first.records()), (&sheet_of(most.as_bytes()).0[..], 3276));
    assert_eq!(Workspace::new().compile(b"at 0.1", CSS_COLORS).map(|sheet| sheet.rounded()), Ok(1));
}

#[test]
fn compiling_refuses_as_reading_and_then_as_checking() {
    let mut workspace = Workspace::new();
    for (text, list, refusal, place, record) in [
        (&b"at 0.5; tween"[..], 3, Refusal::Missing, 13, None),
        (b"waveform noise", RUST_COLORS, Refusal::NoiseWritten, 14, None),
        (b"at 1", 3, Refusal::UnknownList, 0, None),
        (b"at 1; keyframes p {50%: 0, 0.5s: 1}", RUST_COLORS, Refusal::DuplicateTime, 2, Some(2)),
        (br#"color c: "tomato" => "red" duration: 1"#, RUST_COLORS, Refusal::InvalidColor, 1, Some(1)),
    ] {
        let answer = workspace.compile(text, list).unwrap_err();
        assert_eq!((answer, answer.record()), (refused(refusal, place), record));
    }
    assert!(workspace.compile(br#"color c: "tomato" => "red" duration: 1"#, CSS_COLORS).is_ok());
    assert_eq!(strip::color(b"none").unwrap_err().record(), None);
}

#[test]
fn a_sheet_has_lines_starts_a_script_and_a_planed_form() -> Result<(), Refused> {
    let text = b"sequence {\n keyframes p {0: 1, 50%: -2}\n}";
    let sheet = Workspace::new().compile(text, RUST_COLORS)?;
    assert_eq!(sheet.line(0)?, "00020001FD\n");
    assert_eq!((1..4).map(|ordinal| sheet.start(ordinal)).collect::<Vec<_>>(), [Some(0), Some(12), None]);
    assert_eq!(sheet.line(9), Err(refused(Refusal::NoSuchRecord, 9)));
    assert_eq!(sheet.write(RUST_COLORS)?, "sequence { keyframes p { 0 : 1 , 50 % : - 2 } ; } ;");
    assert_eq!(sheet.write(0), Err(refused(Refusal::UnknownList, 0)));
    let (mut planed, mut again) = (vec![0; SHEET_BYTES], vec![0; sheet.bytes().len()]);
    let length = plane(text, sheet.bytes(), &mut planed)?;
    assert_eq!(sheet.plane()?, planed[..length]);
    unplane(text, &sheet.plane()?, &mut again)?;
    assert_eq!(again, sheet.bytes());
    assert_eq!(sheet.clone().into_bytes(), sheet.bytes());
    Ok(())
}

#[test]
fn a_workspace_prints_and_feeds_as_the_functions_do() -> Result<(), Refused> {
    let mut workspace = Workspace::new();
    let (mut totals, mut same) = (Totals::new(), Totals::new());
    for (text, page) in [
        (&b"at 0.5;"[..], "00020001FD\n00080E00003F00000000AB\naccept 1\n"),
        (b"", "00020000FE\naccept 0\n"),
        (b"tween", "refuse 6 at 5\n"),
        (b"preset fadein", "refuse 24 at 1\n"),
    ] {
        assert_eq!(workspace.print(text, RUST_COLORS)?, page);
        let verdict = feed(&mut same, text, &mut [0; 64], &mut vec![0; SHEET_BYTES], RUST_COLORS)?;
        assert_eq!(workspace.feed(&mut totals, text, RUST_COLORS)?, verdict);
        assert_eq!(workspace.compile(text, RUST_COLORS).map(|_| ()), verdict);
    }
    assert_eq!((&totals, totals.scripts(), totals.accepted()), (&same, 4, 2));
    totals.0[0] = SCRIPT_LIMIT;
    assert_eq!(workspace.feed(&mut totals, b"", RUST_COLORS), Err(refused(Refusal::TooManyScripts, 0)));
    Ok(())
}

#[test]
fn a_refusal_is_an_error_with_words() {
    let error: Box<dyn std::error::Error> = refused(Refusal::TooFewFrames, 3).into();
    assert_eq!(error.to_string(), "refused with 27 at 3: a track of fewer than 2 frames");
    for &refusal in Refusal::ALL {
        assert_eq!(refusal.to_string(), refusal.cause());
        assert!(!refusal.cause().is_empty() && !refusal.cause().ends_with('.'));
    }
}
