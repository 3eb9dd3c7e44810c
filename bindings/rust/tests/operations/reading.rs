//! Reading, checking, colours and converting.
use crate::{refused, sheet_of};
use strip::{CSS_COLORS, PAGE_BYTES, RUST_COLORS, SCRATCH_WORDS, SHEET_BYTES, TEXT_BYTES};
use strip::{Read, Refusal, Totals, check, color, convert, feed, line, order, plane, print, read, unplane, write};

#[test]
fn a_script_is_read_checked_and_lined() {
    let text = b"at 0.5;";
    let (sheet, records) = sheet_of(text);
    assert_eq!(sheet, [0, 1, 14, 0, 0, 0x3F, 0, 0, 0, 0]);
    assert_eq!(records, 1);
    assert_eq!(check(text, &sheet, RUST_COLORS), Ok(()));
    let mut output = [7; 32];
    assert_eq!(line(text, &sheet, 0, &mut output), Ok(11));
    assert_eq!(&output[..11], b"00020001FD\n");
    assert_eq!(output[11..], [7; 21]);
    assert_eq!(line(text, &sheet, 1, &mut output), Ok(23));
    assert_eq!(&output[..23], b"00080E00003F00000000AB\n");
}

/// How many numbers of a text that reading accepts are rounded.
fn rounded_in(text: &str) -> usize {
    let Ok(Read { rounded, .. }) = read(text.as_bytes(), &mut [0; SCRATCH_WORDS], &mut vec![0; SHEET_BYTES]) else {
        panic!("{text:?} is refused");
    };
    rounded
}

#[test]
fn rounded_numbers_are_counted() {
    assert_eq!(rounded_in(""), 0);
    assert_eq!(rounded_in("at 0.5; at -0; at 16777216"), 0);
    assert_eq!(rounded_in("at 0.1; at - 0.1; at 16777217; at 0.1"), 4);
    // a percent by its end value
    assert_eq!(rounded_in("keyframes p {0%: 0, 25%: 0, 1677721500%: 0}"), 0);
    assert_eq!(rounded_in("keyframes p {1%: 0, 1677721400%: 0.1}"), 3);
    // a default is not written, an overridden field is, and a velocity counts once
    assert_eq!(rounded_in("stagger pattern: random() {}"), 0);
    assert_eq!(rounded_in("stagger pattern: random(max: 0.1) {}"), 1);
    assert_eq!(rounded_in("tween p: 0 => 1 duration: 0.1 duration: 1"), 1);
    assert_eq!(rounded_in("spring p: 0 => 1 velocity: [0.1, 0.5, 0.2]"), 2);
    // a whole u32 is kept
    assert_eq!(rounded_in("tween p: 0 => 1 duration: 1 round: 16777217 loop: times(16777217)"), 0);
}

#[test]
fn a_list_of_colours_is_chosen() {
    let text = br#"color c: "tomato" => "RED" duration: 1"#;
    let (sheet, _) = sheet_of(text);
    let no_list = Err(refused(Refusal::UnknownList, 0));
    assert_eq!(check(text, &sheet, RUST_COLORS), Err(refused(Refusal::InvalidColor, 1)));
    assert_eq!(check(text, &sheet, CSS_COLORS), Ok(()));
    for list in [0, 3, u32::MAX] {
        assert_eq!(check(text, &sheet, list), no_list);
        assert_eq!(check(text, b"", list), no_list);
        assert_eq!(check(b"a\xFF", &sheet, list), Err(refused(Refusal::BadForm, 1)));
        let mut out = [3; 64];
        assert_eq!(write(text, &sheet, &mut out, list), Err(refused(Refusal::UnknownList, 0)));
        assert_eq!(out, [0; 64]);
        let mut totals = Totals::default();
        let (mut scratch, mut room) = (vec![0; SCRATCH_WORDS], vec![0; SHEET_BYTES]);
        assert_eq!(feed(&mut totals, text, &mut scratch, &mut room, list), Ok(no_list));
        assert_eq!((totals.scripts(), totals.refused(Refusal::UnknownList)), (1, 1));
    }
}

#[test]
fn a_colour_has_four_bytes() {
    assert_eq!(color(b"Tomato"), Ok([255, 99, 71, 255]));
    assert_eq!(color(b"#aBc"), Ok([0xAA, 0xBB, 0xCC, 255]));
    assert_eq!(color(b"#1234"), Ok([0x11, 0x22, 0x33, 0x44]));
    assert_eq!(color(b"#102030"), Ok([0x10, 0x20, 0x30, 255]));
    assert_eq!(color(b"#01020304"), Ok([1, 2, 3, 4]));
    for string in [&b""[..], b"#", b"#12", b"#12345", b"#ggg", b"transparent", b"currentcolor", b"redd", &[b'a'; 70_000]] {
        assert_eq!(color(string), Err(refused(Refusal::InvalidColor, 0)));
    }
}

#[test]
fn noise_is_refused_and_converted() {
    let text = b"sequence { waveform noise frequency: 1 }";
    let answer = read(text, &mut [0; SCRATCH_WORDS], &mut vec![0; SHEET_BYTES]);
    assert_eq!(answer, Err(refused(Refusal::NoiseWritten, 26)));
    // the sheet of that text from before, with a second node behind it whose start is 4
    let mut sheet = vec![0, 2, 3, 0, 0, 0, 1, 11, 0, 11, 4, 1, 0x3F, 0x80, 0, 0, 0, 0, 0, 0, 0, 0, 14, 0, 4, 0, 0, 0, 4, 0];
    let before = sheet.clone();
    for list in [RUST_COLORS, CSS_COLORS] {
        assert_eq!(check(text, &sheet, list), Err(refused(Refusal::NoiseHeld, 2)));
    }
    assert_eq!(convert(&vec![b' '; TEXT_BYTES + 1], &mut sheet), Err(refused(Refusal::TextTooLong, 0)));
    assert_eq!(convert(b"a\xFF", &mut sheet), Err(refused(Refusal::BadForm, 1)));
    assert_eq!(convert(text, &mut sheet[1..]), Err(refused(Refusal::NotASheet, 0)));
    assert_eq!(sheet, before);
    for _ in 0..2 {
        assert_eq!(convert(text, &mut sheet), Ok(()));
        assert_eq!((&sheet[..10], sheet[10], &sheet[11..]), (&before[..10], 3, &before[11..]));
    }
    assert_eq!(check(text, &sheet, RUST_COLORS), Ok(()));
}

#[test]
fn refusals_of_reading_clear_what_is_lent_but_for_two() {
    let (mut scratch, mut sheet) = (vec![3; SCRATCH_WORDS], vec![4; 100]);
    assert_eq!(read(&vec![b' '; TEXT_BYTES + 1], &mut scratch, &mut sheet), Err(refused(Refusal::TextTooLong, 0)));
    assert_eq!(read(b"at 1", &mut scratch[1..], &mut sheet), Err(refused(Refusal::ScratchTooShort, 0)));
    assert!(scratch.iter().all(|&w| w == 3) && sheet.iter().all(|&b| b == 4));
    assert_eq!(read(b"at 1; at", &mut scratch, &mut sheet), Err(refused(Refusal::Malformed, 8)));
    assert!(scratch.iter().all(|&w| w == 0) && sheet.iter().all(|&b| b == 0));
}

#[test]
fn reading_asks_for_sixty_four_words() {
    let (sixty_four, sixty_five) = ("(".repeat(64) + &")".repeat(64), "(".repeat(65));
    for text in ["sequence {at 1;}", "at 1", "at", "\"", &sixty_four, &sixty_five] {
        let left = |words| {
            let (mut scratch, mut sheet) = (vec![3; words], vec![4; 100]);
            let answer = read(text.as_bytes(), &mut scratch, &mut sheet);
            (answer, scratch, sheet)
        };
        assert_eq!(left(63), (Err(refused(Refusal::ScratchTooShort, 0)), vec![3; 63], vec![4; 100]));
        let (answer, scratch, sheet) = left(64);
        assert_eq!(scratch, [0; 64]);
        for words in [65, 16_384, 65_537] {
            assert_eq!(left(words), (answer, vec![0; words], sheet.clone()));
        }
    }
    assert_eq!(read(sixty_four.as_bytes(), &mut [0; 64], &mut [0; 100]), Err(refused(Refusal::Missing, 0)));
    assert_eq!(read(sixty_five.as_bytes(), &mut [0; 64], &mut [0; 100]), Err(refused(Refusal::TooManyOpen, 64)));
    let (mut totals, mut page) = (Totals::default(), vec![3; PAGE_BYTES]);
    let short = Err(refused(Refusal::ScratchTooShort, 0));
    assert_eq!(feed(&mut totals, b"at 1", &mut [0; 63], &mut [0; 100], RUST_COLORS), Ok(short));
    assert_eq!(print(b"at 1", &mut [0; 63], &mut [0; 100], &mut page, RUST_COLORS), Ok(15));
    assert_eq!(&page[..15], b"refuse 16 at 0\n");
}

#[test]
fn the_longest_values_come_back() {
    let text = "at 1;".repeat(TEXT_BYTES / 5);
    let (sheet, records) = sheet_of(text.as_bytes());
    assert_eq!((sheet.len(), records), (2 + 8 * 3276, 3276));
    // the longest place of a refusal of reading
    let mut open = vec![b' '; TEXT_BYTES];
    open[0] = b'(';
    assert_eq!(read(&open, &mut [0; SCRATCH_WORDS], &mut vec![0; SHEET_BYTES]), Err(refused(Refusal::Unbalanced, TEXT_BYTES)));
    // the greatest ordinal
    let answer = line(b"", &[0, 0], u32::MAX, &mut [0; 64]);
    assert_eq!(answer, Err(refused(Refusal::NoSuchRecord, u32::MAX as usize)));
}

#[test]
fn two_frames_at_one_time_are_refused() {
    let text = b"keyframes p {50%: 0, 0.5s: 1}";
    let (sheet, _) = sheet_of(text);
    assert_eq!(check(text, &sheet, RUST_COLORS), Err(refused(Refusal::DuplicateTime, 1)));
}

#[test]
fn slices_may_be_empty() {
    assert_eq!(sheet_of(b""), (vec![0, 0], 0));
    assert_eq!(read(b"", &mut [], &mut []), Err(refused(Refusal::ScratchTooShort, 0)));
    assert_eq!(read(b"", &mut [0; SCRATCH_WORDS], &mut []), Err(refused(Refusal::SheetTooShort, 0)));
    assert_eq!(check(b"", b"", RUST_COLORS), Err(refused(Refusal::NotASheet, 0)));
    assert_eq!(line(b"", b"", 0, &mut []), Err(refused(Refusal::NotASheet, 0)));
    assert_eq!(line(b"", &[0, 0], 0, &mut []), Err(refused(Refusal::OutputTooShort, 0)));
    assert_eq!(write(b"", &[0, 0], &mut [], RUST_COLORS), Ok(0));
    assert_eq!(order(b"", &mut []), Ok(0));
    assert_eq!(plane(b"", b"", &mut []), Err(refused(Refusal::NotASheet, 0)));
    assert_eq!(unplane(b"", b"", &mut []), Err(refused(Refusal::NotPlaned, 0)));
}
