//! Lines, pages, scripts, planes and waveforms.
use crate::{refused, sheet_of};
use strip::{PAGE_BYTES, RUST_COLORS, SAWTOOTH, SCRATCH_WORDS, SHEET_BYTES, SINE, SQUARE, TEXT_BYTES, TRIANGLE, WAVE_HEIGHTS};
use strip::{Refusal, Refused, plane, print, unplane, wave, write};

/// What printing writes for a text, on a page that is otherwise as it was.
fn printed(text: &[u8]) -> Vec<u8> {
    let (mut scratch, mut sheet, mut page) = (vec![1; SCRATCH_WORDS], vec![2; SHEET_BYTES], vec![3; PAGE_BYTES]);
    let Ok(length) = print(text, &mut scratch, &mut sheet, &mut page, RUST_COLORS) else {
        panic!("{:?} is refused", String::from_utf8_lossy(text));
    };
    assert!(page[length..].iter().all(|&b| b == 3));
    page.truncate(length);
    page
}

#[test]
fn a_script_is_printed_on_a_page() {
    assert_eq!(printed(b"at 0.5;"), b"00020001FD\n00080E00003F00000000AB\naccept 1\n");
    assert_eq!(printed(b""), b"00020000FE\naccept 0\n");
    assert_eq!(printed(b"tween"), b"refuse 6 at 5\n");
    assert_eq!(printed(b"keyframes p {50%: 0, 0.5s: 1}"), b"refuse 26 at 1\n");
    assert_eq!(printed(&vec![b' '; TEXT_BYTES + 1]), b"refuse 1 at 0\n");
    // lines, and then a record whose line is longer than 65,536 bytes
    let frames: String = (0..99).map(|k| format!("{k}:0,")).collect();
    let text = format!("at 1;keyframes p{{{frames}99:[{}]}}", vec!["0"; 7938].join(","));
    assert_eq!(printed(text.as_bytes()), b"00020002FC\n00080E00003F800000002B\nrefuse 32 at 2\n");
}

#[test]
fn a_page_of_fewer_bytes_is_refused_and_nothing_is_touched() {
    let (mut scratch, mut sheet, mut page) = (vec![1; SCRATCH_WORDS], vec![2; SHEET_BYTES], vec![3; PAGE_BYTES - 1]);
    let answer = print(b"at 1", &mut scratch, &mut sheet, &mut page, RUST_COLORS);
    assert_eq!(answer, Err(refused(Refusal::OutputTooShort, 0)));
    assert!(scratch.iter().all(|&w| w == 1) && sheet.iter().all(|&b| b == 2) && page.iter().all(|&b| b == 3));
}

/// The script that is written back from a text that reading accepts, in a buffer that is zero behind it.
fn written(text: &[u8]) -> Vec<u8> {
    let (sheet, _) = sheet_of(text);
    let mut out = vec![3; TEXT_BYTES];
    let Ok(length) = write(text, &sheet, &mut out, RUST_COLORS) else {
        panic!("{:?} is not written", String::from_utf8_lossy(text));
    };
    assert!(out[length..].iter().all(|&b| b == 0));
    out.truncate(length);
    out
}

#[test]
fn a_script_is_written_back() {
    for (text, script) in [
        ("", ""),
        (" at 0.500s", "at 0.5 ;"),
        ("at--1;at+ 0", "at + 1 ; at + 0 ;"),
        ("at 10000000; at 16777216", "at 9999999.5 ; at 16777216 ;"),
        (
            "keyframes p{loop:once,0%:[ ];0.5:[1,]Easing::Linear}",
            "keyframes p { 0 % : [ ] , 0.5 : [ 1 ] Easing :: Linear , loop : once } ;",
        ),
        ("sequence{label \"a b\";preset fade_in(duration:1)}", "sequence { label \"a b\" ; preset fade_in , duration : 1 ; } ;"),
        ("tween p:0=>1 reverse:false,delay:1,duration:1", "tween p : 0 => 1 duration : 1 delay : 1 ;"),
        ("stagger pattern: random(max: 0.1, min: -0) {}", "stagger pattern : random ( min : - 0 ) { } ;"),
    ] {
        assert_eq!(String::from_utf8_lossy(&written(text.as_bytes())), script);
        assert_eq!(written(script.as_bytes()), script.as_bytes());
    }
}

#[test]
fn writing_refuses_what_checking_does_then_34_then_35_with_zeros() {
    let at = |bits: u32, relative: u8| [&[0, 1, 14, 0, 0], &bits.to_be_bytes()[..], &[relative]].concat();
    let (one, nan) = (0x3F80_0000, 0x7FC0_0000);
    for (text, sheet, room, refusal, place) in [
        (&vec![b' '; TEXT_BYTES + 1][..], vec![], 9, Refusal::TextTooLong, 0),
        (b"at 1\xFF", at(one, 0), 9, Refusal::BadForm, 4),
        (b"at 1", vec![0, 1], 9, Refusal::NotASheet, 0),
        (b"at 1; preset p", sheet_of(b"at 1; preset p").0, 0, Refusal::UnknownPreset, 2),
        (b"at 1", at(nan, 0), 9, Refusal::Unwritable, 0),
        (b"at 1", at(nan, 1), 3, Refusal::Unwritable, 0),
        (b"at 1", at(0xBF80_0000, 0), 9, Refusal::Unwritable, 0),
        (b"at 1", at(one, 0), 5, Refusal::ScriptTooLong, 0),
        (&b"at 1;".repeat(3276), sheet_of(&b"at 1;".repeat(3276)).0, 32_768, Refusal::ScriptTooLong, 0),
    ] {
        let mut out = vec![3; room];
        assert_eq!(write(text, &sheet, &mut out, RUST_COLORS), Err(refused(refusal, place)));
        assert!(out.iter().all(|&b| b == 0));
    }
    assert_eq!(write(b"at 1", &at(one, 0), &mut [3; 6], RUST_COLORS), Ok(6));
}

#[test]
fn frames_numbers_are_planed_and_come_back() {
    let text = b"keyframes p {0: 1, 50%: [2], 0.25: -3 linear} at 4";
    let (sheet, _) = sheet_of(text);
    let mut planed = vec![7; sheet.len() + 3];
    assert_eq!(plane(text, &sheet, &mut planed), Ok(sheet.len()));
    assert_eq!(planed[sheet.len()..], [7; 3]);
    // the times and values 0, 1, 0.5, 0.25 and -3; the array and what is no frame's stay
    let planes = [[0, 0x3F, 0x3F, 0x3E, 0xC0], [0, 0x80, 0, 0x80, 0x40], [0; 5], [0; 5]].concat();
    assert_eq!(planed[sheet.len() - 20..sheet.len()], planes);
    assert_eq!(planed[..2], [0, 2]);
    let mut again = vec![7; sheet.len() + 3];
    assert_eq!(unplane(text, &planed[..sheet.len()], &mut again), Ok(sheet.len()));
    assert_eq!((&again[..sheet.len()], &again[sheet.len()..]), (&sheet[..], &[7; 3][..]));
    // a sheet without tracks is its own planed form
    let (sheet, _) = sheet_of(b"at 1; sequence {spring p: 0 => [1, 2]}");
    let mut same = vec![7; sheet.len()];
    assert_eq!(plane(b"at 1; sequence {spring p: 0 => [1, 2]}", &sheet, &mut same), Ok(sheet.len()));
    assert_eq!(same, sheet);
}

#[test]
fn planing_refuses_the_text_then_20_or_40_then_a_short_output() {
    let text = b"keyframes p {1: 1}";
    let (sheet, _) = sheet_of(text);
    let mut planed = vec![0; sheet.len()];
    assert_eq!(plane(text, &sheet, &mut planed), Ok(sheet.len()));
    let long = vec![b' '; TEXT_BYTES + 1];
    let more = [&planed[..], &[0]].concat();
    let (plane, unplane): (Operation, Operation) = (plane, unplane);
    for (operation, text, bytes, room, refusal, place) in [
        (plane, &long[..], &sheet[..], 99, Refusal::TextTooLong, 0),
        (unplane, &long, &planed, 99, Refusal::TextTooLong, 0),
        (plane, b"a\xFF", &[], 0, Refusal::BadForm, 1),
        (unplane, b"a\xFF", &[], 0, Refusal::BadForm, 1),
        (plane, text, &sheet[1..], 0, Refusal::NotASheet, 0),
        (plane, text, &planed, 99, Refusal::NotASheet, 0),
        (unplane, text, &planed[1..], 0, Refusal::NotPlaned, 0),
        (unplane, text, &sheet, 99, Refusal::NotPlaned, 0),
        (unplane, text, &more, 99, Refusal::NotPlaned, 0),
        (plane, text, &sheet, sheet.len() - 1, Refusal::OutputTooShort, 0),
        (unplane, text, &planed, sheet.len() - 1, Refusal::OutputTooShort, 0),
    ] {
        let mut out = vec![7; room];
        assert_eq!(operation(text, bytes, &mut out), Err(refused(refusal, place)));
        assert!(out.iter().all(|&b| b == 7));
    }
}

/// [`plane`] or [`unplane`].
type Operation = fn(&[u8], &[u8], &mut [u8]) -> Result<usize, Refused>;

#[test]
fn a_start_is_told_by_a_whole_line_alone() {
    let line = b"00090C0008000F00060000CE\n";
    assert_eq!(strip::start(line), Some(8));
    for end in 0..line.len() {
        assert_eq!(strip::start(&line[..end]), None, "{end} bytes");
    }
    for other in [
        "0008xx0008",
        "0008xx0008\n",
        "00090C0008000F00060000CF\n",
        "00090c0008000F00060000CE\n",
        "00080C0008000F00060000CF\n",
        "00020001FD\n",
        "000000\n",
        "+0090C0008000F00060000CE\n",
    ] {
        assert_eq!(strip::start(other.as_bytes()), None, "{other:?}");
    }
}

#[test]
fn a_wave_is_drawn_from_its_phase_on() {
    let mut heights = [7; 257];
    assert_eq!(wave(SINE, 0, &mut heights), Ok(()));
    assert_eq!((heights[0], heights[1], heights[64], heights[127]), (0, 804, 32_767, 804));
    assert_eq!((heights[128], heights[129], heights[192], heights[256]), (0, -804, -32_767, 7));
    for kind in [SINE, SAWTOOTH, SQUARE, TRIANGLE] {
        let (mut first, mut later) = ([0; WAVE_HEIGHTS], [0; WAVE_HEIGHTS]);
        assert_eq!(wave(kind, 0, &mut first), Ok(()));
        assert_eq!(wave(kind, 255, &mut later), Ok(()));
        first.rotate_left(255);
        assert_eq!(first, later);
    }
    // the sign comes after the rounding
    assert_eq!(wave(TRIANGLE, 128, &mut heights), Ok(()));
    assert_eq!((heights[1], heights[64], heights[129]), (-511, -32_767, 511));
}

#[test]
fn a_wave_that_is_not_drawn_leaves_the_heights() {
    for (kind, phase, count, refusal) in [
        (4, 256, 255, Refusal::NotDrawn),
        (5, 0, 256, Refusal::NotDrawn),
        (u32::MAX, 0, 256, Refusal::NotDrawn),
        (SQUARE, 256, 255, Refusal::PhaseTooLarge),
        (SQUARE, u32::MAX, 256, Refusal::PhaseTooLarge),
        (SAWTOOTH, 255, 255, Refusal::OutputTooShort),
        (SAWTOOTH, 0, 0, Refusal::OutputTooShort),
    ] {
        let mut heights = vec![7; count];
        assert_eq!(wave(kind, phase, &mut heights), Err(refused(refusal, 0)));
        assert_eq!(heights, vec![7; count]);
    }
}
