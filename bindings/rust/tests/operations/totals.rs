//! Feeding and the means.
use crate::{refused, sheet_of};
use strip::{FIGURE_LIMIT, RUST_COLORS, SCRATCH_WORDS, SCRIPT_LIMIT, SHEET_BYTES};
use strip::{Fraction, Mean, Refusal, Refused, Totals, Verdict, feed, mean};

/// Feeds a text with buffers that are not zero, and gives what they are then.
fn fed(totals: &mut Totals, text: &[u8]) -> (Result<Verdict, Refused>, Vec<u16>, Vec<u8>) {
    let (mut scratch, mut sheet) = (vec![1; SCRATCH_WORDS], vec![2; SHEET_BYTES]);
    let answer = feed(totals, text, &mut scratch, &mut sheet, RUST_COLORS);
    (answer, scratch, sheet)
}

#[test]
fn scripts_are_counted_in_totals() {
    let mut totals = Totals::default();
    assert_eq!(mean(&totals, Mean::RecordsPerScript), Ok(None));
    let (answer, scratch, sheet) = fed(&mut totals, b"sequence {keyframes p {0: 0, 1: 1, 2: 0}} at 1;");
    assert_eq!(answer, Ok(Ok(())));
    assert!(scratch.iter().all(|&w| w == 0));
    let (same, records) = sheet_of(b"sequence {keyframes p {0: 0, 1: 1, 2: 0}} at 1;");
    assert_eq!((&sheet[..same.len()], records), (&same[..], 3));
    let (answer, _, sheet) = fed(&mut totals, b"at 1; preset fadein");
    assert_eq!(answer, Ok(Err(refused(Refusal::UnknownPreset, 2))));
    assert_eq!(sheet[..2], [0, 2]);
    assert_eq!((totals.scripts(), totals.accepted(), totals.refused(Refusal::UnknownPreset)), (2, 1, 1));
    assert_eq!((totals.records(2), totals.records(3), totals.records(14), totals.entries()), (1, 1, 1, 3));
    assert_eq!(mean(&totals, Mean::RecordsPerScript), Ok(Some(Fraction { numerator: 3, denominator: 1 })));
    assert_eq!(mean(&totals, Mean::EntriesPerTrack), Ok(Some(Fraction { numerator: 3, denominator: 1 })));
}

#[test]
fn full_totals_are_refused_before_all_else() {
    let unfed = Err(refused(Refusal::TooManyScripts, 0));
    for (word, value) in [(7, SCRIPT_LIMIT), (59, FIGURE_LIMIT + 1)] {
        let mut totals = Totals::default();
        totals.0[word] = value;
        let before = totals.clone();
        assert_eq!(fed(&mut totals, b"at 1;"), (unfed, vec![1; SCRATCH_WORDS], vec![2; SHEET_BYTES]));
        assert_eq!(totals, before);
    }
}
