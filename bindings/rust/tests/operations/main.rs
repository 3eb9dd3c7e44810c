//! Each operation, its refusals, and what it leaves in what is lent.
mod books;
mod reading;
mod totals;
mod workspace;
mod writing;

use strip::{Read, Refusal, Refused, SCRATCH_WORDS, SHEET_BYTES, read};

/// The sheet of a text that reading accepts, and its count of records.
fn sheet_of(text: &[u8]) -> (Vec<u8>, usize) {
    let mut scratch = vec![0xABCD; SCRATCH_WORDS];
    let mut sheet = vec![0xEF; SHEET_BYTES];
    let Ok(Read { length, records, .. }) = read(text, &mut scratch, &mut sheet) else {
        panic!("{:?} is refused", String::from_utf8_lossy(text));
    };
    assert!(scratch.iter().all(|&w| w == 0));
    assert!(sheet[length..].iter().all(|&b| b == 0));
    sheet.truncate(length);
    (sheet, records)
}

fn refused(refusal: Refusal, place: usize) -> Refused {
    Refused { refusal, place }
}

#[test]
fn a_refusal_has_one_number_and_one_name() {
    assert_eq!(Refusal::ALL.len(), 38);
    for &refusal in Refusal::ALL {
        assert_eq!(Refusal::of(refusal.number()), Some(refusal));
        assert_eq!(format!("{refusal:?}"), refusal.name());
    }
    assert_eq!((Refusal::DuplicateTime.number(), Refusal::TooManyScripts.number()), (26, 33));
    assert_eq!((Refusal::Unwritable.number(), Refusal::ScriptTooLong.number()), (34, 35));
    assert_eq!((Refusal::UnknownList.number(), Refusal::NotPlaned.number()), (36, 40));
    assert_eq!((Refusal::NameTwice.number(), Refusal::RingOfCalls.number(), Refusal::NoSuchItem.number()), (37, 39, 43));
    assert_eq!((Refusal::NotDrawn.number(), Refusal::PhaseTooLarge.number()), (41, 42));
    assert_eq!((0..=255).filter_map(Refusal::of).count(), 38);
}
