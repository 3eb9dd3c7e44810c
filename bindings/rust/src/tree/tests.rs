//! The decoder by itself, without the library's word on what is a sheet.
#[path = "../../tests/cases/mod.rs"]
mod cases;

use super::decode::decoded;
use crate::{Refusal, Refused, line};
use cases::{Random, bytes, stored, text_and_sheet};

/// Whether bytes are a sheet for a text, by the decoder and by the library; what is decoded is encoded again.
fn is_sheet(text: &[u8], sheet: &[u8]) -> bool {
    let tree = decoded(text, sheet);
    let answer = line(text, sheet, 0, &mut [0; 11]);
    if let Some(tree) = &tree {
        assert_eq!((answer, tree.encode()), (Ok(11), sheet.to_vec()));
    } else {
        assert_eq!(answer, Err(Refused { refusal: Refusal::NotASheet, place: 0 }));
    }
    tree.is_some()
}

/// Whether checking and lining look at the sheet of a text at all.
fn is_text(text: &[u8]) -> bool {
    line(text, &[0, 0], 0, &mut [0; 11]).is_ok()
}

#[test]
fn stored_sheets_are_decoded_exactly_if_the_library_takes_them() {
    let mut counts = [0; 2];
    for kind in ["check", "convert", "line"] {
        for (text, sheet) in stored(kind).0.lines().map(text_and_sheet).filter(|(text, _)| is_text(text)) {
            counts[usize::from(is_sheet(&text, &sheet))] += 1;
        }
    }
    assert!(counts[0] > 100 && counts[1] > 500, "{counts:?}");
}

/// Every sheet of stored scripts with a byte changed, cut off or put in.
#[test]
fn damaged_sheets_are_decoded_exactly_if_the_library_takes_them() {
    let mut workspace = crate::Workspace::new();
    let mut counts = [0; 2];
    let mut random = Random::new();
    for text in stored("script").0.lines().map(bytes).filter(|text| !text.is_empty()) {
        let Ok(sheet) = workspace.read(&text) else { continue };
        for _ in 0..4 {
            let mut sheet = sheet.bytes().to_vec();
            let at = random.below(sheet.len());
            match random.below(4) {
                0 => drop(sheet.remove(at)),
                1 => sheet.insert(at, random.below(256) as u8),
                2 => sheet[at] ^= 1 << random.below(8),
                _ => sheet[at] = random.below(16) as u8,
            }
            counts[usize::from(is_sheet(&text, &sheet))] += 1;
        }
    }
    assert!(counts[0] > 1000 && counts[1] > 1000, "{counts:?}");
}

/// A tween in a sheet, from an array of so many zeros: 28 bytes and four for each.
fn tween_from(count: u16) -> Vec<u8> {
    let head_and_target = [0, 1, 0, 0, 0, 0, 0, 0, 1];
    let zeros = vec![0; 4 * usize::from(count)];
    [&head_and_target[..], &[1], &count.to_be_bytes(), &zeros, &[0; 16]].concat()
}

#[test]
fn the_limits_of_a_sheet_are_the_librarys() {
    for count in [1, 16_376, 16_377, 16_383] {
        let sheet = tween_from(count);
        assert_eq!(is_sheet(b"tween p", &sheet), sheet.len() <= 65_535, "{} bytes", sheet.len());
    }
    for depth in [1, 16, 17] {
        let containers = (1..=depth).flat_map(|inner| [3, 0, 0, 0, u8::from(inner < depth)]);
        let sheet: Vec<u8> = [0, 1].into_iter().chain(containers).collect();
        assert_eq!(is_sheet(b"sequence", &sheet), depth <= 16, "{depth} containers");
    }
}
