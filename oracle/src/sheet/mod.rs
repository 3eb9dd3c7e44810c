//! The tree as bytes and back: 01's sheet, with the starts of 02 (a).

mod decode;
mod encode;

pub use decode::{decode, record_sizes};
pub use encode::{encode, Names, Sheet};

/// As in parser.rs, whose own is private.
pub fn to_snake_case(name: &str) -> String {
    let mut result = String::new();
    for (index, letter) in name.chars().enumerate() {
        if letter.is_ascii_uppercase() && index > 0 {
            result.push('_');
        }
        result.push(letter.to_ascii_lowercase());
    }
    result
}
