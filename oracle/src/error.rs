//! Stands in the place of the Rust's `error`: notes which helper was called
//! and where the innermost parse buffer stood, then calls the real one.

use crate::real_error as real;
use proc_macro2::Span;
use std::cell::Cell;
use syn::Error;

/// A helper's number. `Malformed` is 8 in parser.rs, 21, 26 or 27 in validate.rs.
#[derive(Clone, Copy, PartialEq, Eq)]
pub enum Kind {
    Numbered(u32),
    Malformed,
}

#[derive(Clone, Copy)]
pub struct Note {
    pub kind: Kind,
    /// The innermost buffer's next token, if syn records cursors.
    pub cursor: Option<Span>,
}

thread_local! {
    static NOTE: Cell<Option<Note>> = const { Cell::new(None) };
}

/// Takes the note of the last helper called, if any.
pub fn take() -> Option<Note> {
    NOTE.with(Cell::take)
}

fn note(kind: Kind) {
    #[cfg(feature = "places")]
    let cursor = Some(syn::live::next());
    #[cfg(not(feature = "places"))]
    let cursor = None;
    NOTE.with(|cell| cell.set(Some(Note { kind, cursor })));
}

pub fn unknown_keyword(span: Span, keyword: &str) -> Error {
    note(Kind::Numbered(7));
    real::unknown_keyword(span, keyword)
}

pub fn malformed(span: Span, text: &str) -> Error {
    note(Kind::Malformed);
    real::malformed(span, text)
}

pub fn unknown_spring_preset(span: Span, name: &str) -> Error {
    note(Kind::Numbered(9));
    real::unknown_spring_preset(span, name)
}

pub fn missing_duration(span: Span) -> Error {
    note(Kind::Numbered(10));
    real::missing_duration(span)
}

pub fn stagger_grid_incomplete(span: Span) -> Error {
    note(Kind::Numbered(11));
    real::stagger_grid_incomplete(span)
}

pub fn value_type_mismatch(span: Span, from: &str, to: &str) -> Error {
    note(Kind::Numbered(22));
    real::value_type_mismatch(span, from, to)
}

pub fn unknown_easing(span: Span, name: &str) -> Error {
    note(Kind::Numbered(23));
    real::unknown_easing(span, name)
}

pub fn unknown_preset(span: Span, name: &str) -> Error {
    note(Kind::Numbered(24));
    real::unknown_preset(span, name)
}

pub fn invalid_color(span: Span, color: &str) -> Error {
    note(Kind::Numbered(25));
    real::invalid_color(span, color)
}
