//! Added to the copy of syn by patch-syn.sh: where each live parse buffer
//! stands, and which names, strings and braces were taken.

use crate::buffer::{open_span_of_group, Cursor};
use proc_macro2::Span;
use std::cell::{Cell, RefCell};
use std::mem;
use std::panic::Location;

/// What the parser took, in order. Lines are those of parser.rs.
pub enum Event {
    /// An identifier or a string.
    Token { line: u32, span: Span },
    /// A `{` was entered; `span` is the brace.
    Enter { line: u32, span: Span },
    /// The buffer of the last `{` entered and not left is gone.
    Leave,
}

struct Buffer {
    scope: Span,
    cursor: Cursor<'static>,
}

thread_local! {
    static BUFFERS: RefCell<Vec<Buffer>> = const { RefCell::new(Vec::new()) };
    static EVENTS: RefCell<Vec<Event>> = const { RefCell::new(Vec::new()) };
}

fn lasting(cursor: Cursor) -> Cursor<'static> {
    // As in ParseBuffer: the entry is gone before the tokens are.
    unsafe { mem::transmute::<Cursor, Cursor<'static>>(cursor) }
}

fn note(event: Event) {
    EVENTS.with(|events| events.borrow_mut().push(event));
}

/// A parse buffer's entry among the live ones.
pub(crate) struct Live {
    index: usize,
    brace: Cell<bool>,
}

impl Live {
    pub(crate) fn new(scope: Span, cursor: Cursor) -> Self {
        BUFFERS.with(|buffers| {
            let mut buffers = buffers.borrow_mut();
            buffers.push(Buffer { scope, cursor: lasting(cursor) });
            Live { index: buffers.len() - 1, brace: Cell::new(false) }
        })
    }

    pub(crate) fn set(&self, cursor: Cursor) {
        BUFFERS.with(|buffers| buffers.borrow_mut()[self.index].cursor = lasting(cursor));
    }

    pub(crate) fn enter(&self, place: &Location, span: Span) {
        self.brace.set(true);
        note(Event::Enter { line: place.line(), span });
    }
}

impl Drop for Live {
    fn drop(&mut self) {
        BUFFERS.with(|buffers| buffers.borrow_mut().truncate(self.index));
        if self.brace.get() {
            note(Event::Leave);
        }
    }
}

/// Notes a token of type `T` taken at `cursor`.
pub(crate) fn taken<T>(place: &Location, cursor: Cursor) {
    let name = std::any::type_name::<T>();
    if (name.ends_with("::Ident") || name.ends_with("::LitStr")) && place.file().ends_with("parser.rs") {
        note(Event::Token { line: place.line(), span: cursor.span() });
    }
}

/// The next token of the innermost live buffer, or its closer, or the call
/// site at the end of the text.
pub fn next() -> Span {
    BUFFERS.with(|buffers| match buffers.borrow().last() {
        None => Span::call_site(),
        Some(buffer) if buffer.cursor.eof() => buffer.scope,
        Some(buffer) => open_span_of_group(buffer.cursor),
    })
}

/// Takes the events noted so far.
pub fn take() -> Vec<Event> {
    EVENTS.with(|events| mem::take(&mut *events.borrow_mut()))
}
