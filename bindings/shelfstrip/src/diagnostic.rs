//! A refusal as compilers show theirs: the file, the line and a mark under the place.
use codespan_reporting::diagnostic::{Diagnostic, Label};
use codespan_reporting::files::{Error, Files};
use codespan_reporting::term::termcolor::{ColorChoice, StandardStream};
use codespan_reporting::term::{self, Chars, Config};
use std::io::{self, IsTerminal};
use std::ops::Range;
use strip::{Refused, Workspace, line_and_column};

/// How many characters of a line are shown before the place, and how many from it on.
const SHOWN: usize = 60;

/// A place in a text.
#[derive(Clone, Copy, Debug, PartialEq, Eq)]
pub struct Place {
    /// In bytes from the text's start.
    pub start: usize,
    /// How many bytes are marked.
    pub length: usize,
    pub line: usize,
    pub column: usize,
    /// The ordinal of the record whose keyword it is.
    pub record: Option<usize>,
}

/// The place of a refusal of reading or checking, if it has one.
pub fn place(workspace: &mut Workspace, text: &[u8], refused: &Refused) -> Option<Place> {
    let Some(record) = refused.record() else {
        return in_text(text, refused);
    };
    let start = workspace.read(text).ok()?.start(record as u32)?;
    let length = text[start..].iter().take_while(|byte| byte.is_ascii_alphabetic()).count();
    let (line, column) = line_and_column(text, start);
    Some(Place { start, length, line, column, record: Some(record) })
}

/// The place of a refusal by the rules for texts and nodes; none for any other.
pub fn in_text(text: &[u8], refused: &Refused) -> Option<Place> {
    let start = match refused.refusal.number() {
        2..=13 | 15 if refused.place <= text.len() => refused.place,
        _ => return None,
    };
    let (line, column) = line_and_column(text, start);
    Some(Place { start, length: 1, line, column, record: None })
}

/// Shows a refusal with its place on standard error.
pub fn show(name: &str, text: &[u8], refused: &Refused, place: Option<Place>) {
    let refusal = refused.refusal;
    let mut diagnostic =
        Diagnostic::error().with_code(refusal.number().to_string()).with_message(format!("{}: {}", refusal.name(), refusal.cause()));
    let line = place.map(|place| (place, Line::around(name, text, place)));
    match &line {
        Some((place, line)) => {
            let label = Label::primary((), line.mark.clone());
            diagnostic = diagnostic.with_labels(vec![match (place.record, refusal.number()) {
                (Some(record), _) => label.with_message(format!("record {record}")),
                // their place is behind the word, the field or the node that is refused
                (None, 7 | 9..=11 | 15) => label.with_message("what is refused stands before this"),
                (None, _) => label,
            }]);
        }
        None => diagnostic = diagnostic.with_notes(vec![name.to_string()]),
    }
    let color = if io::stderr().is_terminal() { ColorChoice::Auto } else { ColorChoice::Never };
    let config = Config { chars: Chars::ascii(), ..Config::default() };
    let line = line.map_or_else(Line::default, |(_, line)| line);
    // where nobody can read it, nothing is shown
    term::emit(&mut StandardStream::stderr(color), &config, &line, &diagnostic).ok();
}

/// A line of a text, or the part of it around a place, with the numbers that it has there.
#[derive(Default)]
struct Line {
    name: String,
    source: String,
    number: usize,
    column: usize,
    mark: Range<usize>,
}

impl Line {
    fn around(name: &str, text: &[u8], place: Place) -> Line {
        let first = place.start + 1 - place.column;
        let length = text[first..].iter().position(|&byte| byte == b'\n').unwrap_or(text.len() - first);
        let whole = &text[first..first + length];
        let at = place.start - first;
        let (from, to) = (at.saturating_sub(SHOWN), whole.len().min(at + SHOWN));
        let (mut source, mut mark) = (String::new(), 0..0);
        if from > 0 {
            source.push_str("...");
        }
        source.push_str(&printable(&whole[from..at]));
        mark.start = source.len();
        let marked = to.min(at + place.length);
        source.push_str(&printable(&whole[at..marked]));
        mark.end = source.len();
        source.push_str(&printable(&whole[marked..to]));
        if to < whole.len() {
            source.push_str("...");
        }
        Line { name: name.to_string(), source, number: place.line, column: place.column, mark }
    }
}

/// Bytes as characters, one for each byte; what is not printable ASCII is shown by the replacement character.
fn printable(bytes: &[u8]) -> String {
    let shown = |&byte: &u8| match byte {
        b' '..=b'~' => char::from(byte),
        b'\t' | b'\r' => ' ',
        _ => char::REPLACEMENT_CHARACTER,
    };
    bytes.iter().map(shown).collect()
}

impl<'a> Files<'a> for Line {
    type FileId = ();
    type Name = &'a str;
    type Source = &'a str;

    fn name(&'a self, (): ()) -> Result<&'a str, Error> {
        Ok(&self.name)
    }

    fn source(&'a self, (): ()) -> Result<&'a str, Error> {
        Ok(&self.source)
    }

    fn line_index(&'a self, (): (), _: usize) -> Result<usize, Error> {
        Ok(0)
    }

    fn line_number(&'a self, (): (), _: usize) -> Result<usize, Error> {
        Ok(self.number)
    }

    fn column_number(&'a self, (): (), _: usize, _: usize) -> Result<usize, Error> {
        Ok(self.column)
    }

    fn line_range(&'a self, (): (), _: usize) -> Result<Range<usize>, Error> {
        Ok(0..self.source.len())
    }
}
