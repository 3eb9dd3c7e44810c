//! From what the changed syn noted to places in the text.

use proc_macro2::Span;

/// One name or string: start and length in the text.
#[derive(Clone, Copy, Debug, Default, PartialEq, Eq)]
pub struct Part {
    pub start: usize,
    pub length: usize,
}

impl Part {
    pub fn of(self, text: &[u8]) -> &[u8] {
        &text[self.start..self.start + self.length]
    }
}

/// An easing's first name, or its variant's if written `Easing::`.
#[derive(Clone, Copy, Debug)]
pub struct EasingPart {
    pub path: bool,
    pub part: Part,
}

/// The parts taken for one node, in the order taken.
#[derive(Clone, Debug, Default)]
pub struct NodeParts {
    pub keyword: Part,
    pub names: Vec<Part>,
    pub easings: Vec<EasingPart>,
}

/// The start of a span. The call site, which alone is empty, is the text's end.
pub fn start(text: &str, span: Span) -> usize {
    let (from, to) = (span.start(), span.end());
    if (from.line, from.column) == (to.line, to.column) {
        return text.len();
    }
    offset(text, from.line, from.column)
}

fn part(text: &str, span: Span) -> Part {
    let start = offset(text, span.start().line, span.start().column);
    let end = offset(text, span.end().line, span.end().column);
    Part { start, length: end - start }
}

/// The byte at a line (from 1) and a column (in characters, from 0).
fn offset(text: &str, line: usize, column: usize) -> usize {
    let begin = if line == 1 {
        0
    } else {
        text.match_indices('\n').nth(line - 2).expect("a line").0 + 1
    };
    begin + text[begin..].chars().take(column).map(char::len_utf8).sum::<usize>()
}

#[cfg(feature = "places")]
pub use noted::{node_parts, take, unlike_the_rust};

#[cfg(feature = "places")]
mod noted {
    use super::*;
    use crate::answer::Refusal;
    use crate::lines;
    use syn::live::Event;

    const CONTAINER_LIMIT: usize = 16;

    pub fn take() -> Vec<Event> {
        syn::live::take()
    }

    /// The first refusal of a text that the Rust reads on from, a model: 12 at
    /// the `{` of a container entered while 16 others are live, or 15 behind
    /// `noise` taken for a waveform's kind.
    pub fn unlike_the_rust(text: &str, events: &[Event]) -> Option<Refusal> {
        let mut live = Vec::new();
        for event in events {
            match event {
                Event::Enter { line, span } => {
                    let container = *line < lines::KEYFRAMES.0 || *line > lines::KEYFRAMES.1;
                    let containers = live.iter().filter(|c| **c).count();
                    if container && containers == CONTAINER_LIMIT {
                        return Some(Refusal { number: 12, place: start(text, *span) });
                    }
                    live.push(container);
                }
                Event::Leave => drop(live.pop().expect("a brace left")),
                Event::Token { line, span } if *line == lines::WAVEFORM => {
                    let kind = part(text, *span);
                    if kind.of(text.as_bytes()) == b"noise" {
                        return Some(Refusal { number: 15, place: next(text, kind) });
                    }
                }
                Event::Token { .. } => {}
            }
        }
        None
    }

    /// The start of the token behind a part, or the text's end.
    fn next(text: &str, part: Part) -> usize {
        let rest = &text[part.start + part.length..];
        text.len() - rest.trim_start_matches([' ', '\t', '\n', '\r']).len()
    }

    /// The parts of each node, in preorder.
    pub fn node_parts(text: &str, events: &[Event]) -> Vec<NodeParts> {
        let mut nodes: Vec<NodeParts> = Vec::new();
        for event in events {
            let Event::Token { line, span } = event else { continue };
            let part = part(text, *span);
            if *line == lines::KEYWORD {
                nodes.push(NodeParts { keyword: part, ..NodeParts::default() });
                continue;
            }
            let node = nodes.last_mut().expect("a keyword first");
            if lines::NAMES.contains(line) {
                node.names.push(part);
            } else if *line == lines::EASING {
                node.easings.push(EasingPart { path: false, part });
            } else if *line == lines::VARIANT {
                *node.easings.last_mut().expect("an easing") = EasingPart { path: true, part };
            }
        }
        nodes
    }
}
