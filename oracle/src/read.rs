//! The Rust's reading of one script.

use crate::answer::{verdict, Refusal};
use crate::ast::MotionNode;
use crate::error::{self, Kind};
use crate::parser::AnimatoInput;
use crate::sheet::Sheet;
use crate::{check, hex, places, sheet, text_rules};
use proc_macro2::{Span, TokenStream};

/// Which of the documents' own refusals are added to the Rust's.
#[derive(Clone, Copy, PartialEq, Eq)]
pub enum Rules {
    /// 1 to 5, 12 and 02 (h)'s 15.
    All,
    /// 1 to 5.
    Text,
    RustOnly,
}

/// Why a text gave no tree.
pub enum Failure {
    Refused(Refusal),
    /// Refused by parser.rs over the unchanged syn, which records no cursor.
    NoPlace(u32),
    /// The Rust's lexer takes no such text.
    NotLexed,
}

impl From<Refusal> for Failure {
    fn from(refusal: Refusal) -> Self {
        Failure::Refused(refusal)
    }
}

pub struct Tree {
    pub nodes: Vec<MotionNode>,
    /// None over the unchanged syn.
    pub parts: Option<Vec<places::NodeParts>>,
}

/// Answers a script in hexadecimal with its sheet and verdict, or its refusal.
pub fn line(line: &str, rules: Rules) -> String {
    answered(line, rules, encoded)
}

/// The sheet of a tree read with places.
pub fn encoded(text: &[u8], tree: &Tree) -> Sheet {
    let parts = tree.parts.as_ref().expect("a build with places");
    sheet::encode(&tree.nodes, sheet::Names::parts(text, parts))
}

/// As `line`, with the tree's strings in the place of their places.
pub fn tree_line(line: &str) -> String {
    answered(line, Rules::Text, |_, tree| sheet::encode(&tree.nodes, sheet::Names::Inline))
}

fn answered(line: &str, rules: Rules, encode: impl Fn(&[u8], &Tree) -> Sheet) -> String {
    shown(line, rules, |text, tree| {
        let sheet = encode(text, tree);
        let verdict = verdict(check::validated(&tree.nodes));
        let bytes = if sheet.wrong { "-".to_string() } else { hex::write(&sheet.bytes) };
        assert!(!sheet.wrong || rules == Rules::RustOnly, "no place in {line}");
        format!("accept {} {bytes}\t{verdict}", sheet.records)
    })
}

/// Answers a script with its tree as `{:?}` prints the nodes, without their
/// spans, or with its refusal.
pub fn dump_line(line: &str) -> String {
    shown(line, Rules::All, |_, tree| without_spans(&format!("{:?}", tree.nodes)))
}

/// No string holds a quote or a backslash, so every second part between quotes
/// is a string. parser.rs gives each node the span of the call site.
fn without_spans(tree: &str) -> String {
    let span = format!(", span: {:?}", Span::call_site());
    let parts = tree.split('"').enumerate();
    let parts: Vec<String> =
        parts.map(|(i, part)| if i % 2 == 0 { part.replace(&span, "") } else { part.to_string() }).collect();
    parts.join("\"")
}

/// What `show` makes of a script's text and tree, or its refusal.
fn shown(line: &str, rules: Rules, show: impl Fn(&[u8], &Tree) -> String) -> String {
    let Some(text) = hex::read(line) else {
        return "not hexadecimal".to_string();
    };
    match read(&text, rules) {
        Ok(tree) => show(&text, &tree),
        Err(Failure::Refused(refusal)) => refusal.to_string(),
        Err(Failure::NoPlace(number)) => format!("refuse {number}"),
        Err(Failure::NotLexed) => "not lexed".to_string(),
    }
}

pub fn read(bytes: &[u8], rules: Rules) -> Result<Tree, Failure> {
    if rules != Rules::RustOnly {
        text_rules::refusal(bytes).map_or(Ok(()), Err)?;
    }
    let text = std::str::from_utf8(bytes).map_err(|_| Failure::NotLexed)?;
    let tokens: TokenStream = text.parse().map_err(|_| Failure::NotLexed)?;
    parsed(text, tokens, rules)
}

#[cfg(feature = "places")]
fn parsed(text: &str, tokens: TokenStream, rules: Rules) -> Result<Tree, Failure> {
    let result = syn::parse2::<AnimatoInput>(tokens);
    let note = error::take();
    let events = places::take();
    if rules == Rules::All {
        places::unlike_the_rust(text, &events).map_or(Ok(()), Err)?;
    }
    let input = result.map_err(|error| failure(text, &error, note))?;
    Ok(Tree { nodes: input.nodes, parts: Some(places::node_parts(text, &events)) })
}

#[cfg(not(feature = "places"))]
fn parsed(text: &str, tokens: TokenStream, _: Rules) -> Result<Tree, Failure> {
    let result = syn::parse2::<AnimatoInput>(tokens);
    let note = error::take();
    let input = result.map_err(|error| failure(text, &error, note))?;
    Ok(Tree { nodes: input.nodes, parts: None })
}

/// A helper's error has a note. One without is syn's own, and its span is
/// its place.
fn failure(text: &str, error: &syn::Error, note: Option<error::Note>) -> Failure {
    let Some(note) = note else {
        let number = if error.to_string().starts_with("unexpected token") { 13 } else { 6 };
        return Refusal { number, place: places::start(text, error.span()) }.into();
    };
    let number = match note.kind {
        Kind::Numbered(number) => number,
        Kind::Malformed => 8,
    };
    match note.cursor {
        Some(span) => Refusal { number, place: places::start(text, span) }.into(),
        None => Failure::NoPlace(number),
    }
}
