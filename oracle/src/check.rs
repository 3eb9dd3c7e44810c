//! validate_nodes' verdict, with the record's ordinal.

use crate::answer::{verdict, Refusal};
use crate::ast::*;
use crate::error::{self, Kind};
use crate::text_rules::TEXT_LIMIT;
use crate::{hex, sheet, validate};

/// Answers `TEXTHEX TAB SHEETHEX`.
pub fn line(line: &str) -> String {
    both(line, |text, sheet| verdict(checked(text, sheet)))
}

/// Answers `TEXTHEX TAB SHEETHEX` with the sizes of the sheet's records.
pub fn records_line(line: &str) -> String {
    both(line, |text, sheet| match sheet::record_sizes(text, sheet) {
        None => "no sheet".to_string(),
        Some(sizes) => sizes.iter().fold("sheet".to_string(), |line, size| format!("{line} {size}")),
    })
}

fn both(line: &str, answer: impl Fn(&[u8], &[u8]) -> String) -> String {
    match line.split_once('\t').and_then(|(t, s)| Some((hex::read(t)?, hex::read(s)?))) {
        None => "not hexadecimal".to_string(),
        Some((text, sheet)) => answer(&text, &sheet),
    }
}

/// 01's checking: 1, 2, 20 and 02 (h)'s 28 are a model, the others are the Rust's.
pub fn checked(text: &[u8], sheet: &[u8]) -> Result<(), Refusal> {
    if text.len() > TEXT_LIMIT {
        return Err(Refusal { number: 1, place: 0 });
    }
    if let Some(place) = text.iter().position(|byte| !is_plain(*byte)) {
        return Err(Refusal { number: 2, place });
    }
    let nodes = sheet::decode(text, sheet).ok_or(Refusal { number: 20, place: 0 })?;
    let rust = validated(&nodes);
    match first_noise(&nodes, &mut 0) {
        Some(place) if rust.is_ok() || rust.is_err_and(|found| place <= found.place) => Err(Refusal { number: 28, place }),
        _ => rust,
    }
}

/// The ordinal of the first waveform of the kind noise: before any rule of that node comes its 28.
fn first_noise(nodes: &[MotionNode], ordinal: &mut usize) -> Option<usize> {
    for node in nodes {
        *ordinal += 1;
        let noise = matches!(node, MotionNode::Waveform(spec) if spec.kind == WaveformKind::Noise);
        if noise {
            return Some(*ordinal);
        }
        let found = first_noise(parted(node).1, ordinal);
        if found.is_some() {
            return found;
        }
    }
    None
}

fn is_plain(byte: u8) -> bool {
    matches!(byte, b'\t' | b'\n' | b'\r' | b' '..=b'~')
}

/// The Rust's verdict on a tree.
pub fn validated(nodes: &[MotionNode]) -> Result<(), Refusal> {
    let mut ordinal = 0;
    let found = first_error(nodes, &mut ordinal);
    let whole = validate::validate_nodes(nodes);
    let text = |error: &syn::Error| error.to_string();
    assert_eq!(found.as_ref().map(text), whole.as_ref().err().map(text));
    let note = error::take();
    match found {
        None => Ok(()),
        Some(error) => {
            let number = number(note.expect("a note").kind, &error.to_string());
            Err(Refusal { number, place: ordinal })
        }
    }
}

fn number(kind: Kind, text: &str) -> u32 {
    match kind {
        Kind::Numbered(number) => number,
        Kind::Malformed if text.starts_with("duplicate keyframe time") => 26,
        Kind::Malformed if text == "keyframe track needs at least 2 frames" => 27,
        Kind::Malformed => 21,
    }
}

/// The first error in preorder; `ordinal` is then its record's.
fn first_error(nodes: &[MotionNode], ordinal: &mut usize) -> Option<syn::Error> {
    for node in nodes {
        *ordinal += 1;
        let (own, children) = parted(node);
        if let Err(error) = validate::validate_node(&own) {
            return Some(error);
        }
        if let Some(error) = first_error(children, ordinal) {
            return Some(error);
        }
    }
    None
}

/// A node without its children, and its children.
fn parted(node: &MotionNode) -> (MotionNode, &[MotionNode]) {
    match node {
        MotionNode::Sequence(nodes) => (MotionNode::Sequence(Vec::new()), nodes),
        MotionNode::Parallel(nodes) => (MotionNode::Parallel(Vec::new()), nodes),
        MotionNode::Group { mode, nodes } => {
            (MotionNode::Group { mode: *mode, nodes: Vec::new() }, nodes)
        }
        MotionNode::Stagger(spec) => {
            let pattern = spec.pattern.clone();
            let own = StaggerSpec { pattern, delay: spec.delay, nodes: Vec::new(), span: spec.span };
            (MotionNode::Stagger(own), &spec.nodes)
        }
        leaf => (leaf.clone(), &[]),
    }
}
