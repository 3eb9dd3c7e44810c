//! The tree of a script, owned, under the names of animato-macro's ast.rs: what code generation starts from. It is made from a text and
//! its sheet. The types are those of ast.rs without their spans; where a node and its names stand in the text is kept beside the nodes,
//! by record ([`Tree::places`]). The library says whether bytes are a sheet; decoding and encoding are this module's own code, which is
//! tested and not proved.
//!
//! ```
//! use strip::tree::{EasingSpec, MotionNode, ValueExpr};
//!
//! let text = b"tween opacity: 0 => 1 duration: 0.5 easing: Easing::EaseOutCubic";
//! let sheet = strip::Workspace::new().compile(text, strip::RUST_COLORS)?;
//! let tree = sheet.tree()?;
//! let [MotionNode::Tween(tween)] = tree.nodes() else { panic!("one tween") };
//! assert_eq!((tween.target.as_str(), tween.duration), ("opacity", 0.5));
//! assert_eq!((&tween.from, &tween.to), (&ValueExpr::Scalar(0.0), &ValueExpr::Scalar(1.0)));
//! assert_eq!(tween.easing, Some(EasingSpec::Named("ease_out_cubic".to_string())));
//! assert_eq!(tree.encode(), sheet.bytes());
//! # Ok::<(), strip::Refused>(())
//! ```
mod decode;
mod encode;
mod nodes;
#[cfg(test)]
mod tests;
mod values;

pub use nodes::*;
pub use values::*;

use crate::{Refusal, Refused};

/// The nodes of a script, and where they stand in its text. Two trees with a NaN are never equal, as numbers go; their sheets may be.
#[derive(Clone, Debug, PartialEq)]
pub struct Tree {
    nodes: Vec<MotionNode>,
    /// By record, the first node's first.
    places: Vec<Places>,
}

/// Where a node and its names and strings stand in the text.
#[derive(Clone, Debug, PartialEq, Eq)]
pub struct Places {
    /// The start of its keyword.
    pub start: usize,
    /// Its names and strings in the order of its fields, those of named easings among them.
    pub words: Vec<Word>,
}

/// Where a name or a string stands in the text, its quotes left off.
#[derive(Clone, Copy, Debug, PartialEq, Eq, Hash)]
pub struct Word {
    /// Its first byte.
    pub start: usize,
    /// How many bytes it has.
    pub length: usize,
    /// Whether it is an easing written `Easing::`; the word is what stands behind that.
    pub variant: bool,
}

impl Tree {
    /// The tree of a sheet. Refused as [`check`](crate::check) refuses a text or bytes that are no sheet for it, with 1, 2 or 20.
    ///
    /// ```
    /// use strip::tree::{AtSpec, MotionNode, Tree};
    ///
    /// let tree = Tree::decode(b"at 0.5;", &[0, 1, 14, 0, 0, 0x3F, 0, 0, 0, 0])?;
    /// assert_eq!(tree.nodes(), [MotionNode::At(AtSpec { value: 0.5, relative: false })]);
    /// assert_eq!(Tree::decode(b"at 0.5;", &[0, 1]).unwrap_err().refusal, strip::Refusal::NotASheet);
    /// # Ok::<(), strip::Refused>(())
    /// ```
    pub fn decode(text: &[u8], sheet: &[u8]) -> Result<Tree, Refused> {
        // the line of the head, of 11 bytes, is refused for what is no sheet, and for nothing else
        crate::line(text, sheet, 0, &mut [0; 11])?;
        decode::decoded(text, sheet).ok_or(Refused { refusal: Refusal::NotASheet, place: 0 })
    }

    /// The sheet that the tree was made from.
    ///
    /// ```
    /// let sheet = [0, 1, 14, 0, 0, 0x3F, 0, 0, 0, 0];
    /// assert_eq!(strip::tree::Tree::decode(b"at 0.5;", &sheet)?.encode(), sheet);
    /// # Ok::<(), strip::Refused>(())
    /// ```
    pub fn encode(&self) -> Vec<u8> {
        encode::encoded(self)
    }

    /// The nodes at the top.
    ///
    /// ```
    /// let tree = strip::Workspace::new().read(b"at 1; sequence {at 2}")?.tree()?;
    /// assert_eq!(tree.nodes().len(), 2);
    /// # Ok::<(), strip::Refused>(())
    /// ```
    pub fn nodes(&self) -> &[MotionNode] {
        &self.nodes
    }

    /// The nodes at the top, to keep.
    ///
    /// ```
    /// use strip::tree::MotionNode;
    ///
    /// let nodes: Vec<MotionNode> = strip::Workspace::new().read(br#"label "a";"#)?.tree()?.into_nodes();
    /// assert_eq!(nodes, [MotionNode::Label("a".to_string())]);
    /// # Ok::<(), strip::Refused>(())
    /// ```
    pub fn into_nodes(self) -> Vec<MotionNode> {
        self.nodes
    }

    /// All nodes in the order of their records, those in containers behind their container.
    ///
    /// ```
    /// let tree = strip::Workspace::new().read(b"sequence {at 1; at 2} at 3")?.tree()?;
    /// assert_eq!(tree.preorder().count(), 4);
    /// # Ok::<(), strip::Refused>(())
    /// ```
    pub fn preorder(&self) -> impl Iterator<Item = &MotionNode> {
        let mut left: Vec<&MotionNode> = self.nodes.iter().rev().collect();
        std::iter::from_fn(move || {
            let node = left.pop()?;
            left.extend(node.children().iter().rev());
            Some(node)
        })
    }

    /// The node of a record, by its ordinal; none for the head, which is 0.
    ///
    /// ```
    /// use strip::tree::MotionNode;
    ///
    /// let tree = strip::Workspace::new().read(b"sequence {at 1; preset fadein}")?.tree()?;
    /// assert!(matches!(tree.node(3), Some(MotionNode::Preset(call)) if call.name == "fadein"));
    /// assert_eq!((tree.node(0), tree.node(4)), (None, None));
    /// # Ok::<(), strip::Refused>(())
    /// ```
    pub fn node(&self, ordinal: usize) -> Option<&MotionNode> {
        self.preorder().nth(ordinal.checked_sub(1)?)
    }

    /// Where the node of a record stands in the text, by its ordinal; none for the head, which is 0.
    ///
    /// ```
    /// let tree = strip::Workspace::new().read(b"at 1;\n  preset fadein")?.tree()?;
    /// let places = tree.places(2).expect("a node's record");
    /// assert_eq!((places.start, places.words[0].start, places.words[0].length), (8, 15, 6));
    /// # Ok::<(), strip::Refused>(())
    /// ```
    pub fn places(&self, ordinal: usize) -> Option<&Places> {
        self.places.get(ordinal.checked_sub(1)?)
    }
}

impl MotionNode {
    /// The nodes in a container; none for any other node.
    ///
    /// ```
    /// let tree = strip::Workspace::new().read(b"parallel {at 1; at 2}")?.tree()?;
    /// assert_eq!(tree.nodes()[0].children().len(), 2);
    /// # Ok::<(), strip::Refused>(())
    /// ```
    pub fn children(&self) -> &[MotionNode] {
        match self {
            MotionNode::Sequence(nodes) | MotionNode::Parallel(nodes) | MotionNode::Group { nodes, .. } => nodes,
            MotionNode::Stagger(spec) => &spec.nodes,
            _ => &[],
        }
    }
}
