//! Limits and numbers, those of bindings/c/strip.h.

/// The longest text that reading takes, in bytes.
pub const TEXT_BYTES: usize = 16_384;
/// The fewest words of scratch that reading takes.
pub const SCRATCH_WORDS: usize = 64;
/// A sheet of so many bytes is long enough for every text.
pub const SHEET_BYTES: usize = 49_152;
/// The shortest page that printing takes, which is long enough for every text.
pub const PAGE_BYTES: usize = 147_456;

/// The list of the Rust's 22 named colours, for what checks.
pub const RUST_COLORS: u32 = 1;
/// The list of the 148 named colours of CSS Color Module Level 4. Any other number is refused with
/// [`Refusal::UnknownList`](crate::Refusal::UnknownList).
pub const CSS_COLORS: u32 = 2;

/// The most scripts that are fed to one sheet of totals.
pub const SCRIPT_LIMIT: u32 = 4_096;
/// The largest figure that feeding and the means take; no feed reaches it from empty totals.
pub const FIGURE_LIMIT: u32 = 268_431_360;
/// How many words totals have.
pub const TOTALS_WORDS: usize = 60;
/// The word of totals that counts the node records of kind 0.
pub const KIND_WORD: usize = 44;
/// The word of totals that counts keyframe entries.
pub const ENTRIES_WORD: usize = 59;

/// The most items that a book may have.
pub const ITEM_LIMIT: usize = 128;

/// The sine, a waveform that [`wave`](crate::wave) draws. The kinds have the numbers of a sheet; any but these four, as 4 for noise, is
/// refused with [`Refusal::NotDrawn`](crate::Refusal::NotDrawn).
pub const SINE: u32 = 0;
/// The sawtooth: it rises over the whole period.
pub const SAWTOOTH: u32 = 1;
/// The square: the peak in the first half, the lowest height in the second.
pub const SQUARE: u32 = 2;
/// The triangle: straight from 0 to the peak, to the lowest height and back.
pub const TRIANGLE: u32 = 3;
/// How many heights a period has.
pub const WAVE_HEIGHTS: usize = 256;

/// The keywords of nodes, by the numbers of their kinds.
#[rustfmt::skip]
pub const KINDS: [&str; 15] = [
    "tween", "spring", "keyframes", "sequence", "parallel", "group", "stagger", "path", "morph", "draw", "color", "waveform", "preset",
    "label", "at",
];
