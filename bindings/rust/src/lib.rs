//! Motion scripts of shelf-edge strips: reading a script into a sheet of bytes, checking the sheet, lining its records in
//! hexadecimal, all of it at once on a page, writing a fresh script from text and sheet, telling the bytes of a colour, converting old
//! sheets, putting like bytes of a sheet together for storage and back, counting many scripts in the totals of a morning sheet, looking a
//! name up in books of named scripts, listing a book's items by their calls, and drawing a waveform as heights. The functions call a
//! library that is proved: each answer and every byte that is written equals a definition.
//!
//! A [`Workspace`] owns the buffers, and its [`Sheet`]s own their bytes. The functions beside it, [`read`] to [`wave`], write to slices
//! that are lent, and allocate nothing. A refusal is the error [`Refused`], with its number, its cause and a place. [`tree`] has a sheet's
//! tree, owned, which code generation starts from; its code is this crate's own, tested and not proved.
//!
//! ```
//! use strip::{RUST_COLORS, Refusal, Workspace};
//!
//! let mut workspace = Workspace::new();
//! let sheet = workspace.compile(b"at 0.5;", RUST_COLORS)?;
//! assert_eq!((sheet.bytes(), sheet.records()), (&[0, 1, 14, 0, 0, 0x3F, 0, 0, 0, 0][..], 1));
//! // the head is record 0, and the nodes' ordinals begin at 1
//! assert_eq!(sheet.line(1)?, "00080E00003F00000000AB\n");
//! // a fresh script, which reads to the same tree
//! assert_eq!(sheet.write(RUST_COLORS)?, "at 0.5 ;");
//!
//! // reading refuses at a place in the text, checking at a record
//! let refused = workspace.compile(b"at 0.5; tween", RUST_COLORS).unwrap_err();
//! assert_eq!((refused.refusal, refused.place, refused.record()), (Refusal::Missing, 13, None));
//! let refused = workspace.compile(b"at 0.5; preset fadein", RUST_COLORS).unwrap_err();
//! assert_eq!((refused.refusal, refused.place, refused.record()), (Refusal::UnknownPreset, 2, Some(2)));
//! # Ok::<(), strip::Refused>(())
//! ```
//!
//! The same over slices:
//!
//! ```
//! let text = b"at 0.5;";
//! let (mut scratch, mut sheet) = ([0; strip::SCRATCH_WORDS], vec![0; strip::SHEET_BYTES]);
//! let read = strip::read(text, &mut scratch, &mut sheet)?;
//! strip::check(text, &sheet[..read.length], strip::RUST_COLORS)?;
//! let mut output = [0; 64];
//! let length = strip::line(text, &sheet[..read.length], 1, &mut output)?;
//! assert_eq!(&output[..length], b"00080E00003F00000000AB\n");
//! # Ok::<(), strip::Refused>(())
//! ```
//!
//! The floating-point mode is the default one, as it is in every thread of Rust unless it is changed: rounding to nearest, and no denormal
//! taken or stored as zero. The most stack that was seen for a call is 128,600 bytes for [`order`], 62,904 for [`lookup`], 18,808 for
//! [`read`], 39,840 for [`check`], [`print()`], [`feed`] and [`write()`] of a script with a track of more than 64 frames inside 16
//! containers, and 3,256 for the others; of a script without such a track 11,856 for [`check`] and [`write()`], and for [`print()`] and
//! [`feed`] 128 more than for [`read`].
#![warn(missing_docs)]

mod books;
mod constants;
mod places;
mod raw;
mod reading;
mod refusal;
mod totals;
pub mod tree;
mod workspace;
mod writing;

pub use books::{Book, Found, lookup, order};
pub use constants::*;
pub use places::{line_and_column, start};
pub use reading::{Read, check, color, convert, read};
pub use refusal::{Refusal, Refused, Verdict};
pub use totals::{Fraction, Mean, Totals, feed, mean};
pub use workspace::{Sheet, Workspace};
pub use writing::{line, plane, print, unplane, wave, write};
