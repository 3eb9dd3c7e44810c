//! Books of named scripts: looking a name up, and listing the items by their calls.
use crate::Refused;
use crate::raw::{self, accepted, accepted_value, bits};

/// The book that a body stands in.
#[derive(Clone, Copy, Debug, PartialEq, Eq, Hash)]
pub enum Book {
    /// The store's.
    Store,
    /// The chain's.
    Chain,
}

/// What [`lookup`] finds.
#[derive(Clone, Copy, Debug, PartialEq, Eq)]
pub struct Found<'a> {
    /// The book that has the name.
    pub book: Book,
    /// Its body, a part of that book: what stands between its braces, blanks included.
    pub body: &'a [u8],
}

/// Looks a name up in the store's book, then in the chain's. A book is a text of `name = { nodes }` items, none the empty text. Both are
/// read before the name is looked for. Refused, the store's book wholly before the chain's: what [`read`](crate::read) refuses of a text
/// by 1 to 13 and 15, at a place in the book; then [`NameTwice`](crate::Refusal::NameTwice),
/// [`TooManyItems`](crate::Refusal::TooManyItems); [`NoSuchItem`](crate::Refusal::NoSuchItem) last; these three at 0.
///
/// ```
/// use strip::{Book, Found};
///
/// let (store, chain) = (b"enter = { preset slide }", b"slide = { at 1 } enter = {}");
/// assert_eq!(strip::lookup(store, chain, b"slide"), Ok(Found { book: Book::Chain, body: b" at 1 " }));
/// assert_eq!(strip::lookup(store, chain, b"leave").unwrap_err().refusal, strip::Refusal::NoSuchItem);
/// ```
pub fn lookup<'a>(store: &'a [u8], chain: &'a [u8], name: &[u8]) -> Result<Found<'a>, Refused> {
    // SAFETY: the three slices are whole.
    let answer =
        accepted(unsafe { raw::strip_lookup(store.as_ptr(), store.len(), chain.as_ptr(), chain.len(), name.as_ptr(), name.len()) })?;
    let (book, text) = if bits(answer, 48, 8) == 0 { (Book::Store, store) } else { (Book::Chain, chain) };
    let (start, length) = (bits(answer, 24, 24), bits(answer, 0, 24));
    Ok(Found { book, body: &text[start..start + length] })
}

/// Lists the ordinals of a book's items, from 0, one byte each, so that each stands behind all that it calls, the first by place among
/// those free, and gives how many there are. A `preset` node with an item's name calls it. Past the list the output is as it was, and on
/// a refusal all of it is; [`ITEM_LIMIT`](crate::ITEM_LIMIT) bytes are enough. Refused: what [`lookup`] refuses of a book; then
/// [`RingOfCalls`](crate::Refusal::RingOfCalls) if a chain of calls comes round to its start; then
/// [`OutputTooShort`](crate::Refusal::OutputTooShort); both at 0.
///
/// ```
/// let mut list = [0; strip::ITEM_LIMIT];
/// let items = strip::order(b"a = { preset c } b = {} c = {}", &mut list)?;
/// assert_eq!(list[..items], [1, 2, 0]);
/// # Ok::<(), strip::Refused>(())
/// ```
pub fn order(book: &[u8], out: &mut [u8]) -> Result<usize, Refused> {
    // SAFETY: the two slices are whole, and do not overlap.
    accepted_value(unsafe { raw::strip_order(book.as_ptr(), book.len(), out.as_mut_ptr(), out.len()) })
}
