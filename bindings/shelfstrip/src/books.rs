//! `order` and `lookup`: books of named scripts.
use crate::arguments::{Lookup, Order};
use crate::input::{self, Source};
use crate::status::Status;
use crate::{diagnostic, output};
use std::os::unix::ffi::OsStrExt;
use strip::{Book, ITEM_LIMIT, Refused};

pub fn order(order: &Order) -> Result<Status, String> {
    let source = Source::of(&order.book);
    let book = source.text()?;
    let mut list = [0; ITEM_LIMIT];
    match strip::order(&book, &mut list) {
        Ok(items) => {
            let names = names(&book);
            let line = |&item: &u8| format!("{item} {}\n", names.get(usize::from(item)).map_or("", String::as_str));
            let lines: String = list[..items].iter().map(line).collect();
            output::print(lines.as_bytes())?;
            Ok(Status::Accepted)
        }
        Err(refused) => Ok(show(&source, &book, &refused)),
    }
}

pub fn lookup(lookup: &Lookup) -> Result<Status, String> {
    let store_source = Source::of(&lookup.store);
    let chain_source = lookup.chain.as_deref().map(Source::of);
    input::once([&store_source].into_iter().chain(&chain_source))?;
    let store = store_source.text()?;
    let chain = chain_source.as_ref().map_or(Ok(Vec::new()), Source::text)?;
    let name = lookup.name.as_bytes();
    let refused = match strip::lookup(&store, &chain, name) {
        Ok(found) => {
            output::print(&[found.body, b"\n"].concat())?;
            let book = if found.book == Book::Store { "store" } else { "chain" };
            output::tell(&format!("from the {book}'s book"));
            return Ok(Status::Accepted);
        }
        Err(refused) => refused,
    };
    // the store's book is read wholly before the chain's
    let store_alone = strip::lookup(&store, b"", name).err();
    match chain_source {
        Some(source) if store_alone != Some(refused) => Ok(show(&source, &chain, &refused)),
        _ => Ok(show(&store_source, &store, &refused)),
    }
}

fn show(source: &Source, book: &[u8], refused: &Refused) -> Status {
    diagnostic::show(&source.to_string(), book, refused, diagnostic::in_text(book, refused));
    Status::Refused
}

/// The names of a book's items, by their ordinals, of a book that the library accepts: the words outside braces and strings.
fn names(book: &[u8]) -> Vec<String> {
    let (mut names, mut word) = (Vec::new(), String::new());
    let (mut depth, mut in_string) = (0_u32, false);
    for &byte in book {
        match byte {
            b'"' => in_string = !in_string,
            _ if in_string => {}
            b'{' => depth += 1,
            b'}' => depth -= 1,
            _ if depth == 0 && (byte.is_ascii_alphanumeric() || byte == b'_') => word.push(char::from(byte)),
            b'=' if depth == 0 => names.push(std::mem::take(&mut word)),
            _ => {}
        }
    }
    names
}

#[cfg(test)]
mod tests {
    use super::names;

    #[test]
    fn names_stand_outside_braces_and_strings() {
        let book = br#"a = { label "b = { }"; sequence { at 1 } } _c2={tween p: 0 => 1 duration: 1}"#;
        assert_eq!(names(book), ["a", "_c2"]);
        // each is an item of the book
        for name in names(book) {
            assert!(strip::lookup(book, b"", name.as_bytes()).is_ok(), "{name}");
        }
    }
}
