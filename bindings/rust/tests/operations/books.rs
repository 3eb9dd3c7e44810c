//! Lookups and listings.
use crate::{refused, sheet_of};
use strip::{Book, Found, ITEM_LIMIT, Refusal, lookup, order};

#[test]
fn a_body_is_lent_from_the_book_that_has_it() {
    let store = b"enter = { preset slide }\nleave={}".to_vec();
    let chain = b"slide={\tat 1;\n} enter={at 2}".to_vec();
    let found = |book, body: &'static [u8]| Ok(Found { book, body });
    assert_eq!(lookup(&store, &chain, b"enter"), found(Book::Store, b" preset slide "));
    assert_eq!(lookup(&chain, &store, b"enter"), found(Book::Store, b"at 2"));
    assert_eq!(lookup(&store, &chain, b"slide"), found(Book::Chain, b"\tat 1;\n"));
    assert_eq!(lookup(&store, &chain, b"leave"), found(Book::Store, b""));
    assert_eq!(lookup(b"", &chain, b"enter"), found(Book::Chain, b"at 2"));
    // the body is no copy
    let body = lookup(&store, &chain, b"slide").unwrap().body;
    assert_eq!(body.as_ptr(), chain[7..].as_ptr());
    // and it reads alone
    assert_eq!(sheet_of(body).1, 1);
}

#[test]
fn lookups_are_refused_by_the_store_then_the_chain_then_43() {
    let many: String = (0..=ITEM_LIMIT).map(|k| format!("n{k}={{}} ")).collect();
    for (store, chain, name, refusal, place) in [
        ("a={}", "#", "a", Refusal::BadForm, 0),
        ("a={} b", "#", "a", Refusal::Missing, 6),
        ("a={at 1 tween}", "a={}", "a", Refusal::Missing, 13),
        ("a={} a={}", "#", "a", Refusal::NameTwice, 0),
        (&many, "#", "n0", Refusal::TooManyItems, 0),
        ("a={}", &many, "a", Refusal::TooManyItems, 0),
        ("a={}", "b={}", "A", Refusal::NoSuchItem, 0),
        ("a={}", "b={}", "", Refusal::NoSuchItem, 0),
        ("", "", "a", Refusal::NoSuchItem, 0),
    ] {
        assert_eq!(lookup(store.as_bytes(), chain.as_bytes(), name.as_bytes()), Err(refused(refusal, place)));
    }
    // a ring of calls is the listing's matter
    assert!(lookup(b"a={preset a}", b"", b"a").is_ok());
}

#[test]
fn items_are_listed_behind_what_they_call() {
    let most: String = (0..ITEM_LIMIT).map(|k| format!("n{k}={{preset n{}}} ", k + 1)).collect();
    let last_first: Vec<u8> = (0..ITEM_LIMIT as u8).rev().collect();
    for (book, list) in [
        ("", &[][..]),
        ("a={preset c} b={} c={}", &[1, 2, 0]),
        ("a={} b={preset a} c={sequence{parallel{preset b, duration: 1;}}} d={spring p: 0 => 1 preset: gentle}", &[0, 1, 2, 3]),
        ("a={preset nobody} gentle={spring p: 0 => 1 preset: gentle}", &[0, 1]),
        (&most, &last_first),
    ] {
        let mut out = vec![7; list.len() + 3];
        assert_eq!(order(book.as_bytes(), &mut out), Ok(list.len()));
        assert_eq!((&out[..list.len()], &out[list.len()..]), (list, &[7; 3][..]));
    }
}

#[test]
fn a_ring_of_calls_is_refused_and_then_a_short_output() {
    let ring: String = (0..ITEM_LIMIT).map(|k| format!("n{k}={{preset n{}}} ", (k + 1) % ITEM_LIMIT)).collect();
    for (book, room, refusal, place) in [
        ("a={};b={}", 2, Refusal::Missing, 4),
        ("a={} a={preset a}", 0, Refusal::NameTwice, 0),
        ("a={preset a}", 0, Refusal::RingOfCalls, 0),
        ("a={preset b} b={group sequence {preset a}}", 2, Refusal::RingOfCalls, 0),
        (&ring, ITEM_LIMIT, Refusal::RingOfCalls, 0),
        ("a={} b={}", 1, Refusal::OutputTooShort, 0),
    ] {
        let mut out = vec![7; room];
        assert_eq!(order(book.as_bytes(), &mut out), Err(refused(refusal, place)));
        assert!(out.iter().all(|&b| b == 7));
    }
}
