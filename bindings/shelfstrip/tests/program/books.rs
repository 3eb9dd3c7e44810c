use crate::room::Room;

#[test]
fn lists_items_behind_what_they_call() {
    let ran = Room::new().feed(b"a = { preset c } b = {} c = { label \"x = { }\"; }", ["order", "-"]);
    assert_eq!((ran.status, ran.out.as_str()), (0, "1 b\n2 c\n0 a\n"));
}

#[test]
fn refuses_a_ring() {
    let ran = Room::new().feed(b"a = { preset b } b = { preset a }", ["order", "-"]);
    assert_eq!((ran.status, ran.out.as_str()), (1, ""));
    assert!(ran.err.starts_with("error[39]: RingOfCalls: "), "{}", ran.err);
}

#[test]
fn looks_in_the_store_before_the_chain() {
    let room = Room::new();
    room.file("store", "a={ at 0 }").file("chain", "a={at 1} b={at 2}");
    let ran = room.run(["lookup", "a", "store", "chain"]);
    assert_eq!((ran.status, ran.out.as_str(), ran.err.as_str()), (0, " at 0 \n", "shelfstrip: from the store's book\n"));
    let ran = room.run(["lookup", "b", "store", "chain"]);
    assert_eq!((ran.status, ran.out.as_str(), ran.err.as_str()), (0, "at 2\n", "shelfstrip: from the chain's book\n"));
    let ran = room.run(["lookup", "b", "store"]);
    assert_eq!((ran.status, ran.out.as_str()), (1, ""));
    assert!(ran.err.starts_with("error[43]: NoSuchItem: "), "{}", ran.err);
}

#[test]
fn names_the_book_that_is_refused() {
    let room = Room::new();
    room.file("good", "a={}").file("bad", "a={}\n#");
    for (store, chain) in [("good", "bad"), ("bad", "good"), ("bad", "bad")] {
        let ran = room.run(["lookup", "a", store, chain]);
        assert_eq!(ran.status, 1);
        assert!(ran.err.starts_with("error[2]: BadForm: ") && ran.err.contains("--> bad:2:1\n"), "{}", ran.err);
    }
}
