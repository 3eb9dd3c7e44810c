use crate::room::{EXAMPLES, Room, example};
use std::fs;

#[test]
fn prints_what_stripc_prints() {
    for name in EXAMPLES {
        let ran = Room::new().run(["lines".into(), example(&format!("{name}.strip"))]);
        assert_eq!((ran.status, ran.bytes), (0, fs::read(example(&format!("{name}.out"))).unwrap()), "{name}");
    }
}

#[test]
fn prints_a_refusal_and_ends_with_1() {
    let ran = Room::new().feed(b"tween", ["lines", "-"]);
    assert_eq!((ran.status, ran.out.as_str(), ran.err.as_str()), (1, "refuse 6 at 5\n", ""));
    let ran = Room::new().feed(&[b' '; 16_385], ["lines", "-"]);
    assert_eq!((ran.status, ran.out.as_str()), (1, "refuse 1 at 0\n"));
}
