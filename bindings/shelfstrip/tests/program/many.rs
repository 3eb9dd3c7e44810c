//! A folder of 4,097 scripts.
use crate::room::Room;

const FILES: usize = 4_097;

/// A folder of scripts, of which 5 are refused, and their names.
fn folder() -> (Room, Vec<String>) {
    let room = Room::new();
    let names: Vec<String> = (0..FILES).map(|number| format!("{number:04}.strip")).collect();
    for (number, name) in names.iter().enumerate() {
        let refused = number % 1_000 == 7;
        room.file(name, if refused { "at 1; preset fadein".to_string() } else { format!("at 1; keyframes p {{0: 0, 1: {number}}}") });
    }
    (room, names)
}

/// One folder for all three, since making it takes time.
#[test]
fn all_are_checked_counted_and_written_afresh() {
    let (room, names) = folder();
    checks_all(&room, &names);
    the_page_tells_what_it_does_not_count(&room, &names);
    writes_all_afresh(&room, &names);
}

fn checks_all(room: &Room, names: &[String]) {
    let ran = room.run(["check"].into_iter().chain(names.iter().map(String::as_str)));
    assert_eq!((ran.status, ran.err.matches("error[24]").count()), (1, 5));
    // standard error is no terminal here, and there is no bar on it
    assert!(!ran.err.contains('\r') && !ran.err.contains(" of 4097"), "{}", ran.err);
}

fn the_page_tells_what_it_does_not_count(room: &Room, names: &[String]) {
    let ran = room.run(["morning", "--json"].into_iter().chain(names.iter().map(String::as_str)));
    let page: serde_json::Value = serde_json::from_str(&ran.out).unwrap();
    assert_eq!((ran.status, &page["scripts"], &page["accepted"]), (1, &4_096.into(), &4_091.into()));
    assert_eq!((&page["records"]["at"], &page["entries"]), (&4_091.into(), &8_182.into()));
    assert_eq!(page["not_counted"][0]["file"], "4096.strip");
    assert!(ran.err.starts_with("shelfstrip: not counted: 4096.strip: 33 TooManyScripts: "), "{}", ran.err);
}

fn writes_all_afresh(room: &Room, names: &[String]) {
    let ran = room.run(["fmt", "--write"].into_iter().chain(names.iter().map(String::as_str)));
    assert_eq!((ran.status, ran.err.matches("error[24]").count()), (1, 5));
    assert_eq!(room.names(), names);
    assert_eq!(room.bytes("0012.strip"), b"at 1 ; keyframes p { 0 : 0 , 1 : 12 } ;\n");
    assert_eq!(room.bytes("1007.strip"), b"at 1; preset fadein");
}
