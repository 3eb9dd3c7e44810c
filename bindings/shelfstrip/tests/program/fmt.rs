use crate::room::{EXAMPLES, Room, example, is_root, unprivileged};
use std::fs::{self, Permissions};
use std::os::unix::fs::{MetadataExt, PermissionsExt, symlink};
use std::process::Command;

#[test]
fn prints_the_fresh_script() {
    let ran = Room::new().feed(b"at--0.50;label \"a\";", ["fmt", "-"]);
    assert_eq!((ran.status, ran.out.as_str(), ran.err.as_str()), (0, "at + 0.5 ; label \"a\" ;\n", ""));
}

#[test]
fn the_fresh_examples_are_fresh() {
    let room = Room::new();
    for name in EXAMPLES {
        fs::copy(example(&format!("{name}.strip")), room.path(name)).unwrap();
    }
    let before = room.run(["fmt", "--check"].into_iter().chain(EXAMPLES));
    assert_eq!((before.status, before.out), (1, EXAMPLES.map(|name| format!("{name}\n")).concat()));
    let written = room.run(["fmt", "--write"].into_iter().chain(EXAMPLES));
    assert_eq!((written.status, written.out.as_str(), written.err.as_str()), (0, "", ""));
    assert_eq!(room.run(["fmt", "--check"].into_iter().chain(EXAMPLES)).status, 0);
    assert_eq!(room.run(["check"].into_iter().chain(EXAMPLES)).status, 0);
    // nothing temporary stays
    assert_eq!(room.names(), EXAMPLES);
}

#[test]
fn a_refused_script_stays_as_it_was() {
    let room = Room::new();
    room.file("a", "at  1; preset fadein").file("b", "at  1");
    let ran = room.run(["fmt", "--write", "a", "b"]);
    assert_eq!(ran.status, 1);
    assert!(ran.err.contains("--> a:1:8\n"), "{}", ran.err);
    assert_eq!((room.bytes("a"), room.bytes("b")), (b"at  1; preset fadein".to_vec(), b"at 1 ;\n".to_vec()));
}

#[test]
fn permissions_and_links_stay() {
    let room = Room::new();
    room.file("a", "at  1");
    fs::set_permissions(room.path("a"), Permissions::from_mode(0o640)).unwrap();
    symlink("a", room.path("link")).unwrap();
    assert_eq!(room.run(["fmt", "--write", "link"]).status, 0);
    assert_eq!(room.bytes("a"), b"at 1 ;\n");
    assert_eq!(fs::metadata(room.path("a")).unwrap().mode() & 0o777, 0o640);
    assert!(fs::symlink_metadata(room.path("link")).unwrap().is_symlink());
}

#[test]
fn a_fresh_file_is_not_touched() {
    let room = Room::new();
    let inode = |room: &Room| fs::metadata(room.path("a")).unwrap().ino();
    room.file("a", "at 1 ;\n");
    let before = inode(&room);
    assert_eq!(room.run(["fmt", "--write", "a"]).status, 0);
    assert_eq!(inode(&room), before);
}

#[test]
fn a_file_that_may_not_be_written_stays_as_it_was() {
    let room = Room::new();
    room.file("a", "at  1");
    fs::set_permissions(room.path("a"), Permissions::from_mode(0o444)).unwrap();
    let ran = room.run(["fmt", "--write", "a"]);
    assert_eq!((ran.status, ran.err.as_str()), (2, "shelfstrip: a: no permission; nothing is written\n"));
    assert_eq!((room.bytes("a"), room.names()), (b"at  1".to_vec(), vec!["a".to_string()]));
}

#[test]
fn a_script_that_only_an_exponent_writes_is_refused() {
    let ran = Room::new().feed(b"at 1e-45", ["fmt", "-"]);
    assert_eq!((ran.status, ran.out.as_str()), (1, ""));
    assert!(ran.err.starts_with("error[34]: Unwritable: "), "{}", ran.err);
}

#[test]
fn a_script_of_the_longest_length_stays_readable() {
    let room = Room::new();
    let label = |length| format!("label \"{}\";", "x".repeat(length));
    // written afresh it has 16,384 bytes, and no line feed
    let ran = room.feed(label(16_374).as_bytes(), ["fmt", "-"]);
    assert_eq!((ran.status, ran.bytes.len(), ran.bytes.last()), (0, 16_384, Some(&b';')));
    assert_eq!(room.feed(&ran.bytes, ["check", "-"]).status, 0);
    let ran = room.feed(label(16_375).as_bytes(), ["fmt", "-"]);
    assert_eq!((ran.status, ran.out.as_str()), (1, ""));
    assert!(ran.err.starts_with("error[35]: ScriptTooLong: "), "{}", ran.err);
}

#[test]
fn a_file_that_cannot_be_written_whole_stays_as_it_was() {
    let room = Room::new();
    room.file("a", "at  1");
    // no file may get a byte
    let limited = "trap '' XFSZ; ulimit -f 0; exec \"$0\" fmt --write a";
    let ran = Command::new("sh").args(["-c", limited, env!("CARGO_BIN_EXE_shelfstrip")]).current_dir(room.path("")).output().unwrap();
    let told = String::from_utf8(ran.stderr).unwrap();
    assert_eq!(ran.status.code(), Some(2), "{told}");
    assert!(told.starts_with("shelfstrip: a: ") && told.ends_with("; nothing is written\n"), "{told}");
    assert_eq!((room.bytes("a"), room.names()), (b"at  1".to_vec(), vec!["a".to_string()]));
}

#[test]
fn a_folder_or_an_owner_that_does_not_allow_it_keeps_the_file() {
    let room = Room::new();
    room.file("a", "at  1");
    fs::set_permissions(room.path("a"), Permissions::from_mode(0o666)).unwrap();
    // root's file in a folder that everyone may write to keeps its owner, which only root can give
    let modes = if is_root() { &[0o555, 0o777][..] } else { &[0o555][..] };
    for &mode in modes {
        fs::set_permissions(room.path(""), Permissions::from_mode(mode)).unwrap();
        let ran = unprivileged(room.command().args(["fmt", "--write", "a"])).output().unwrap();
        fs::set_permissions(room.path(""), Permissions::from_mode(0o755)).unwrap();
        let told = String::from_utf8(ran.stderr).unwrap();
        assert_eq!((ran.status.code(), told.as_str()), (Some(2), "shelfstrip: a: no permission; nothing is written\n"), "{mode:o}");
        assert_eq!((room.bytes("a"), room.names()), (b"at  1".to_vec(), vec!["a".to_string()]));
    }
}
