//! Files that cannot be read or written.
use crate::room::{Room, unprivileged};
use std::ffi::OsStr;
use std::fs::{self, Permissions};
use std::os::unix::ffi::OsStrExt;
use std::os::unix::fs::PermissionsExt;

#[test]
fn what_cannot_be_read_is_told_and_the_others_are_checked() {
    let room = Room::new();
    room.file("a", "tween");
    fs::create_dir(room.path("folder")).unwrap();
    let ran = room.run(["check", "folder", "none", "a/b", "a"]);
    assert_eq!(ran.status, 2);
    assert!(ran.err.contains("shelfstrip: folder: this is a folder, not a file\n"), "{}", ran.err);
    assert!(ran.err.contains("shelfstrip: none: there is no such file or folder\n"), "{}", ran.err);
    assert!(ran.err.contains("shelfstrip: a/b: a part of the path is not a folder\n"), "{}", ran.err);
    assert!(ran.err.contains("--> a:1:6\n"), "{}", ran.err);
}

#[test]
fn every_subcommand_tells_of_a_file_that_is_not_there() {
    let cases: [&[&str]; 9] = [
        &["check", "none"],
        &["lines", "none"],
        &["fmt", "none"],
        &["morning", "none"],
        &["convert", "none", "none"],
        &["order", "none"],
        &["lookup", "a", "none"],
        &["plane", "none"],
        &["unplane", "none", "none"],
    ];
    for arguments in cases {
        let ran = Room::new().run(arguments);
        assert_eq!(ran.status, 2, "{arguments:?}");
        assert!(ran.err.contains("none: there is no such file or folder\n"), "{}", ran.err);
    }
}

#[test]
fn a_file_over_the_limit_is_refused() {
    let room = Room::new();
    room.file("full", [b' '; 16_384]).file("over", [b' '; 16_385]);
    let ran = room.run(["check", "full", "over", "/dev/zero"]);
    assert_eq!(ran.status, 1);
    assert_eq!(ran.err.matches("error[1]: TextTooLong: a text of more than 16,384 bytes\n").count(), 2, "{}", ran.err);
    assert!(ran.err.contains(" = over\n") && ran.err.contains(" = /dev/zero\n"), "{}", ran.err);
}

#[test]
fn a_file_without_permission_is_told() {
    let room = Room::new();
    room.file("a", "at 1");
    fs::set_permissions(room.path("a"), Permissions::from_mode(0o000)).unwrap();
    let ran = unprivileged(room.command().args(["check", "a"])).output().unwrap();
    assert_eq!((ran.status.code(), String::from_utf8(ran.stderr).unwrap().as_str()), (Some(2), "shelfstrip: a: no permission\n"));
}

#[test]
fn a_closed_pipe_is_told_once() {
    let room = Room::new();
    room.file("a", "at 1; ".repeat(2_000)).file("book", "a = {}");
    let cases: [&[&str]; 10] = [
        &["lines", "a"],
        &["fmt", "a", "a", "a"],
        &["fmt", "--check", "a", "a", "a"],
        &["morning", "a"],
        &["plane", "a"],
        &["order", "book"],
        &["lookup", "a", "book"],
        &["wave", "sine"],
        &["color", "red"],
        &["--help"],
    ];
    for arguments in cases {
        // nobody reads
        let (reader, writer) = std::io::pipe().unwrap();
        drop(reader);
        let ran = room.command().args(arguments).stdout(writer).output().unwrap();
        let told = String::from_utf8(ran.stderr).unwrap();
        assert_eq!(ran.status.code(), Some(2), "{arguments:?}: {told}");
        assert_eq!(told, "shelfstrip: standard output: closed before all was written\n", "{arguments:?}");
    }
}

#[test]
fn a_closed_standard_error_does_not_change_the_status() {
    let room = Room::new();
    room.file("a", "tween");
    for (name, status) in [("a", 1), ("none", 2)] {
        let (reader, writer) = std::io::pipe().unwrap();
        drop(reader);
        assert_eq!(room.command().args(["check", name]).stderr(writer).status().unwrap().code(), Some(status));
    }
}

#[test]
fn a_page_that_cannot_be_written_is_told() {
    let room = Room::new();
    room.file("a", "at 1");
    let ran = room.run(["morning", "a", "--html", "none/page.html"]);
    assert_eq!((ran.status, ran.err.as_str()), (2, "shelfstrip: none/page.html: there is no such file or folder; nothing is written\n"));
    let ran = room.run(["wave", "sine", "--svg", "/dev/full"]);
    assert_eq!((ran.status, ran.err.as_str()), (2, "shelfstrip: /dev/full: the disk is full; nothing is written\n"));
    let ran = room.run(["convert", "a", "a", "--output", "."]);
    assert_eq!(ran.status, 1, "{}", ran.err);
    let ran = room.run(["plane", "a", "--output", "."]);
    assert_eq!((ran.status, ran.err.as_str()), (2, "shelfstrip: .: this is a folder, not a file; nothing is written\n"));
}

#[test]
fn a_name_that_is_no_utf_8_is_taken() {
    let room = Room::new();
    let name = OsStr::from_bytes(b"a\xff\x1b.strip");
    let path = room.path("").join(name);
    fs::write(&path, "at  1").unwrap();
    assert_eq!(room.run([OsStr::new("fmt"), OsStr::new("--write"), name]).status, 0);
    assert_eq!(fs::read(&path).unwrap(), b"at 1 ;\n");
    fs::write(&path, "tween").unwrap();
    let ran = room.run([OsStr::new("check"), name]);
    assert_eq!(ran.status, 1);
    assert!(ran.err.contains("--> a\u{FFFD}\u{FFFD}.strip:1:6\n"), "{}", ran.err);
}
