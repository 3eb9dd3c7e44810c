use crate::room::{EXAMPLES, Room, example};

/// A sheet with the retired waveform noise, and the one with triangle.
const OLD: [u8; 13] = [0, 1, 11, 0, 0, 4, 0, 0, 0, 0, 0, 0, 0];
const NEW: [u8; 13] = [0, 1, 11, 0, 0, 3, 0, 0, 0, 0, 0, 0, 0];

#[test]
fn converts_to_standard_output_and_to_a_file() {
    let room = Room::new();
    room.file("text", "waveform triangle").file("old", OLD);
    let ran = room.run(["convert", "text", "old"]);
    assert_eq!((ran.status, ran.bytes), (0, NEW.to_vec()));
    let ran = room.run(["convert", "text", "old", "--output", "old"]);
    assert_eq!((ran.status, ran.bytes, room.bytes("old")), (0, vec![], NEW.to_vec()));
}

#[test]
fn refused_bytes_leave_the_output_as_it_was() {
    let room = Room::new();
    room.file("text", "waveform triangle").file("old", &OLD[1..]).file("out", "kept");
    let ran = room.run(["convert", "text", "old", "--output", "out"]);
    assert_eq!((ran.status, room.bytes("out")), (1, b"kept".to_vec()));
    assert!(ran.err.starts_with("error[20]: NotASheet: "), "{}", ran.err);
    // a sheet that is too long is none
    room.file("long", vec![0; 60_000]);
    assert_eq!(room.run(["convert", "text", "long"]).status, 1);
}

#[test]
fn planes_and_turns_back() {
    let room = Room::new();
    for name in EXAMPLES {
        let script = example(&format!("{name}.strip"));
        assert_eq!(room.run(["plane".as_ref(), script.as_os_str(), "--output".as_ref(), "planed".as_ref()]).status, 0);
        let sheet = room.run(["unplane".as_ref(), script.as_os_str(), "planed".as_ref()]);
        assert_eq!(sheet.status, 0);
        let again = room.feed(&sheet.bytes, ["plane".as_ref(), script.as_os_str(), "-".as_ref()]);
        assert_eq!((again.status, again.bytes), (0, room.bytes("planed")));
    }
}

#[test]
fn refuses_bytes_that_are_not_planed() {
    let room = Room::new();
    let ran = room.file("text", "at 1").feed(b"no", ["unplane", "text", "-"]);
    assert_eq!((ran.status, ran.out.as_str()), (1, ""));
    assert!(ran.err.starts_with("error[40]: NotPlaned: "), "{}", ran.err);
    let ran = room.feed(b"tween", ["plane", "-"]);
    assert!(ran.status == 1 && ran.err.contains("--> standard input:1:6\n"), "{}", ran.err);
}
