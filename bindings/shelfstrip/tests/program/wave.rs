use crate::room::Room;

#[test]
fn draws_every_kind_on_the_terminal() {
    for kind in ["sine", "sawtooth", "square", "triangle"] {
        let ran = Room::new().run(["wave", kind]);
        let lines: Vec<&str> = ran.out.lines().collect();
        assert_eq!((ran.status, lines.len()), (0, 17), "{kind}");
        assert_eq!(ran.out.matches('*').count(), 64, "{kind}");
    }
    let square = Room::new().run(["wave", "square"]).out;
    assert_eq!(square.lines().next(), Some("*".repeat(32).as_str()));
    assert_eq!(square.lines().last(), Some(format!("{}{}", " ".repeat(32), "*".repeat(32)).as_str()));
}

#[test]
fn writes_an_svg() {
    let room = Room::new();
    let ran = room.run(["wave", "sine", "--phase", "64", "--svg", "a.svg"]);
    assert!(ran.status == 0 && ran.out.contains('*'));
    let svg = String::from_utf8(room.bytes("a.svg")).unwrap();
    assert!(svg.contains("<title>sine, phase 64 of 256</title>"));
    // the peak, the middle, the lowest, the middle, the peak
    for point in ["\"0,8.00 ", " 128,128.00 ", " 256,248.00 ", " 384,128.00 ", " 512,8.00\""] {
        assert!(svg.contains(point), "{point}");
    }
    let ran = room.run(["wave", "sine", "--phase", "64", "--svg", "-"]);
    assert_eq!((ran.status, ran.out), (0, svg));
}

#[test]
fn refuses_noise_and_a_large_phase() {
    for (arguments, number) in [(["wave", "noise", "--phase", "0"], 41), (["wave", "sine", "--phase", "256"], 42)] {
        let ran = Room::new().run(arguments);
        assert_eq!((ran.status, ran.out.as_str()), (1, ""));
        assert!(ran.err.starts_with(&format!("error[{number}]: ")), "{}", ran.err);
    }
}
