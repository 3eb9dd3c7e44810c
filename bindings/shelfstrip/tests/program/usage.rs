use crate::room::Room;

const COMMANDS: [&str; 12] =
    ["check", "lines", "fmt", "morning", "convert", "color", "order", "lookup", "plane", "unplane", "wave", "completions"];

#[test]
fn help_and_version_end_with_0() {
    let room = Room::new();
    let help = room.run(["--help"]);
    assert_eq!((help.status, help.err.as_str()), (0, ""));
    for command in COMMANDS {
        assert!(help.out.contains(&format!("\n  {command}\n")), "{command}");
        let own = room.run([command, "--help"]);
        assert!(own.status == 0 && own.out.contains(&format!("Usage: shelfstrip {command} ")), "{}", own.out);
    }
    assert_eq!(room.run(["--version"]).out, format!("shelfstrip {}\n", env!("CARGO_PKG_VERSION")));
}

#[test]
fn bad_usage_ends_with_2() {
    let cases: [&[&str]; 12] = [
        &[],
        &["chek"],
        &["check"],
        &["check", "--colors", "none", "-"],
        &["check", "-", "-"],
        &["fmt", "--check", "--write", "a"],
        &["fmt", "--write", "-"],
        &["morning", "--json", "--html", "a", "-"],
        &["wave", "round"],
        &["wave", "sine", "--phase", "-1"],
        &["lookup", "a", "-", "-"],
        &["completions", "none"],
    ];
    for arguments in cases {
        let ran = Room::new().run(arguments);
        assert_eq!((ran.status, ran.out.as_str()), (2, ""), "{arguments:?}");
        assert!(!ran.err.is_empty() && !ran.err.to_lowercase().contains("did you mean"), "{}", ran.err);
    }
}

#[test]
fn completions_name_every_subcommand() {
    for shell in ["bash", "zsh", "fish", "elvish", "powershell"] {
        let ran = Room::new().run(["completions", shell]);
        assert_eq!(ran.status, 0);
        assert!(COMMANDS.iter().all(|command| ran.out.contains(command)), "{shell}");
    }
}

#[test]
fn tells_the_bytes_of_a_colour() {
    let room = Room::new();
    let ran = room.run(["color", "Tomato"]);
    assert_eq!((ran.status, ran.out.as_str()), (0, "#FF6347FF red 255 green 99 blue 71 alpha 255\n"));
    assert_eq!(room.run(["color", "#1234"]).out, "#11223344 red 17 green 34 blue 51 alpha 68\n");
    let ran = room.run(["color", "tomat"]);
    assert_eq!((ran.status, ran.out.as_str()), (1, ""));
    assert!(ran.err.starts_with("error[25]: InvalidColor: ") && ran.err.contains(" = tomat\n") && !ran.err.contains("tomato"));
}
