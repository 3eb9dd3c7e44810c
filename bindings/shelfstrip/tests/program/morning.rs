use crate::room::{EXAMPLES, Room, example};
use std::ffi::OsString;

/// Arguments that count the six examples, and more.
fn examples(more: &[&str]) -> Vec<OsString> {
    let scripts = EXAMPLES.iter().map(|name| example(&format!("{name}.strip")).into_os_string());
    ["morning".into()].into_iter().chain(scripts).chain(more.iter().map(OsString::from)).collect()
}

#[test]
fn counts_the_examples() {
    let ran = Room::new().run(examples(&[]));
    assert_eq!((ran.status, ran.err.as_str()), (0, ""));
    for line in ["6 scripts", "6 accepted", "7 color", "6 label", "5 keyframe entries", "29/6 records a script", "5/1 entries a track"] {
        assert!(ran.out.lines().any(|each| each.trim_start() == line), "{line}\n{}", ran.out);
    }
}

#[test]
fn the_figures_of_json_are_those_of_the_text() {
    let room = Room::new();
    room.file("bad", "at 1;\n preset x").file("long", [b' '; 16_385]);
    let ran = room.run(examples(&["bad", "long", "none", "--json"]));
    assert_eq!(ran.status, 2);
    let page: serde_json::Value = serde_json::from_str(&ran.out).unwrap();
    assert_eq!((&page["scripts"], &page["accepted"], &page["entries"]), (&8.into(), &6.into(), &5.into()));
    assert_eq!((&page["records"]["color"], &page["records"]["spring"]), (&7.into(), &1.into()));
    let mean = &page["records_per_script"];
    assert_eq!((&mean["numerator"], &mean["denominator"]), (&29.into(), &6.into()));
    let (long, bad) = (&page["refused"][0], &page["refused"][1]);
    assert_eq!((&long["number"], &long["scripts"], &bad["number"], &bad["scripts"]), (&1.into(), &1.into(), &24.into(), &1.into()));
    let scripts = &page["refused_scripts"];
    assert_eq!((&scripts[0]["file"], &scripts[0]["line"], &scripts[0]["column"]), (&"bad".into(), &2.into(), &2.into()));
    assert!(scripts[1]["line"].is_null());
    let uncounted = &page["not_counted"][0];
    assert_eq!((&uncounted["file"], &uncounted["reason"]), (&"none".into(), &"there is no such file or folder".into()));
}

#[test]
fn no_scripts_have_no_means() {
    let ran = Room::new().feed(b"tween", ["morning", "-", "--json"]);
    let page: serde_json::Value = serde_json::from_str(&ran.out).unwrap();
    assert!(ran.status == 1 && page["records_per_script"].is_null() && page["entries_per_track"].is_null());
}

#[test]
fn the_html_page_is_one_file_and_escapes_names() {
    let room = Room::new();
    room.file("<b>&\"", "tween");
    let ran = room.run(examples(&["<b>&\"", "--html", "page.html"]));
    assert_eq!((ran.status, ran.out.as_str()), (1, ""));
    let page = String::from_utf8(room.bytes("page.html")).unwrap();
    assert!(page.contains("<td class=\"file\">&lt;b&gt;&amp;&quot;</td>") && !page.contains("<b>"));
    assert!(page.contains("<dd id=\"scripts\">7</dd>") && page.contains("<dd id=\"accepted\">6</dd>"));
    for word in ["<script", "http:", "https:", "src=", "<link", "@import", "url("] {
        assert!(!page.contains(word), "{word}");
    }
    let ran = room.run(examples(&["<b>&\"", "--html", "-"]));
    assert_eq!(ran.out, page);
}
