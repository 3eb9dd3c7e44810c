//! Short strings of tokens at chosen spots.

use super::limits::{closer, still_open};
use crate::random::Random;

const SPOTS: &[&str] = &[
    "", "at ", "at -", "at 1 ", "tween ", "tween p:", "tween p:0=>", "tween p:0=>1 ",
    "tween p:0=>1 duration:1 ", "tween p:0=>1 duration:1;", "tween p:[", "tween p:[1 ",
    "tween p:0=>1 duration:1 easing:", "tween p:0=>1 duration:1 easing:rough(",
    "tween p:0=>1 duration:1 easing:slowmo(power:1 ", "tween p:0=>1 duration:1 easing:steps(",
    "tween p:0=>1 duration:1 easing:cubic_bezier(0,0,", "tween p:0=>1 duration:1 easing:Easing",
    "tween p:0=>1 duration:1 loop:", "tween p:0=>1 duration:1 loop:ping_pong",
    "tween p:0=>1 duration:1 loop:times(", "tween p:0=>1 duration:1 round:",
    "tween p:0=>1 duration:1 reverse:", "spring p:0=>1 ", "spring p:0=>1 preset:",
    "spring p:0=>1 velocity:", "spring p:0=>1 overdamped:", "spring p:0=>1 underdamped:(1",
    "spring p:0=>1 integrator:", "keyframes ", "keyframes p", "keyframes p{", "keyframes p{0:1 ",
    "keyframes p{0:1,", "keyframes p{0", "keyframes p{loop:once ", "keyframes p{loop", "sequence",
    "sequence{", "group ", "group sequence", "stagger ", "stagger delay:1", "stagger pattern:",
    "stagger pattern:grid(", "stagger pattern:grid(cols:1,rows:1 ", "stagger pattern:grid(cols:1,rows:1)",
    "stagger pattern:random(", "path p ", "path p along ", "path p along \"m\" duration:1 offset:",
    "path p along \"m\" duration:1 offset:0", "path p along \"m\" auto_rotate:", "morph ", "morph \"a\"",
    "morph \"a\"=>\"b\" duration:1 samples:", "draw ", "draw \"m\" ", "color c:", "color c:\"red\"=>",
    "color c:\"red\"=>\"blue\" duration:1 space:", "waveform ", "waveform sine ", "waveform noise seed:",
    "preset ", "preset float ", "preset float,", "preset float(", "preset float()", "label ", "label \"x\"",
];

const PIECES: &[&str] = &[
    ":", ";", ",", "=>", "=", ">", "::", "..", ".", "+", "-", "-", "%", "()", "[]", "{}", "(1)",
    "[1]", "{0:1}", "p", "x", "linear", "Easing", "loop", "true", "false", "_", "at", "at 1",
    "duration", "duration:1", "easing", "easing:linear", "delay:1", "cols:1", "0", "1", "0.5", "1s",
    "50", "50%", "2.5s", "\"m\"", "once", "along", "X", "{", "}", "1..", "1.5", "power", "4294967296",
    "self", "dyn", "times(2)", "center", "sine", "in", "at 1;", "1=>2", ":1",
];

/// A text with the closers that it lacks.
fn closed(mut text: String) -> String {
    let mut open = still_open(&text);
    while let Some(opener) = open.pop() {
        text.push(closer(opener) as char);
    }
    text
}

/// Every spot with every string of at most two pieces behind it.
pub fn all() -> impl Iterator<Item = String> {
    let strings = || std::iter::once("").chain(PIECES.iter().copied());
    SPOTS.iter().flat_map(move |spot| {
        strings().flat_map(move |one| {
            let twos: Vec<&str> = if one.is_empty() { vec![""] } else { strings().collect() };
            twos.into_iter().map(move |two| closed(format!("{spot}{one} {two}")))
        })
    })
}

pub fn script(random: &mut Random) -> Vec<u8> {
    let inside = random.chance(10);
    let mut text = if inside { "sequence{".to_string() } else { String::new() };
    text += random.pick(SPOTS);
    for _ in 0..random.pick(&[0, 1, 1, 2, 2, 2, 3, 3, 4]) {
        text += random.pick(PIECES);
        if random.chance(40) {
            text.push(' ');
        }
    }
    text = closed(text);
    if random.chance(15) {
        text += random.pick(&["", " at 1", ";", " foo", "{}", " duration:1", ",", " 1", "x"]);
    }
    text.into_bytes()
}
