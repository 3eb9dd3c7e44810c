//! Scripts at the limits: containers, open delimiters, digits, bytes.

use super::grammar::{Grammar, Slips};
use super::{render, tokens};
use crate::random::Random;

pub fn script(random: &mut Random) -> Vec<u8> {
    match random.below(100) {
        0..=39 => containers(random),
        40..=59 => openers(random),
        60..=97 => digits(random),
        _ => bytes(random),
    }
}

fn add(out: &mut Vec<String>, text: &str) {
    out.extend(tokens(text));
}

/// 15 to 18 containers, with something inside, and at times a fault.
pub fn containers(random: &mut Random) -> Vec<u8> {
    let depth = random.pick(&[15, 16, 16, 16, 17, 17, 17, 18]);
    let short = random.chance(70);
    let mut out = Vec::new();
    for level in 0..depth {
        if random.chance(3) {
            add(&mut out, random.pick(&["at 1 ;", "sequence { }", "keyframes p { }", ";"]));
        }
        let plain = random.pick(&["sequence", "parallel", "stagger", "group parallel"]);
        if level == 16 && random.chance(30) {
            add(&mut out, random.pick(&["group x", "stagger x", "sequence x", "group", "foo"]));
        } else if short {
            add(&mut out, plain);
        } else {
            out.extend(Grammar::new(random, Slips::None).container_head_tokens());
        }
        add(&mut out, "{");
    }
    let inside = random.pick(&[
        "", "at 1", "keyframes p { }", "keyframes p { 0 : 1 , 1 : 2 }", "foo", "keyframes p { x }",
        "tween p : [ 1 2 ] => 1 duration : 1", "1", "sequence", "sequence x", "preset wrong",
    ]);
    add(&mut out, inside);
    for _ in 0..depth {
        if random.chance(1) {
            add(&mut out, random.pick(&["at 1", "x", "2", "sequence { }"]));
        }
        add(&mut out, "}");
    }
    if random.chance(10) {
        add(&mut out, random.pick(&["foo", "at 1", "sequence { }", "}", "{"]));
    }
    render(random, &out)
}

/// 63 to 66 delimiters open at once.
fn openers(random: &mut Random) -> Vec<u8> {
    let count = random.pick(&[63, 64, 64, 65, 65, 66]);
    let head = random.pick(&[
        "", "tween p:[1 ", "keyframes p{0:1 ", "sequence{at 1 ", "preset p(",
        "sequence{sequence{tween p:[0]=>[", "tween p:0=>1 easing:", "tween p:[1]=>[1(2)][",
    ]);
    let mut text = head.as_bytes().to_vec();
    let mut open = still_open(head);
    while open.len() < count {
        let opener = random.pick(b"([{");
        text.push(opener);
        open.push(opener);
    }
    if random.chance(10) {
        text.push(random.pick(b"#1x)"));
    }
    while let Some(opener) = open.pop() {
        if !random.chance(1) {
            text.push(closer(opener));
        }
    }
    text
}

/// The openers of `text` that it does not close.
pub fn still_open(text: &str) -> Vec<u8> {
    let mut open = Vec::new();
    for byte in text.bytes() {
        match byte {
            b'(' | b'[' | b'{' => open.push(byte),
            b')' | b']' | b'}' => drop(open.pop()),
            _ => {}
        }
    }
    open
}

pub fn closer(opener: u8) -> u8 {
    match opener {
        b'(' => b')',
        b'[' => b']',
        _ => b'}',
    }
}

/// 39 to 42 digits before the point and after it, and fewer, an exponent or
/// none, wherever a number may stand.
pub fn digits(random: &mut Random) -> Vec<u8> {
    let whole = random.pick(&[1, 9, 10, 11, 19, 39, 40, 40, 40, 41, 41, 42]);
    let point = random.pick(&[0, 0, 8, 9, 10, 19, 39, 40, 40, 41, 41, 42]);
    let mut number = String::new();
    for _ in 0..whole {
        number.push(random.pick(b"0009123458") as char);
    }
    if point > 0 {
        number.push('.');
    }
    for _ in 0..point {
        number.push(random.pick(b"0009123458") as char);
    }
    if random.chance(40) {
        let digits = random.pick(&["", "0", "5", "05", "38", "45", "99", "005", "100"]);
        number += &format!("{}{}{digits}", random.pick(&["e", "e", "E"]), random.pick(&["", "+", "-", "-"]));
    }
    let after = random.pick(&["", "", "", "s", "s", "x", "sx", ".", "..", ".x", "_", "\"m\"", "%"]);
    let sign = random.pick(&["", "", "-", "- ", "--"]);
    let (before, behind) = random.pick(&[
        ("at ", ""), ("tween p:0=>", " duration:1"), ("tween p:0=>1 duration:", ""),
        ("tween p:0=>1 duration:1 round:", ""), ("keyframes p{0:1,", ":2}"),
        ("keyframes p{0:1,", "%:2}"), ("path p along \"m\" duration:1 offset:", "..1"),
        ("path p along \"m\" duration:1 offset:0..", ""), ("tween p:[", "]=>1 duration:1"),
        ("spring p:0=>1 overdamped:(1,", ")"), ("draw \"m\" duration:1 easing:steps(", ")"),
    ]);
    format!("{before}{sign}{number}{after}{behind}").into_bytes()
}

/// 16,383 to 16,386 bytes, and other large texts.
fn bytes(random: &mut Random) -> Vec<u8> {
    let size = random.pick(&[16_383, 16_384, 16_384, 16_385, 16_386]);
    let fill = |head: &str, unit: &str, tail: &str| -> Vec<u8> {
        let mut text = head.as_bytes().to_vec();
        while text.len() + unit.len() + tail.len() <= size {
            text.extend(unit.as_bytes());
        }
        text.extend(tail.as_bytes());
        text.resize(size.max(text.len()), b' ');
        text
    };
    match random.below(11) {
        0 => fill("", "at 1 ", ""),
        1 => fill("tween ", "p", ":0=>1 duration:1"),
        2 => fill("label \"", "x", "\";"),
        3 => fill("keyframes p{", "0:1,", "}"),
        4 => fill("tween p:[", "1,", "]=>1 duration:1"),
        5 => fill("", ";", "at 1"),
        6 => fill("at 1", "\n", "x"),
        7 => fill("", " ", "\x01"),
        8 => fill("at 1 (", "(", ""),
        9 => fill("keyframes p{", "0:1 l,", "}"),
        _ => fill("sequence{", "stagger{}", "}"),
    }
}
