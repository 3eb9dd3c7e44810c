//! Scripts by the grammar, then damaged: in words, in tokens, or in bytes.

use super::grammar::{Grammar, Slips};
use super::render;
use crate::random::Random;

pub const TOKENS: &[&str] = &[
    ":", ";", ",", "=>", "=", ">", "::", "..", ".", "+", "-", "%", "(", ")", "[", "]", "{", "}",
    "()", "[]", "{}", "p", "x", "linear", "Easing", "loop", "true", "false", "_", "self", "fn",
    "try", "at", "tween", "sequence", "duration", "easing", "delay", "0", "1", "2.5", "1s", "50%",
    "\"m\"", "\"\"", "steps", "once", "grid",
];

pub fn script(random: &mut Random) -> Vec<u8> {
    let way = random.below(10);
    let slips = if way < 6 { Slips::Some } else { Slips::None };
    let count = random.pick(&[1, 1, 1, 2, 3]);
    let mut tokens = Grammar::new(random, slips).nodes_at_top(count);
    if (4..9).contains(&way) {
        for _ in 0..random.pick(&[1, 1, 1, 2, 3]) {
            damage_tokens(random, &mut tokens);
        }
    }
    let mut text = render(random, &tokens);
    if way == 9 {
        damage_bytes(random, &mut text);
    }
    text
}

fn damage_tokens(random: &mut Random, tokens: &mut Vec<String>) {
    if tokens.is_empty() {
        return;
    }
    let at = random.below(tokens.len());
    let other = random.below(tokens.len());
    let token = random.pick(TOKENS).to_string();
    match random.below(7) {
        0 => drop(tokens.remove(at)),
        1 => tokens.insert(at, tokens[at].clone()),
        2 => tokens.swap(at, other),
        3 => tokens[at] = token,
        4 => tokens[at] = tokens[other].clone(),
        5 => tokens.insert(at, token),
        _ => leave_over(random, tokens, token),
    }
}

/// Puts a token before some closer.
pub fn leave_over(random: &mut Random, tokens: &mut Vec<String>, token: String) {
    let closers: Vec<usize> = (0..tokens.len())
        .filter(|index| matches!(tokens[*index].as_str(), ")" | "]" | "}"))
        .collect();
    if !closers.is_empty() {
        tokens.insert(random.pick(&closers), token);
    }
}

fn damage_bytes(random: &mut Random, text: &mut Vec<u8>) {
    if text.is_empty() {
        return;
    }
    let at = random.below(text.len());
    match random.below(4) {
        0 => drop(text.remove(at)),
        1 => text.insert(at, text[at]),
        2 => text[at] = random.below(256) as u8,
        _ => text[at] = random.pick(b"azs_09 .:;,=>+-%()[]{}\"\\#'/\x00\x0b\x7f\x80"),
    }
}
