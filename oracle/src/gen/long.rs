//! Scripts by the grammar with the numbers of 02 (n) in the place of others,
//! and at times what is no such number.

use super::grammar::{Grammar, Slips};
use super::{limits, numbers, render};
use crate::random::Random;

/// What may follow a number's digits and make no number of it.
const BEHIND: &[&str] = &["e", "E", "e+", "e-", "e005", "e100", "e5x", "e5e5", "e_5", "e5.5", "e5%", "se5", "x"];

pub fn script(random: &mut Random) -> Vec<u8> {
    if random.chance(20) {
        return limits::digits(random);
    }
    let slips = if random.chance(15) { Slips::Some } else { Slips::None };
    let count = random.pick(&[1, 1, 1, 2, 3]);
    let mut tokens = Grammar::new(random, slips).nodes_at_top(count);
    for token in &mut tokens {
        if token.as_bytes()[0].is_ascii_digit() {
            *token = longer(random, token);
        }
    }
    if random.chance(10) {
        spoil(random, &mut tokens);
    }
    render(random, &tokens)
}

/// Another number in the place of one. A whole number mostly keeps its value,
/// since a fraction is refused where only a whole one may stand.
fn longer(random: &mut Random, token: &str) -> String {
    let whole = !token.contains('.');
    match random.below(100) {
        0..=39 if whole => format!("{}{token}", "0".repeat(random.between(0, 41 - token.len().min(41)))),
        40..=54 if whole => numbers::long(random),
        0..=69 if !whole => numbers::long(random),
        _ => token.to_string(),
    }
}

/// Puts something behind one of the numbers.
fn spoil(random: &mut Random, tokens: &mut [String]) {
    let at = random.below(tokens.len());
    if tokens[at].as_bytes()[0].is_ascii_digit() {
        tokens[at] += random.pick(BEHIND);
    }
}
