//! Scripts for the refusals that seldom come up, 9 to 13: a node with such a
//! fault among right ones, in containers or not.

use super::damage::{leave_over, TOKENS};
use super::grammar::{Fields, Form, Grammar, Slips, COLOR, DRAW, GRID, MORPH, PATH, SPRING, TWEEN};
use super::{limits, render, tokens};
use crate::random::Random;

/// The kinds that need a duration: a node without its fields, and these.
const TIMED: &[(&str, Fields)] = &[
    ("tween p : 0 => 1", TWEEN), ("path p along \"m\"", PATH), ("morph \"a\" => \"b\"", MORPH),
    ("draw \"m\"", DRAW), ("color c : \"red\" => \"#fff\"", COLOR),
];

pub fn script(random: &mut Random) -> Vec<u8> {
    let faulty = match random.below(5) {
        0 => wrong_preset(random),
        1 => no_duration(random),
        2 => short_grid(random),
        3 => leftover(random),
        _ => return limits::containers(random),
    };
    let depth = random.pick(&[0, 0, 0, 1, 1, 2, 4]);
    let mut out = right_nodes(random);
    for _ in 0..depth {
        out.extend(Grammar::new(random, Slips::None).container_head_tokens());
        out.push("{".into());
        out.extend(right_nodes(random));
    }
    out.extend(faulty);
    for _ in 0..depth {
        out.push("}".into());
        out.extend(right_nodes(random));
    }
    render(random, &out)
}

/// Some nodes or none, and a `;`, so that others may follow.
fn right_nodes(random: &mut Random) -> Vec<String> {
    let count = random.pick(&[0, 0, 0, 1, 1, 2]);
    let mut out = Grammar::new(random, Slips::None).nodes_at_top(count);
    if count > 0 {
        out.push(";".into());
    }
    out
}

fn but(fields: Fields, name: &str) -> Vec<(&'static str, Form)> {
    fields.iter().filter(|field| field.0 != name).copied().collect()
}

/// For 9: a spring with a wrong preset.
fn wrong_preset(random: &mut Random) -> Vec<String> {
    let mut out = tokens("spring p : 0 => 1");
    out.extend(Grammar::new(random, Slips::None).list_tokens(SPRING, true));
    if out.last().is_some_and(|token| token == ";") {
        out.pop();
    }
    let name = random.pick(&["x", "soft", "Gentle", "stiff_", "rk4", "preset"]);
    out.extend(tokens(&format!("preset : {name}")));
    out.extend(Grammar::new(random, Slips::None).list_tokens(SPRING, false));
    out
}

/// For 10: a node without its duration.
fn no_duration(random: &mut Random) -> Vec<String> {
    let (node, fields) = random.pick(TIMED);
    let mut out = tokens(node);
    out.extend(Grammar::new(random, Slips::None).list_tokens(&but(fields, "duration"), true));
    if random.chance(10) {
        out.extend(tokens("{ }"));
    }
    out
}

/// For 11: a stagger whose grid has no columns or no rows, at times with a
/// token left in it or a fault in its block.
fn short_grid(random: &mut Random) -> Vec<String> {
    let mut out = tokens(random.pick(&["stagger pattern :", "stagger delay : 1 , pattern :"]));
    let fields = but(GRID, random.pick(&["cols", "rows"]));
    out.extend(Grammar::new(random, Slips::None).parens_tokens("grid", &fields));
    if random.chance(20) {
        let token = random.pick(TOKENS).to_string();
        leave_over(random, &mut out, token);
    }
    out.extend(tokens(random.pick(&["{ }", "{ }", "{ at 1 }", "{ x }", ", delay : 1 { }", ""])));
    out
}

/// For 13: a node with a token left before a closer.
fn leftover(random: &mut Random) -> Vec<String> {
    let mut out = Vec::new();
    while !out.iter().any(|token| matches!(token as &str, ")" | "]" | "}")) {
        out = Grammar::new(random, Slips::None).leaf_tokens();
    }
    let token = random.pick(TOKENS).to_string();
    leave_over(random, &mut out, token);
    out
}
