//! Every reserved word, and words that are names, wherever a name may stand.

use crate::random::Random;

/// Edition 2021's strict and reserved keywords and `_`, then words that are
/// names though some list of keywords has them.
pub const WORDS: &[&str] = &[
    "_", "as", "break", "const", "continue", "crate", "else", "enum", "extern", "false", "fn",
    "for", "if", "impl", "in", "let", "loop", "match", "mod", "move", "mut", "pub", "ref",
    "return", "self", "Self", "static", "struct", "super", "trait", "true", "type", "unsafe",
    "use", "where", "while", "async", "await", "dyn", "abstract", "become", "box", "do", "final",
    "macro", "override", "priv", "typeof", "unsized", "virtual", "yield", "try", "gen", "union",
    "auto", "default", "raw", "safe", "macro_rules", "r", "b", "br", "c", "s", "__", "_x", "Loop",
    "TRUE", "selfs", "Try",
];

/// A text with `@` where the word goes.
const SPOTS: &[&str] = &[
    "tween @:0=>1 duration:1", "@ p:0=>1", "spring @:0=>1", "keyframes @{0:1,1:2}",
    "path @ along \"m\" duration:1", "path p @ \"m\" duration:1", "color @:\"red\"=>\"red\" duration:1",
    "waveform @", "preset @", "group @{}", "tween p:0=>1 @:1", "tween p:0=>1 duration:1 easing:@",
    "tween p:0=>1 duration:1 easing:Easing::@", "tween p:0=>1 duration:1 loop:@",
    "tween p:0=>1 duration:1 reverse:@", "tween p:@", "tween p:0=>1 duration:@", "spring p:0=>1 preset:@",
    "spring p:0=>1 integrator:@", "stagger @:1{}", "stagger pattern:@{}",
    "stagger pattern:grid(@:1){}", "stagger pattern:grid(cols:1,rows:1,origin:@){}",
    "stagger pattern:random(@:1){}", "color c:\"red\"=>\"red\" duration:1 space:@",
    "draw \"m\" duration:1 easing:rough(@:1)", "draw \"m\" duration:1 easing:slowmo(@:1)",
    "keyframes p{0:1 @,1:2}", "keyframes p{@:1}", "keyframes p{0:1 Easing::@,1:2}", "preset p(@:1)",
    "preset p,@:1", "label @;", "at @", "at 1 @", "sequence{@}", "sequence @{}", "morph @",
    "tween p:[1 @]=>1 duration:1", "preset p(duration:1 @)", "keyframes p{0:1;@}",
    "draw \"m\" duration:1 easing:steps(@)", "draw \"m\" duration:1 easing:steps(1 @)", "draw @",
];

/// The index goes through all words at the first spot, then the others.
pub fn script(index: usize, random: &mut Random) -> Vec<u8> {
    let word = WORDS[index % WORDS.len()];
    let spot = index / WORDS.len();
    let spot = if spot < SPOTS.len() { SPOTS[spot] } else { random.pick(SPOTS) };
    spot.replace('@', word).into_bytes()
}
