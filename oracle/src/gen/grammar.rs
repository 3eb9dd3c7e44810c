//! Scripts by the grammar of parser.rs, with or without slips.

use super::numbers;
use crate::easing::{named_variant, NAMED_EASINGS};
use crate::random::Random;

/// Whether a wrong word or a missing field may come up.
#[derive(Clone, Copy, PartialEq, Eq)]
pub enum Slips {
    None,
    Some,
}

const NAMES: &[&str] = &[
    "p", "x", "opacity", "scale", "bg_color", "_a", "A1", "s", "e1", "tween", "easing", "along",
    "gen", "union", "auto", "default", "raw", "safe", "macro_rules", "Easing", "once", "r", "b",
];
const PRESETS: &[&str] = &[
    "fade_in", "fade_out", "slide_in", "slide_out", "scale_in", "scale_out", "bounce_in",
    "bounce_out", "modal_enter", "modal_exit", "drawer_open", "drawer_close", "toast_enter",
    "toast_exit", "page_enter", "page_exit", "stagger_children", "loading_pulse", "loading_wave",
    "shake", "wiggle", "heartbeat", "float", "shimmer",
];
const COLORS: &[&str] = &[
    "red", "RED", "Blue", "white", "black", "green", "yellow", "cyan", "magenta", "gray", "grey",
    "orange", "purple", "pink", "brown", "navy", "teal", "lime", "maroon", "olive", "silver",
    "gold", "indigo", "violet", "aqua", "fuchsia", "coral", "transparent", "blurple", "",
];
const WRONG: &[&str] = &["wrong", "Sine", "grid", "x", "linear1", "top_centre", "along"];

/// The fields of a list, each with the form of its value.
pub type Fields = &'static [(&'static str, Form)];

pub const TWEEN: Fields = &[
    ("duration", Form::Float), ("easing", Form::Easing), ("delay", Form::Float),
    ("time_scale", Form::Float), ("loop", Form::Loop), ("snap", Form::Float),
    ("round", Form::Whole), ("reverse", Form::Truth),
];
pub const SPRING: Fields = &[
    ("preset", Form::Word(&["gentle", "wobbly", "stiff", "slow", "snappy"])),
    ("stiffness", Form::Float), ("damping", Form::Float), ("mass", Form::Float),
    ("velocity", Form::Value), ("epsilon", Form::Float),
    ("integrator", Form::Word(&["semi_implicit_euler", "rk4"])),
    ("critically_damped", Form::Floats(1)), ("overdamped", Form::Floats(2)),
    ("underdamped", Form::Floats(2)),
];
pub const PATH: Fields = &[
    ("duration", Form::Float), ("easing", Form::Easing), ("auto_rotate", Form::Truth),
    ("offset", Form::Range), ("loop", Form::Loop),
];
pub const MORPH: Fields =
    &[("samples", Form::Whole), ("duration", Form::Float), ("easing", Form::Easing)];
pub const DRAW: Fields = &[("duration", Form::Float), ("easing", Form::Easing)];
pub const COLOR: Fields = &[
    ("duration", Form::Float), ("space", Form::Word(&["linear", "lab", "oklch"])),
    ("easing", Form::Easing),
];
const WAVEFORM: Fields = &[
    ("frequency", Form::Float), ("amplitude", Form::Float), ("phase", Form::Float),
    ("duty_cycle", Form::Float), ("seed", Form::Whole), ("smoothness", Form::Float),
    ("duration", Form::Float),
];
const ROUGH: Fields = &[("strength", Form::Float), ("points", Form::Whole)];
const SLOWMO: Fields = &[("linear_ratio", Form::Float), ("power", Form::Float)];
pub const GRID: Fields = &[
    ("cols", Form::Whole), ("rows", Form::Whole),
    ("origin", Form::Word(&[
        "top_left", "top_right", "bottom_left", "bottom_right", "center", "top", "bottom", "left",
        "right",
    ])),
];
const RANDOM: Fields =
    &[("seed", Form::Whole), ("min", Form::Float), ("max", Form::Float)];

/// What a field's value looks like.
#[derive(Clone, Copy)]
pub enum Form {
    Float,
    Floats(usize),
    Whole,
    Truth,
    Range,
    Value,
    Easing,
    Loop,
    Word(&'static [&'static str]),
}

pub struct Grammar<'a> {
    random: &'a mut Random,
    slips: Slips,
    out: Vec<String>,
    /// Node records that may still be made.
    budget: usize,
}

impl<'a> Grammar<'a> {
    pub fn new(random: &'a mut Random, slips: Slips) -> Self {
        Grammar { random, slips, out: Vec::new(), budget: 8 }
    }

    /// Tokens of `count` nodes.
    pub fn nodes_at_top(mut self, count: usize) -> Vec<String> {
        self.nodes(count, 0);
        self.out
    }

    /// Tokens of one node that is no container.
    pub fn leaf_tokens(mut self) -> Vec<String> {
        let kind = self.random.below(11);
        self.leaf(kind, true);
        self.out
    }

    /// Tokens of a field list and its end, with or without a `duration`.
    pub fn list_tokens(mut self, fields: &[(&str, Form)], last: bool) -> Vec<String> {
        self.field_list(fields, false, last);
        self.out
    }

    /// Tokens of a name and fields in parentheses.
    pub fn parens_tokens(mut self, name: &str, fields: &[(&str, Form)]) -> Vec<String> {
        self.fields_in_parens(name, fields);
        self.out
    }

    fn put(&mut self, tokens: &[&str]) {
        self.out.extend(tokens.iter().map(|token| token.to_string()));
    }

    fn slip(&mut self, percent: usize) -> bool {
        self.slips == Slips::Some && self.random.chance(percent)
    }

    fn word(&mut self, from: &[&'static str]) {
        let word = if self.slip(8) { self.random.pick(WRONG) } else { self.random.pick(from) };
        self.put(&[word]);
    }

    fn name(&mut self) {
        let name = self.random.pick(NAMES);
        self.put(&[name]);
    }

    fn string(&mut self) {
        let text = match self.random.below(5) {
            0 => String::new(),
            1 => "M0 0 L10 10".to_string(),
            2 => "m".to_string(),
            _ => {
                let length = self.random.below(8);
                let byte = |random: &mut Random| random.pick(b"abzAZ09 _-+.,;:{}()[]=>%#/'!~@") as char;
                (0..length).map(|_| byte(self.random)).collect()
            }
        };
        self.out.push(format!("\"{text}\""));
    }

    fn color_string(&mut self) {
        let text = match self.random.below(10) {
            0..=4 => {
                let length = self.random.pick(&[3, 3, 4, 6, 6, 8, 6, 5, 7, 2]);
                let digit = |random: &mut Random| random.pick(b"0123456789abcdefABCDEF") as char;
                format!("#{}", (0..length).map(|_| digit(self.random)).collect::<String>())
            }
            5 => self.random.pick(&["#ggg", "#", "#fff ", "ff0000", "##fff", "#12345z"]).into(),
            _ => self.random.pick(COLORS).to_string(),
        };
        self.out.push(format!("\"{text}\""));
    }

    fn float(&mut self) {
        if self.random.chance(15) {
            self.put(&["-"]);
        }
        let number = numbers::number(self.random);
        self.out.push(number);
    }

    fn whole(&mut self) {
        if self.slip(6) {
            let wrong = numbers::wrong_whole(self.random);
            return self.put(&wrong);
        }
        let number = numbers::whole(self.random);
        self.out.push(number);
    }

    fn value(&mut self) {
        if self.random.chance(75) {
            return self.float();
        }
        let count = self.random.pick(&[0, 1, 1, 2, 2, 2, 3, 4]);
        self.array(count);
    }

    fn array(&mut self, count: usize) {
        self.put(&["["]);
        for index in 0..count {
            self.float();
            if index + 1 < count || self.random.chance(20) {
                self.put(&[","]);
            }
        }
        if self.slip(4) {
            self.put(&["1"]);
        }
        self.put(&["]"]);
    }

    /// `from => to`, mostly with counts that match.
    fn change(&mut self) {
        if self.random.chance(70) {
            self.float();
            self.put(&["=>"]);
            return self.float();
        }
        if self.random.chance(50) {
            let count = self.random.between(0, 3);
            self.array(count);
            self.put(&["=>"]);
            return self.array(count);
        }
        self.value();
        self.put(&["=>"]);
        self.value();
    }

    fn easing(&mut self) {
        match self.random.below(14) {
            0..=3 => {
                let name = self.random.pick(NAMED_EASINGS);
                self.put(&[name]);
            }
            4 => self.odd_easing(),
            5..=6 => {
                let name = self.random.pick(NAMED_EASINGS);
                let variant = named_variant(name).expect("a known easing");
                self.put(&["Easing", "::", variant]);
            }
            7 => {
                self.put(&["cubic_bezier"]);
                self.floats(4);
            }
            8..=9 => {
                let name = self.random.pick(&["steps", "wiggle"]);
                self.put(&[name, "("]);
                self.whole();
                self.put(&[")"]);
            }
            10..=11 => self.fields_in_parens("rough", ROUGH),
            _ => self.fields_in_parens("slowmo", SLOWMO),
        }
    }

    /// Names that checking refuses, and others written unusually.
    fn odd_easing(&mut self) {
        let name = self.random.pick(&[
            "ease", "Linear", "ease_in", "Easing", "ease_in_quads", "LINEAR", "EaseInQuad", "l",
        ]);
        let variant = self.random.pick(&[
            "ease_in_quad", "Ease_In_Quad", "linear", "LINEAR", "easeInQuad", "steps", "Easing",
            "EaseIn", "_Linear", "EaseInOutX", "ease_In_Quad",
        ]);
        if self.random.chance(50) {
            self.put(&[name]);
        } else {
            self.put(&["Easing", "::", variant]);
        }
    }

    fn floats(&mut self, count: usize) {
        self.put(&["("]);
        for index in 0..count {
            if index > 0 {
                self.put(&[","]);
            }
            self.float();
        }
        if self.slip(4) {
            self.put(&[","]);
        }
        self.put(&[")"]);
    }

    fn loop_mode(&mut self) {
        let mode = self.random.pick(&["once", "forever", "ping_pong", "ping_pong", "times"]);
        let mode = if self.slip(5) { "ping_pong_times" } else { mode };
        self.put(&[mode]);
        if mode == "times" || mode.starts_with("ping") && self.random.chance(50) {
            self.put(&["("]);
            self.whole();
            self.put(&[")"]);
        }
    }

    fn form(&mut self, form: Form) {
        match form {
            Form::Float => self.float(),
            Form::Floats(count) => self.floats(count),
            Form::Whole => self.whole(),
            Form::Truth => {
                let value = self.random.pick(&["true", "false"]);
                self.put(&[value]);
            }
            Form::Range => {
                let (start, end) = self.random.pick(&[("0", "1"), ("0.25", "0.75"), ("1", "0.5")]);
                if self.random.chance(60) {
                    return self.put(&[start, "..", end]);
                }
                self.float();
                self.put(&[".."]);
                self.float();
            }
            Form::Value => self.value(),
            Form::Easing => self.easing(),
            Form::Loop => self.loop_mode(),
            Form::Word(words) => self.word(words),
        }
    }

    fn field(&mut self, name: &str, form: Form) {
        let name = if self.slip(2) { "wrong" } else { name };
        self.put(&[name, ":"]);
        self.form(form);
    }

    /// Fields in parentheses: commas between, one may trail.
    fn fields_in_parens(&mut self, name: &str, fields: &[(&str, Form)]) {
        self.put(&[name, "("]);
        let count = self.random.pick(&[0, 1, 2, 2, 3]);
        let mut chosen: Vec<usize> = (0..count).map(|_| self.random.below(fields.len())).collect();
        if name == "grid" {
            chosen.extend([0, 1]);
        }
        if self.slip(30) {
            chosen.truncate(1);
        }
        for (index, field) in chosen.iter().enumerate() {
            let (name, form) = fields[*field];
            self.field(name, form);
            if index + 1 < chosen.len() || self.random.chance(20) {
                self.put(&[","]);
            }
        }
        if self.slip(3) {
            self.put(&["2"]);
        }
        self.put(&[")"]);
    }

    /// A field list and its end. `duration` is there unless it slips.
    fn field_list(&mut self, fields: &[(&str, Form)], needs_duration: bool, last: bool) {
        let count = self.random.pick(&[0, 1, 1, 2, 2, 3, 4, 6]);
        let mut chosen: Vec<usize> = (0..count).map(|_| self.random.below(fields.len())).collect();
        if needs_duration && !self.slip(15) {
            let duration = fields.iter().position(|f| f.0 == "duration").expect("a duration");
            let at = self.random.below(chosen.len() + 1);
            chosen.insert(at, duration);
        }
        if self.random.chance(30) {
            self.put(&[","]);
        }
        for (index, field) in chosen.iter().enumerate() {
            let (name, form) = fields[*field];
            self.field(name, form);
            if index + 1 < chosen.len() {
                let between = self.random.pick(&[&[","][..], &[","], &[","], &[], &[",", ","]]);
                self.put(between);
            }
        }
        self.end(last);
    }

    fn end(&mut self, last: bool) {
        if self.random.chance(10) {
            self.put(&[","]);
        }
        if !last || self.random.chance(60) {
            if self.slip(5) {
                return;
            }
            self.put(&[";"]);
        }
    }

    fn keyframes(&mut self) {
        self.put(&["keyframes"]);
        self.name();
        self.put(&["{"]);
        let frames = self.random.pick(&[0, 1, 2, 2, 2, 3, 3, 4, 6]);
        let looped = if self.random.chance(25) { self.random.below(frames + 1) } else { 99 };
        for index in 0..frames {
            if index == looped {
                self.loop_in_keyframes();
            }
            self.frame_time(index);
            self.put(&[":"]);
            self.value();
            if self.random.chance(40) {
                self.easing();
            }
            if index + 1 < frames || looped == frames || self.random.chance(30) {
                let between = self.random.pick(&[",", ",", ";"]);
                self.put(&[between]);
            }
        }
        if looped == frames {
            self.loop_in_keyframes();
        }
        if self.slip(5) {
            self.put(&["0"]);
        }
        self.put(&["}"]);
    }

    fn loop_in_keyframes(&mut self) {
        self.put(&["loop", ":"]);
        self.loop_mode();
        if self.random.chance(70) {
            self.put(&[","]);
        }
    }

    fn frame_time(&mut self, index: usize) {
        if self.random.chance(8) {
            self.put(&["-"]);
        }
        match self.random.below(10) {
            0..=3 => {
                let percent = (index * 25 + self.random.pick(&[0, 0, 0, 1, 50])).to_string();
                self.put(&[&percent, "%"]);
            }
            4 => {
                let percent = self.random.below(2_000_000_000).to_string();
                self.put(&[&percent, "%"]);
            }
            5..=7 => {
                let time = self.random.pick(&[
                    "0", "0s", "1", "0.25", "0.5s", "0.75", "2", "2s", "0.000000119", "0.00000012",
                    "16777216", "16777217", "0.000000060", "1.000000119", "1.00000012",
                ]);
                self.put(&[time]);
            }
            _ => {
                let number = numbers::number(self.random);
                self.out.push(number);
            }
        }
        if self.slip(3) {
            self.put(&["%"]);
        }
    }

    fn stagger_head(&mut self) {
        self.put(&["stagger"]);
        let count = self.random.pick(&[0, 1, 1, 2, 2, 3]);
        for index in 0..count {
            if self.random.chance(50) {
                self.put(&["delay", ":"]);
                self.float();
            } else {
                self.put(&["pattern", ":"]);
                self.pattern();
            }
            if index + 1 < count || self.random.chance(25) {
                self.put(&[","]);
            }
        }
    }

    fn pattern(&mut self) {
        match self.random.below(6) {
            0..=2 => self.fields_in_parens("grid", GRID),
            3..=4 => self.fields_in_parens("random", RANDOM),
            _ => self.word(&["center_out", "edges_in"]),
        }
    }

    /// The keyword and head of a container, without its `{`.
    pub fn container_head(&mut self) {
        match self.random.below(4) {
            0 => self.put(&["sequence"]),
            1 => self.put(&["parallel"]),
            2 => {
                self.put(&["group"]);
                self.word(&["sequence", "parallel"]);
            }
            _ => self.stagger_head(),
        }
    }

    pub fn container_head_tokens(mut self) -> Vec<String> {
        self.container_head();
        self.out
    }

    fn container(&mut self, depth: usize) {
        self.container_head();
        self.put(&["{"]);
        let count = if depth > 4 { 0 } else { self.random.pick(&[0, 1, 1, 2]) };
        self.nodes(count, depth + 1);
        self.put(&["}"]);
    }

    fn nodes(&mut self, count: usize, depth: usize) {
        for index in 0..count {
            if self.random.chance(8) {
                self.put(&[";"]);
            }
            if self.budget == 0 {
                return;
            }
            self.budget -= 1;
            let kind = self.random.below(15);
            if kind < 11 {
                self.leaf(kind, index + 1 == count);
            } else {
                self.container(depth);
            }
        }
    }

    /// `last`: nothing follows in its block, so no `;` is needed.
    fn leaf(&mut self, kind: usize, last: bool) {
        match kind {
            0 => {
                self.put(&["tween"]);
                self.name();
                self.put(&[":"]);
                self.change();
                self.field_list(TWEEN, true, last);
            }
            1 => {
                self.put(&["spring"]);
                self.name();
                self.put(&[":"]);
                self.change();
                self.field_list(SPRING, false, last);
            }
            2 => self.keyframes(),
            3 => {
                self.put(&["path"]);
                self.name();
                self.word(&["along"]);
                self.string();
                self.field_list(PATH, true, last);
            }
            4 => {
                self.put(&["morph"]);
                self.string();
                self.put(&["=>"]);
                self.string();
                self.field_list(MORPH, true, last);
            }
            5 => {
                self.put(&["draw"]);
                self.string();
                self.field_list(DRAW, true, last);
            }
            6 => {
                self.put(&["color"]);
                self.name();
                self.put(&[":"]);
                self.color_string();
                self.put(&["=>"]);
                self.color_string();
                self.field_list(COLOR, true, last);
            }
            7 => {
                self.put(&["waveform"]);
                self.word(&["sine", "sawtooth", "square", "triangle", "noise"]);
                self.field_list(WAVEFORM, false, last);
            }
            8 => self.preset(last),
            9 => {
                self.put(&["label"]);
                self.string();
                if !self.slip(10) {
                    self.put(&[";"]);
                }
            }
            _ => {
                self.put(&["at"]);
                let sign = self.random.pick(&[&[][..], &[], &["+"], &["-"]]);
                self.put(sign);
                self.float();
                if self.random.chance(70) {
                    self.put(&[";"]);
                }
            }
        }
    }

    fn preset(&mut self, last: bool) {
        self.put(&["preset"]);
        let name = if self.random.chance(90) { self.random.pick(PRESETS) } else { self.random.pick(NAMES) };
        if self.random.chance(50) {
            self.fields_in_parens(name, DRAW);
        } else {
            self.put(&[name]);
        }
        if self.random.chance(40) {
            self.put(&[","]);
            self.field_list(DRAW, false, last);
        }
    }
}
