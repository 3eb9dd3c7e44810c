//! Finds the Rust sources and the lines of parser.rs that take names.
//!
//! Writes sources.rs, which declares the source files as modules, and
//! lines.rs, the line numbers that places.rs needs.

use std::env;
use std::fs;
use std::path::{Path, PathBuf};

/// The modules taken as they are. `error` comes in under another name, since
/// the crate's own `error` notes each call and then calls it.
const MODULES: [(&str, &str); 6] = [
    ("ast", "ast.rs"),
    ("easing", "easing.rs"),
    ("parser", "parser.rs"),
    ("presets", "presets.rs"),
    ("real_error", "error.rs"),
    ("validate", "validate.rs"),
];

/// The variables whose text ends up in a node, in record order.
const NAMES: [(&str, &str); 13] = [
    ("parse_tween", "target"),
    ("parse_spring", "target"),
    ("parse_keyframes", "target"),
    ("parse_path", "target"),
    ("parse_path", "svg"),
    ("parse_morph", "from"),
    ("parse_morph", "to"),
    ("parse_draw", "svg"),
    ("parse_color", "target"),
    ("parse_color", "from"),
    ("parse_color", "to"),
    ("parse_preset_call", "name"),
    ("parse_label", "s"),
];

/// A line `let VARIABLE: Ident = ...` or `let VARIABLE: LitStr = ...`.
struct Site {
    function: String,
    variable: String,
    line: usize,
}

fn main() {
    println!("cargo:rerun-if-env-changed=ORACLE_SOURCES");
    let folder = sources();
    let out = PathBuf::from(env::var("OUT_DIR").unwrap());
    fs::write(out.join("sources.rs"), modules(&folder)).unwrap();
    let parser = fs::read_to_string(folder.join("parser.rs")).unwrap();
    fs::write(out.join("lines.rs"), lines(&parser)).unwrap();
}

fn sources() -> PathBuf {
    let given = env::var("ORACLE_SOURCES").expect("ORACLE_SOURCES is not set: use build.sh");
    let inner = Path::new(&given).join("crates/animato-macro/src");
    let folder = if inner.is_dir() { inner } else { PathBuf::from(given) };
    fs::canonicalize(folder).expect("the folder of the Rust sources")
}

fn modules(folder: &Path) -> String {
    let mut text = String::new();
    for (module, file) in MODULES {
        let path = folder.join(file);
        println!("cargo:rerun-if-changed={}", path.display());
        text += &format!("#[path = {path:?}]\npub mod {module};\n");
    }
    text
}

fn lines(parser: &str) -> String {
    let (sites, keyframes) = scan(parser);
    let line = |function: &str, variable: &str| -> usize {
        let mut found = sites
            .iter()
            .filter(|s| s.function == function && s.variable == variable);
        let first = found.next().unwrap_or_else(|| panic!("no {variable} in {function}"));
        assert!(found.next().is_none(), "two {variable} in {function}");
        first.line
    };
    let names: Vec<usize> = NAMES.iter().map(|(f, v)| line(f, v)).collect();
    format!(
        "pub const KEYWORD: u32 = {};\npub const EASING: u32 = {};\npub const VARIANT: u32 = {};\n\
         pub const WAVEFORM: u32 = {};\n\
         pub const NAMES: [u32; {}] = {:?};\npub const KEYFRAMES: (u32, u32) = {:?};\n",
        line("parse_node", "keyword"),
        line("parse_easing", "ident"),
        line("parse_easing", "variant"),
        line("parse_waveform", "kind_ident"),
        names.len(),
        names,
        keyframes,
    )
}

/// The sites, and the first and last line of parse_keyframes.
fn scan(parser: &str) -> (Vec<Site>, (usize, usize)) {
    let mut sites = Vec::new();
    let mut function = String::new();
    let mut keyframes = (0, 0);
    for (index, text) in parser.lines().enumerate() {
        let line = index + 1;
        if let Some(name) = function_name(text) {
            function = name.to_string();
        }
        if function == "parse_keyframes" {
            keyframes = (if keyframes.0 == 0 { line } else { keyframes.0 }, line);
        }
        if let Some(variable) = taken_variable(text) {
            sites.push(Site { function: function.clone(), variable: variable.to_string(), line });
        }
    }
    assert!(keyframes.0 > 0, "no parse_keyframes");
    (sites, keyframes)
}

fn function_name(text: &str) -> Option<&str> {
    let rest = text.strip_prefix("pub ").unwrap_or(text).strip_prefix("fn ")?;
    rest.split(|c: char| !c.is_alphanumeric() && c != '_').next()
}

fn taken_variable(text: &str) -> Option<&str> {
    let (variable, rest) = text.trim().strip_prefix("let ")?.split_once(": ")?;
    (rest.starts_with("Ident = ") || rest.starts_with("LitStr = ")).then_some(variable)
}
