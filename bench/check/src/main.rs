//! The Rust's reading and validating of script files: each file is read, lexed and parsed, and its nodes are validated. Tells on standard
//! error what is refused, and ends with 1 if something is. run.py runs it beside `shelfstrip check`.
#![allow(dead_code)]

include!(concat!(env!("OUT_DIR"), "/sources.rs"));

/// The name by which the Rust sources call it.
mod error {
    pub use crate::real_error::*;
}

use parser::AnimatoInput;
use std::fs;
use std::process::ExitCode;

fn main() -> ExitCode {
    let mut refused = false;
    for path in std::env::args_os().skip(1) {
        let text = fs::read_to_string(&path).expect("a file of text");
        let checked = syn::parse_str::<AnimatoInput>(&text).and_then(|input| validate::validate_nodes(&input.nodes));
        if let Err(error) = checked {
            eprintln!("{}: {error}", path.to_string_lossy());
            refused = true;
        }
    }
    ExitCode::from(u8::from(refused))
}
