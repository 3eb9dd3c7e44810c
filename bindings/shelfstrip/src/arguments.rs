//! What the program takes on its command line.
use crate::input::Source;
use clap::{Args, Parser, Subcommand, ValueEnum};
use clap_complete::Shell;
use std::ffi::OsString;
use std::path::PathBuf;

/// Checks, lines, writes afresh and counts motion scripts of shelf-edge strips.
///
/// A file named `-` is standard input. Exit status: 0 if all was accepted, 1 if something was refused, 2 for bad usage or a file that
/// cannot be read or written.
#[derive(Parser)]
#[command(name = "shelfstrip", version, disable_help_subcommand = true)]
pub struct Arguments {
    #[command(subcommand)]
    pub command: Command,
}

#[derive(Subcommand)]
pub enum Command {
    /// Read and check scripts, and show each refusal with its line
    Check(Scripts),
    /// Print what stripc prints: a line for each record and `accept N`, or `refuse R at P`
    Lines(OneScript),
    /// Write scripts afresh: tokens one blank apart, the fewest digits, no default
    Fmt(Fmt),
    /// Count scripts on the page of a morning
    Morning(Morning),
    /// Put triangle in the place of the retired waveform noise in a sheet
    Convert(Convert),
    /// Tell red, green, blue and alpha of a colour: a CSS name, or `#` and 3, 4, 6 or 8 hexadecimal digits
    Color(Color),
    /// List the items of a book, each behind all that it calls
    Order(Order),
    /// Print the body of a named script, from the store's book or else the chain's
    Lookup(Lookup),
    /// Put like bytes of a script's sheet together, for storage
    Plane(Plane),
    /// Turn planed bytes back into the sheet
    Unplane(Unplane),
    /// Draw one period of a waveform
    Wave(Wave),
    /// Print a completion script for a shell
    Completions(Completions),
}

/// A list of named colours.
#[derive(Clone, Copy, ValueEnum)]
pub enum Colors {
    /// The 22 names of the Rust
    Rust,
    /// The 148 names of CSS Color Module Level 4
    Css,
}

impl Colors {
    /// The list's number.
    pub fn list(self) -> u32 {
        match self {
            Colors::Rust => strip::RUST_COLORS,
            Colors::Css => strip::CSS_COLORS,
        }
    }

    /// Its name on the command line.
    pub fn name(self) -> &'static str {
        match self {
            Colors::Rust => "rust",
            Colors::Css => "css",
        }
    }
}

#[derive(Args)]
pub struct Scripts {
    /// The scripts
    #[arg(required = true, value_name = "FILE")]
    pub files: Vec<OsString>,
    /// The list of named colours
    #[arg(long, value_enum, default_value = "rust", value_name = "LIST")]
    pub colors: Colors,
}

impl Scripts {
    pub fn sources(&self) -> Vec<Source> {
        self.files.iter().map(|name| Source::of(name)).collect()
    }
}

#[derive(Args)]
pub struct OneScript {
    /// The script
    #[arg(value_name = "FILE")]
    pub file: OsString,
    /// The list of named colours
    #[arg(long, value_enum, default_value = "rust", value_name = "LIST")]
    pub colors: Colors,
}

#[derive(Args)]
pub struct Fmt {
    #[command(flatten)]
    pub scripts: Scripts,
    /// Name the files that are not as they would be written, and write nothing
    #[arg(long, conflicts_with = "write")]
    pub check: bool,
    /// Put the fresh scripts in the place of the files
    #[arg(long)]
    pub write: bool,
}

#[derive(Args)]
pub struct Morning {
    #[command(flatten)]
    pub scripts: Scripts,
    /// Write the page as one HTML file
    #[arg(long, value_name = "FILE", conflicts_with = "json")]
    pub html: Option<PathBuf>,
    /// Print the page as JSON
    #[arg(long)]
    pub json: bool,
}

#[derive(Args)]
pub struct Convert {
    /// The script
    #[arg(value_name = "SCRIPT")]
    pub script: OsString,
    /// The sheet, as bytes
    #[arg(value_name = "SHEET")]
    pub sheet: OsString,
    /// Where the bytes go, standard output if it is not given
    #[arg(long, value_name = "FILE")]
    pub output: Option<PathBuf>,
}

#[derive(Args)]
pub struct Color {
    /// The colour
    #[arg(value_name = "NAME")]
    pub name: OsString,
}

#[derive(Args)]
pub struct Order {
    /// The book: items `NAME = { NODES }`
    #[arg(value_name = "BOOK")]
    pub book: OsString,
}

#[derive(Args)]
pub struct Lookup {
    /// The item's name
    #[arg(value_name = "NAME")]
    pub name: OsString,
    /// The store's book
    #[arg(value_name = "STORE")]
    pub store: OsString,
    /// The chain's book; none if it is not given
    #[arg(value_name = "CHAIN")]
    pub chain: Option<OsString>,
}

#[derive(Args)]
pub struct Plane {
    /// The script
    #[arg(value_name = "SCRIPT")]
    pub script: OsString,
    /// Its sheet, as bytes; the one that reading gives if it is not given
    #[arg(value_name = "SHEET")]
    pub sheet: Option<OsString>,
    /// Where the bytes go, standard output if it is not given
    #[arg(long, value_name = "FILE")]
    pub output: Option<PathBuf>,
}

#[derive(Args)]
pub struct Unplane {
    /// The script
    #[arg(value_name = "SCRIPT")]
    pub script: OsString,
    /// The planed bytes
    #[arg(value_name = "PLANED")]
    pub planed: OsString,
    /// Where the bytes go, standard output if it is not given
    #[arg(long, value_name = "FILE")]
    pub output: Option<PathBuf>,
}

/// The kinds of a waveform, by their numbers.
#[derive(Clone, Copy, ValueEnum)]
pub enum Kind {
    Sine,
    Sawtooth,
    Square,
    Triangle,
    /// Retired; it is refused
    Noise,
}

#[derive(Args)]
pub struct Wave {
    /// The waveform
    #[arg(value_enum, value_name = "KIND")]
    pub kind: Kind,
    /// How many 256ths of the period it starts later
    #[arg(long, value_name = "N", default_value_t = 0)]
    pub phase: u32,
    /// Write it as an SVG file too
    #[arg(long, value_name = "FILE")]
    pub svg: Option<PathBuf>,
}

#[derive(Args)]
pub struct Completions {
    /// The shell
    #[arg(value_enum, value_name = "SHELL")]
    pub shell: Shell,
}
