//! The program `shelfstrip`: motion scripts of shelf-edge strips in files, on terminals and on a page for a browser. All that is said of a
//! script is said by the crate `strip`.
mod arguments;
mod books;
mod check;
mod color;
mod diagnostic;
mod fmt;
mod input;
mod lines;
mod morning;
mod output;
mod progress;
mod sheets;
mod status;
mod wave;

use arguments::{Arguments, Command, Completions};
use clap::{CommandFactory, Parser};
use status::Status;
use std::process::ExitCode;

fn main() -> ExitCode {
    let arguments = match Arguments::try_parse() {
        Ok(arguments) => arguments,
        Err(error) => return usage(&error),
    };
    let status = run(&arguments.command).unwrap_or_else(|message| {
        output::tell(&message);
        Status::Failed
    });
    status.into()
}

/// Prints help or what is wrong with the arguments.
fn usage(error: &clap::Error) -> ExitCode {
    let status = if error.use_stderr() { Status::Failed } else { Status::Accepted };
    match error.print() {
        Ok(()) => status.into(),
        Err(error) => {
            output::tell(&format!("standard output: {}", input::reason(&error)));
            Status::Failed.into()
        }
    }
}

fn run(command: &Command) -> Result<Status, String> {
    match command {
        Command::Check(scripts) => check::run(scripts),
        Command::Lines(script) => lines::run(script),
        Command::Fmt(fmt) => fmt::run(fmt),
        Command::Morning(morning) => morning::run(morning),
        Command::Convert(convert) => sheets::convert(convert),
        Command::Color(color) => color::run(color),
        Command::Order(order) => books::order(order),
        Command::Lookup(lookup) => books::lookup(lookup),
        Command::Plane(plane) => sheets::plane(plane),
        Command::Unplane(unplane) => sheets::unplane(unplane),
        Command::Wave(wave) => wave::run(wave),
        Command::Completions(completions) => complete(completions),
    }
}

fn complete(completions: &Completions) -> Result<Status, String> {
    let mut script = Vec::new();
    clap_complete::generate(completions.shell, &mut Arguments::command(), "shelfstrip", &mut script);
    output::print(&script)?;
    Ok(Status::Accepted)
}
