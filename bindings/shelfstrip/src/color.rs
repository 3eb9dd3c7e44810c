//! `color`: the bytes of a colour.
use crate::arguments::Color;
use crate::input::shown;
use crate::status::Status;
use crate::{diagnostic, output};
use std::os::unix::ffi::OsStrExt;
use std::path::Path;

pub fn run(color: &Color) -> Result<Status, String> {
    match strip::color(color.name.as_bytes()) {
        Ok([red, green, blue, alpha]) => {
            let line = format!("#{red:02X}{green:02X}{blue:02X}{alpha:02X} red {red} green {green} blue {blue} alpha {alpha}\n");
            output::print(line.as_bytes())?;
            Ok(Status::Accepted)
        }
        Err(refused) => {
            diagnostic::show(&shown(Path::new(&color.name)), b"", &refused, None);
            Ok(Status::Refused)
        }
    }
}
