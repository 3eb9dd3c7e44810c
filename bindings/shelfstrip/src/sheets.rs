//! `convert`, `plane` and `unplane`: sheets as bytes, with their scripts.
use crate::arguments::{Convert, Plane, Unplane};
use crate::input::{self, Source};
use crate::status::Status;
use crate::{diagnostic, output};
use std::ffi::OsStr;
use std::path::Path;
use strip::{Refused, SHEET_BYTES, Workspace};

pub fn convert(convert: &Convert) -> Result<Status, String> {
    let (script, text, mut sheet) = pair(&convert.script, &convert.sheet)?;
    let converted = strip::convert(&text, &mut sheet).map(|()| sheet);
    finish(&script, &text, converted, convert.output.as_deref())
}

pub fn plane(plane: &Plane) -> Result<Status, String> {
    if let Some(sheet) = &plane.sheet {
        let (script, text, sheet) = pair(&plane.script, sheet)?;
        let mut planed = vec![0; sheet.len()];
        let done = strip::plane(&text, &sheet, &mut planed).map(|length| planed[..length].to_vec());
        return finish(&script, &text, done, plane.output.as_deref());
    }
    let script = Source::of(&plane.script);
    let text = script.text()?;
    let planed = Workspace::new().read(&text).and_then(|sheet| sheet.plane());
    finish(&script, &text, planed, plane.output.as_deref())
}

pub fn unplane(unplane: &Unplane) -> Result<Status, String> {
    let (script, text, planed) = pair(&unplane.script, &unplane.planed)?;
    let mut sheet = vec![0; planed.len()];
    let done = strip::unplane(&text, &planed, &mut sheet).map(|length| sheet[..length].to_vec());
    finish(&script, &text, done, unplane.output.as_deref())
}

/// A script, its text, and the bytes that go with it.
fn pair(script: &OsStr, bytes: &OsStr) -> Result<(Source, Vec<u8>, Vec<u8>), String> {
    let (script, bytes) = (Source::of(script), Source::of(bytes));
    input::once([&script, &bytes])?;
    let text = script.text()?;
    Ok((script, text, bytes.bytes(SHEET_BYTES)?))
}

/// Writes the bytes, or shows the refusal.
fn finish(script: &Source, text: &[u8], done: Result<Vec<u8>, Refused>, output: Option<&Path>) -> Result<Status, String> {
    match done {
        Ok(bytes) => output::put_bytes(output, &bytes).map(|()| Status::Accepted),
        Err(refused) => {
            diagnostic::show(&script.to_string(), text, &refused, diagnostic::in_text(text, &refused));
            Ok(Status::Refused)
        }
    }
}
