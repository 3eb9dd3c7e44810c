//! `fmt`: the fresh script, printed, compared or put in place.
use crate::arguments::Fmt;
use crate::input::{self, Source};
use crate::status::Status;
use crate::{diagnostic, output, progress};
use indicatif::ProgressBar;
use strip::{TEXT_BYTES, Workspace};

pub fn run(fmt: &Fmt) -> Result<Status, String> {
    let sources = fmt.scripts.sources();
    input::once(&sources)?;
    if fmt.write && sources.contains(&Source::Standard) {
        return Err("--write puts scripts in the place of files, and `-` is none".to_string());
    }
    let (mut workspace, mut worst) = (Workspace::new(), Status::Accepted);
    let bar = progress::bar(sources.len());
    for source in &sources {
        worst = worst.max(one(&mut workspace, source, fmt, &bar)?);
        bar.inc(1);
    }
    bar.finish_and_clear();
    Ok(worst)
}

/// Does what is asked with a script. An error ends all: standard output takes no more.
fn one(workspace: &mut Workspace, source: &Source, fmt: &Fmt, bar: &ProgressBar) -> Result<Status, String> {
    let text = match source.text() {
        Ok(text) => text,
        Err(message) => return Ok(failed(bar, &message)),
    };
    let list = fmt.scripts.colors.list();
    let fresh = match workspace.read(&text).and_then(|sheet| sheet.write(list)) {
        Ok(script) => ended(script),
        Err(refused) => {
            let place = diagnostic::place(workspace, &text, &refused);
            bar.suspend(|| diagnostic::show(&source.to_string(), &text, &refused, place));
            return Ok(Status::Refused);
        }
    };
    let same = fresh.as_bytes() == text;
    match source {
        _ if (fmt.check || fmt.write) && same => Ok(Status::Accepted),
        _ if fmt.check => bar.suspend(|| output::print(format!("{source}\n").as_bytes())).map(|()| Status::Refused),
        Source::File(path) if fmt.write => {
            let put = output::put(path, fresh.as_bytes()).map(|()| Status::Accepted);
            Ok(put.unwrap_or_else(|message| failed(bar, &message)))
        }
        _ => bar.suspend(|| output::print(fresh.as_bytes())).map(|()| Status::Accepted),
    }
}

/// Tells of a file that cannot be read or written.
fn failed(bar: &ProgressBar, message: &str) -> Status {
    bar.suspend(|| output::tell(message));
    Status::Failed
}

/// A script with a line feed behind it, unless that makes it too long.
fn ended(mut script: String) -> String {
    if script.len() < TEXT_BYTES {
        script.push('\n');
    }
    script
}
