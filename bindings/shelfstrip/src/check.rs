//! `check`: reads and checks scripts, and shows what is refused.
use crate::arguments::Scripts;
use crate::input::{self, Source};
use crate::status::Status;
use crate::{diagnostic, output, progress};
use indicatif::ProgressBar;
use strip::Workspace;

pub fn run(scripts: &Scripts) -> Result<Status, String> {
    let sources = scripts.sources();
    input::once(&sources)?;
    let (mut workspace, mut worst) = (Workspace::new(), Status::Accepted);
    let bar = progress::bar(sources.len());
    for source in &sources {
        worst = worst.max(one(&mut workspace, source, scripts.colors.list(), &bar));
        bar.inc(1);
    }
    bar.finish_and_clear();
    Ok(worst)
}

/// Checks a script, and shows its refusal or why it cannot be read.
fn one(workspace: &mut Workspace, source: &Source, list: u32, bar: &ProgressBar) -> Status {
    let text = match source.text() {
        Ok(text) => text,
        Err(message) => {
            bar.suspend(|| output::tell(&message));
            return Status::Failed;
        }
    };
    let Err(refused) = workspace.compile(&text, list) else {
        return Status::Accepted;
    };
    let place = diagnostic::place(workspace, &text, &refused);
    bar.suspend(|| diagnostic::show(&source.to_string(), &text, &refused, place));
    Status::Refused
}
