//! `morning`: the desk's page, the totals of many scripts.
mod html;
mod json;
mod text;

use crate::arguments::{Colors, Morning};
use crate::diagnostic::{self, Place};
use crate::input::{self, Source};
use crate::status::Status;
use crate::{output, progress};
use strip::{Fraction, KINDS, Mean, Refusal, Refused, Totals, Workspace};

/// What a page tells.
pub struct Page {
    /// The list of named colours that was checked by.
    pub colors: &'static str,
    pub totals: Totals,
    /// The scripts that were refused, in the order of the arguments.
    pub refused: Vec<RefusedScript>,
    /// The files that the totals do not count, each with the reason.
    pub uncounted: Vec<Uncounted>,
    pub records_per_script: Option<Fraction>,
    pub entries_per_track: Option<Fraction>,
    /// Whether a file could not be read.
    unread: bool,
}

pub struct RefusedScript {
    pub name: String,
    pub refused: Refused,
    pub place: Option<Place>,
}

pub struct Uncounted {
    pub name: String,
    pub reason: String,
}

pub fn run(morning: &Morning) -> Result<Status, String> {
    let sources = morning.scripts.sources();
    input::once(&sources)?;
    let mut collected = Collected::default();
    let bar = progress::bar(sources.len());
    for source in &sources {
        collected.count(source, morning.scripts.colors.list());
        bar.inc(1);
    }
    bar.finish_and_clear();
    let page = collected.page(morning.scripts.colors)?;
    for each in &page.uncounted {
        output::tell(&format!("not counted: {}: {}", each.name, each.reason));
    }
    match &morning.html {
        Some(path) => output::put(path, html::page(&page).as_bytes())?,
        None if morning.json => output::print(json::page(&page).as_bytes())?,
        None => output::print(text::page(&page).as_bytes())?,
    }
    Ok(page.status())
}

/// What is gathered, script by script.
#[derive(Default)]
struct Collected {
    workspace: Workspace,
    totals: Totals,
    refused: Vec<RefusedScript>,
    uncounted: Vec<Uncounted>,
    unread: bool,
}

impl Collected {
    fn count(&mut self, source: &Source, list: u32) {
        let name = source.to_string();
        let text = match source.text() {
            Ok(text) => text,
            Err(message) => {
                let reason = message.strip_prefix(&format!("{name}: ")).unwrap_or(&message).to_string();
                self.unread = true;
                return self.uncounted.push(Uncounted { name, reason });
            }
        };
        match self.workspace.feed(&mut self.totals, &text, list) {
            Ok(Ok(())) => {}
            Ok(Err(refused)) => {
                let place = diagnostic::place(&mut self.workspace, &text, &refused);
                self.refused.push(RefusedScript { name, refused, place });
            }
            Err(full) => {
                let reason = format!("{} {}: {}", full.refusal.number(), full.refusal.name(), full.refusal);
                self.uncounted.push(Uncounted { name, reason });
            }
        }
    }

    fn page(self, colors: Colors) -> Result<Page, String> {
        let mean = |which| strip::mean(&self.totals, which).map_err(|refused| refused.to_string());
        let (records_per_script, entries_per_track) = (mean(Mean::RecordsPerScript)?, mean(Mean::EntriesPerTrack)?);
        Ok(Page {
            colors: colors.name(),
            totals: self.totals,
            refused: self.refused,
            uncounted: self.uncounted,
            records_per_script,
            entries_per_track,
            unread: self.unread,
        })
    }
}

impl Page {
    fn status(&self) -> Status {
        match (self.unread, self.refused.is_empty() && self.uncounted.is_empty()) {
            (true, _) => Status::Failed,
            (false, true) => Status::Accepted,
            (false, false) => Status::Refused,
        }
    }

    /// The refusals that there are, with how many scripts each refused.
    pub fn causes(&self) -> impl Iterator<Item = (Refusal, u32)> {
        Refusal::ALL.iter().map(|&refusal| (refusal, self.totals.refused(refusal))).filter(|&(_, scripts)| scripts > 0)
    }

    /// Each kind's keyword, with how many records the accepted scripts have of it.
    pub fn kinds(&self) -> impl Iterator<Item = (&'static str, u32)> {
        KINDS.iter().enumerate().map(|(kind, &keyword)| (keyword, self.totals.records(kind)))
    }
}
