//! `lines`: what stripc prints.
use crate::arguments::OneScript;
use crate::input::Source;
use crate::output;
use crate::status::Status;
use strip::Workspace;

pub fn run(script: &OneScript) -> Result<Status, String> {
    let text = Source::of(&script.file).text()?;
    let mut workspace = Workspace::new();
    let page = workspace.print(&text, script.colors.list()).map_err(|refused| refused.to_string())?;
    output::print(page.as_bytes())?;
    let refused = page.lines().next_back().is_some_and(|line| line.starts_with("refuse"));
    Ok(if refused { Status::Refused } else { Status::Accepted })
}
