//! A progress bar over many files, on standard error and only on a terminal.
use indicatif::{ProgressBar, ProgressDrawTarget, ProgressStyle};

/// With fewer files there is no bar.
const MANY: usize = 100;

/// A bar for so many files; hidden if they are few or standard error is no terminal.
pub fn bar(files: usize) -> ProgressBar {
    let target = if files < MANY { ProgressDrawTarget::hidden() } else { ProgressDrawTarget::stderr() };
    let style = ProgressStyle::with_template("[{bar:40}] {pos} of {len} files").expect("a template").progress_chars("=> ");
    ProgressBar::with_draw_target(Some(files as u64), target).with_style(style)
}
