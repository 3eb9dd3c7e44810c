//! Runs the built program: every subcommand, every exit status, files that cannot be read, and many files.
mod books;
mod check;
mod files;
mod fmt;
mod lines;
mod many;
mod morning;
mod room;
mod sheets;
mod usage;
mod wave;
