//! Files and standard input, read up to a limit.
use std::ffi::OsStr;
use std::fmt;
use std::fs::File;
use std::io::{self, ErrorKind, Read};
use std::path::{Path, PathBuf};
use strip::TEXT_BYTES;

/// Where bytes are read from.
#[derive(Clone, Debug, PartialEq, Eq)]
pub enum Source {
    Standard,
    File(PathBuf),
}

impl Source {
    /// The source that a name on the command line means.
    pub fn of(name: &OsStr) -> Source {
        if name == "-" { Source::Standard } else { Source::File(PathBuf::from(name)) }
    }

    /// A script's or a book's bytes; of a long one no more than show that it is too long.
    pub fn text(&self) -> Result<Vec<u8>, String> {
        self.bytes(TEXT_BYTES)
    }

    /// Its bytes, of more than a limit one above the limit.
    pub fn bytes(&self, limit: usize) -> Result<Vec<u8>, String> {
        let mut bytes = Vec::new();
        let limit = limit as u64 + 1;
        let read = match self {
            Source::Standard => io::stdin().lock().take(limit).read_to_end(&mut bytes),
            Source::File(path) => File::open(path).and_then(|file| file.take(limit).read_to_end(&mut bytes)),
        };
        read.map_err(|error| format!("{self}: {}", reason(&error)))?;
        Ok(bytes)
    }
}

impl fmt::Display for Source {
    fn fmt(&self, f: &mut fmt::Formatter) -> fmt::Result {
        match self {
            Source::Standard => f.write_str("standard input"),
            Source::File(path) => f.write_str(&shown(path)),
        }
    }
}

/// Refuses standard input that is named twice: it can be read once.
pub fn once<'a>(sources: impl IntoIterator<Item = &'a Source>) -> Result<(), String> {
    match sources.into_iter().filter(|source| **source == Source::Standard).count() {
        0 | 1 => Ok(()),
        _ => Err("`-` is given twice, and standard input can be read once".to_string()),
    }
}

/// A path on one line, without control characters.
pub fn shown(path: &Path) -> String {
    path.to_string_lossy().chars().map(|each| if each.is_control() { char::REPLACEMENT_CHARACTER } else { each }).collect()
}

/// Why a file cannot be read or written, in plain words.
pub fn reason(error: &io::Error) -> String {
    match error.kind() {
        ErrorKind::NotFound => "there is no such file or folder".to_string(),
        ErrorKind::PermissionDenied => "no permission".to_string(),
        ErrorKind::IsADirectory => "this is a folder, not a file".to_string(),
        ErrorKind::NotADirectory => "a part of the path is not a folder".to_string(),
        ErrorKind::BrokenPipe => "closed before all was written".to_string(),
        ErrorKind::StorageFull => "the disk is full".to_string(),
        _ => error.to_string(),
    }
}
