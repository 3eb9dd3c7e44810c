//! Standard output, and files that are put in place whole.
use crate::input::{reason, shown};
use std::fs::{self, File, Metadata, OpenOptions};
use std::io::{self, IsTerminal, Write};
use std::os::unix::fs::{MetadataExt, fchown};
use std::path::Path;

/// Writes to standard output.
pub fn print(bytes: &[u8]) -> Result<(), String> {
    let mut output = io::stdout().lock();
    output.write_all(bytes).and_then(|()| output.flush()).map_err(|error| format!("standard output: {}", reason(&error)))
}

/// Tells something on standard error. Where nobody can read it, nothing is told.
pub fn tell(message: &str) {
    writeln!(io::stderr().lock(), "shelfstrip: {message}").ok();
}

/// Writes bytes that are no text to a file, or to standard output unless that is a terminal.
pub fn put_bytes(output: Option<&Path>, bytes: &[u8]) -> Result<(), String> {
    match output {
        None if io::stdout().is_terminal() => {
            Err("the bytes are no text for a terminal: name a file with --output, or use a pipe".to_string())
        }
        None => print(bytes),
        Some(path) => put(path, bytes),
    }
}

/// Writes to a file, or to standard output if it is named `-`.
pub fn put(path: &Path, bytes: &[u8]) -> Result<(), String> {
    if path == Path::new("-") {
        return print(bytes);
    }
    replace(path, bytes).map_err(|error| format!("{}: {}; nothing is written", shown(path), reason(&error)))
}

/// Puts a file in place: a temporary file beside it gets the bytes and is renamed. A link stays, and what it names is replaced.
fn replace(path: &Path, bytes: &[u8]) -> io::Result<()> {
    let place = fs::canonicalize(path).unwrap_or_else(|_| path.to_path_buf());
    let former = match fs::metadata(&place) {
        Ok(former) => Some(former),
        Err(error) if error.kind() == io::ErrorKind::NotFound => None,
        Err(error) => return Err(error),
    };
    match &former {
        Some(former) if former.is_dir() => return Err(io::ErrorKind::IsADirectory.into()),
        // a device or a pipe is written to
        Some(former) if !former.is_file() => return File::options().write(true).open(&place)?.write_all(bytes),
        Some(former) if former.permissions().readonly() => return Err(io::ErrorKind::PermissionDenied.into()),
        _ => {}
    }
    let temporary = place.with_file_name(format!(".shelfstrip-{}.tmp", std::process::id()));
    let written = fill(&temporary, bytes, former.as_ref()).and_then(|()| fs::rename(&temporary, &place));
    // a temporary file that was there before is not this program's
    if written.as_ref().is_err_and(|error| error.kind() != io::ErrorKind::AlreadyExists) {
        fs::remove_file(&temporary).ok();
    }
    written
}

/// Makes a new file with the bytes, with owner and permissions of the former one.
fn fill(temporary: &Path, bytes: &[u8], former: Option<&Metadata>) -> io::Result<()> {
    let mut file = OpenOptions::new().write(true).create_new(true).open(temporary)?;
    if let Some(former) = former {
        let own = file.metadata()?;
        if (own.uid(), own.gid()) != (former.uid(), former.gid()) {
            fchown(&file, Some(former.uid()), Some(former.gid()))?;
        }
        file.set_permissions(former.permissions())?;
    }
    file.write_all(bytes)?;
    file.sync_all()
}
