//! A folder of a test's own, and the program run in it.
use std::ffi::OsStr;
use std::fs;
use std::io::Write;
use std::os::unix::fs::MetadataExt;
use std::os::unix::process::CommandExt;
use std::path::{Path, PathBuf};
use std::process::{Command, Stdio};
use std::sync::atomic::{AtomicU32, Ordering};

static ROOMS: AtomicU32 = AtomicU32::new(0);

/// A folder that goes away with the test.
pub struct Room(PathBuf);

/// What the program gave.
#[derive(Debug)]
pub struct Ran {
    pub status: i32,
    pub bytes: Vec<u8>,
    pub out: String,
    pub err: String,
}

impl Room {
    pub fn new() -> Room {
        let number = ROOMS.fetch_add(1, Ordering::Relaxed);
        let path = std::env::temp_dir().join(format!("shelfstrip-{}-{number}", std::process::id()));
        fs::create_dir(&path).unwrap();
        Room(path)
    }

    pub fn path(&self, name: &str) -> PathBuf {
        self.0.join(name)
    }

    pub fn file(&self, name: &str, bytes: impl AsRef<[u8]>) -> &Room {
        fs::write(self.path(name), bytes).unwrap();
        self
    }

    pub fn bytes(&self, name: &str) -> Vec<u8> {
        fs::read(self.path(name)).unwrap()
    }

    /// The names of its files, sorted.
    pub fn names(&self) -> Vec<String> {
        let mut names: Vec<String> = fs::read_dir(&self.0).unwrap().map(|each| each.unwrap().file_name().into_string().unwrap()).collect();
        names.sort();
        names
    }

    pub fn command(&self) -> Command {
        let mut command = Command::new(env!("CARGO_BIN_EXE_shelfstrip"));
        command.current_dir(&self.0);
        command
    }

    /// Runs the program with arguments and nothing on standard input.
    pub fn run<A: AsRef<OsStr>>(&self, arguments: impl IntoIterator<Item = A>) -> Ran {
        self.feed(b"", arguments)
    }

    /// Runs the program with arguments and standard input.
    pub fn feed<A: AsRef<OsStr>>(&self, input: &[u8], arguments: impl IntoIterator<Item = A>) -> Ran {
        let mut command = self.command();
        command.args(arguments).stdin(Stdio::piped()).stdout(Stdio::piped()).stderr(Stdio::piped());
        let mut child = command.spawn().unwrap();
        // a program that does not read its input closes it
        child.stdin.take().unwrap().write_all(input).ok();
        let ran = child.wait_with_output().unwrap();
        Ran {
            status: ran.status.code().expect("an exit status"),
            out: String::from_utf8_lossy(&ran.stdout).into_owned(),
            bytes: ran.stdout,
            err: String::from_utf8(ran.stderr).unwrap(),
        }
    }
}

impl Drop for Room {
    fn drop(&mut self) {
        fs::remove_dir_all(&self.0).ok();
    }
}

/// The repository's examples/NAME.
pub fn example(name: &str) -> PathBuf {
    Path::new(env!("CARGO_MANIFEST_DIR")).join("../../examples").join(name)
}

pub const EXAMPLES: [&str; 6] = ["closing-clock", "fade-fresh", "fade-night", "fade-sale", "price-roll", "promo-slide"];

/// The user nobody.
const NOBODY: u32 = 65_534;

pub fn is_root() -> bool {
    fs::metadata("/proc/self").unwrap().uid() == 0
}

/// A command that permissions hold for: root's is run by nobody.
pub fn unprivileged(command: &mut Command) -> &mut Command {
    if is_root() { command.uid(NOBODY).gid(NOBODY) } else { command }
}
