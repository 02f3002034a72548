//! A person at a terminal: a folder of their own, files in it, and the command run there.

// Each test file uses the part that it needs.
#![allow(dead_code)]

use std::collections::BTreeMap;
use std::fs;
use std::io::Write;
use std::os::unix::fs::PermissionsExt;
use std::path::PathBuf;
use std::process::{Command, Output, Stdio};
use std::sync::atomic::{AtomicUsize, Ordering};
use std::time::{SystemTime, UNIX_EPOCH};

pub const COTELARK: &str = env!("CARGO_BIN_EXE_cotelark");

/// A folder that is there as long as the test runs.
pub struct Folder(PathBuf);

/// How the command ended, and what it printed.
#[derive(Debug, PartialEq)]
pub struct Ended {
    pub status: Option<i32>,
    pub out: String,
    pub err: String,
}

static FOLDERS: AtomicUsize = AtomicUsize::new(0);

impl Folder {
    pub fn new() -> Folder {
        let number = FOLDERS.fetch_add(1, Ordering::Relaxed);
        let now = SystemTime::now().duration_since(UNIX_EPOCH).map_or(0, |since| since.as_nanos());
        let folder = std::env::temp_dir().join(format!("cotelark-{now}-{}-{number}", std::process::id()));
        fs::create_dir(&folder).expect("a folder for the test");
        Folder(folder)
    }

    /// A folder with the backup `i`, `m` of the table `t`, which is these bytes.
    pub fn with_backup(table: &[u8], page: &str, n: &str) -> Folder {
        let folder = Folder::new();
        folder.write("t", table);
        let made = folder.run(&["init", "t", "i", "m", "--page", page, "--n", n]);
        assert_eq!((made.status, made.err.as_str()), (Some(0), ""));
        folder
    }

    pub fn path(&self, name: &str) -> PathBuf {
        self.0.join(name)
    }

    pub fn write(&self, name: &str, bytes: impl AsRef<[u8]>) {
        fs::write(self.path(name), bytes).expect("a file of the test's");
    }

    pub fn read(&self, name: &str) -> Vec<u8> {
        fs::read(self.path(name)).expect("a file that is there")
    }

    /// Writes bytes into a file, from this offset on.
    pub fn patch(&self, name: &str, offset: usize, bytes: &[u8]) {
        let mut contents = self.read(name);
        contents[offset..offset + bytes.len()].copy_from_slice(bytes);
        self.write(name, contents);
    }

    /// Says who may use a file, and who may.
    pub fn allow(&self, name: &str, mode: u32) {
        fs::set_permissions(self.path(name), fs::Permissions::from_mode(mode)).expect("a file of the test's");
    }

    pub fn allowed(&self, name: &str) -> u32 {
        fs::metadata(self.path(name)).expect("a file that is there").permissions().mode() & 0o777
    }

    /// Every file of the folder.
    pub fn files(&self) -> BTreeMap<String, Vec<u8>> {
        let entries = fs::read_dir(&self.0).expect("the folder").map(|entry| entry.expect("an entry of it"));
        let files = entries.filter(|entry| entry.file_type().is_ok_and(|kind| kind.is_file()));
        files.map(|entry| (entry.file_name().to_string_lossy().into_owned(), fs::read(entry.path()).expect("a file of it"))).collect()
    }

    /// Runs the command.
    pub fn run(&self, words: &[&str]) -> Ended {
        Ended::of(self.command(COTELARK, words).output().expect("it starts"))
    }

    /// Runs the command, which must change no file.
    pub fn run_unchanged(&self, words: &[&str]) -> Ended {
        let before = self.files();
        let ended = self.run(words);
        assert!(self.files() == before, "cotelark {} changed a file: {ended:?}", words.join(" "));
        ended
    }

    /// Runs the command with this on its standard input; what it writes need not be text.
    pub fn pipe(&self, words: &[&str], input: &[u8]) -> Output {
        let mut command = self.command(COTELARK, words);
        let mut child = command.stdin(Stdio::piped()).stdout(Stdio::piped()).stderr(Stdio::piped()).spawn().expect("it starts");
        child.stdin.take().expect("a pipe").write_all(input).expect("it reads all");
        child.wait_with_output().expect("it ends")
    }

    /// Has a shell run this, in which `cotelark` is the command.
    pub fn shell(&self, script: &str) -> Ended {
        let bin = PathBuf::from(COTELARK).parent().expect("a folder").display().to_string();
        let path = format!("{bin}:{}", std::env::var("PATH").unwrap_or_default());
        Ended::of(self.command("sh", &["-c", script]).env("PATH", path).output().expect("it starts"))
    }

    fn command(&self, program: &str, words: &[&str]) -> Command {
        let mut command = Command::new(program);
        command.args(words).current_dir(&self.0).env_remove("NO_COLOR").env("TERM", "xterm");
        command
    }
}

impl Drop for Folder {
    fn drop(&mut self) {
        let _ = fs::remove_dir_all(&self.0);
    }
}

impl Ended {
    fn of(output: Output) -> Ended {
        let text = |bytes| String::from_utf8(bytes).expect("text");
        Ended { status: output.status.code(), out: text(output.stdout), err: text(output.stderr) }
    }
}

/// Done, with this output and nothing against it.
pub fn done(out: &str) -> Ended {
    Ended { status: Some(0), out: out.to_string(), err: String::new() }
}

/// Not done: only one line, on standard error.
pub fn failed(status: i32, err: &str) -> Ended {
    Ended { status: Some(status), out: String::new(), err: err.to_string() }
}

/// The scope's case 12: a bucket of two pages of 4 bytes, the last one short, and its map with n = 2.
pub const BUCKET: [u8; 6] = [1, 0, 2, 0, 3, 0];
pub const MAP: [u8; 32] = [1, 1, 0, 2, 2, 4, 0, 4, 0, 0, 0, 3, 4, 0, 6, 0, 0, 0, 4, 4, 0, 5, 0, 9, 0, 4, 4, 0, 3, 0, 3, 0];
