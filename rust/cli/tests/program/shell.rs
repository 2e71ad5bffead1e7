//! Runs the program as a person does, in the repository's root.

use std::io::Write;
use std::path::{Path, PathBuf};
use std::process::{Command, Stdio};
use std::sync::atomic::{AtomicUsize, Ordering};

pub const PROGRAM: &str = env!("CARGO_BIN_EXE_jestrunas");

/// What a run shows: the exit status, standard output, standard error.
#[derive(Debug, PartialEq, Eq)]
pub struct Shown {
    pub status: i32,
    pub out: String,
    pub err: String,
}

pub fn root() -> PathBuf {
    Path::new(env!("CARGO_MANIFEST_DIR")).join("../..")
}

/// A line for the shell, which finds the program by its name.
pub fn shell(line: &str) -> Shown {
    shell_with(line, b"")
}

/// The same, with bytes on standard input.
pub fn shell_with(line: &str, input: &[u8]) -> Shown {
    let folder = Path::new(PROGRAM).parent().unwrap();
    let path = format!("{}:{}", folder.display(), std::env::var("PATH").unwrap());
    let mut child = Command::new("bash")
        .args(["-o", "pipefail", "-c", line])
        .current_dir(root())
        .env("PATH", path)
        .stdin(Stdio::piped())
        .stdout(Stdio::piped())
        .stderr(Stdio::piped())
        .spawn()
        .expect("bash starts");
    // a program need not read its input
    let _ = child.stdin.take().unwrap().write_all(input);
    let done = child.wait_with_output().expect("the shell ends");
    Shown {
        status: done.status.code().expect("an exit status"),
        out: String::from_utf8_lossy(&done.stdout).into_owned(),
        err: String::from_utf8_lossy(&done.stderr).into_owned(),
    }
}

/// What is to be seen: the exit status, standard output, standard error.
pub fn shown(status: i32, out: &str, err: &str) -> Shown {
    Shown { status, out: out.to_owned(), err: err.to_owned() }
}

/// Prints this and nothing else.
pub fn prints(line: &str, out: &str) {
    assert_eq!(shell(line), shown(0, out, ""), "{line}");
}

/// Prints nothing, tells this, and ends with this status.
pub fn tells(line: &str, status: i32, err: &str) {
    assert_eq!(shell(line), shown(status, "", &format!("{err}\n")), "{line}");
}

/// Refuses an input, and tells this.
pub fn refuses(line: &str, err: &str) {
    tells(line, 1, err);
}

/// Tells that a command was misused, and where help is.
pub fn misuses(command: &str, line: &str, words: &str) {
    tells(&format!("jestrunas {command} {line}"), 2, &format!("jestrunas {command}: {words}; see 'jestrunas {command} --help'"));
}

pub const NO_FILE: &str = "No such file or directory (os error 2)";

/// An empty folder, for files of one test.
pub struct Folder(PathBuf);

impl Folder {
    pub fn new() -> Folder {
        static COUNT: AtomicUsize = AtomicUsize::new(0);
        let name = format!("jestrunas-{}-{}", std::process::id(), COUNT.fetch_add(1, Ordering::Relaxed));
        let folder = std::env::temp_dir().join(name);
        std::fs::create_dir(&folder).expect("a folder of its own");
        Folder(folder)
    }

    /// The path of a file in it.
    pub fn of(&self, name: &str) -> String {
        self.0.join(name).to_str().expect("UTF-8").to_owned()
    }

    pub fn write(&self, name: &str, bytes: &[u8]) -> String {
        std::fs::write(self.0.join(name), bytes).unwrap();
        self.of(name)
    }

    /// The names of the files in it, in order.
    pub fn names(&self) -> Vec<String> {
        let entries = std::fs::read_dir(&self.0).unwrap();
        let mut names: Vec<String> = entries.map(|entry| entry.unwrap().file_name().into_string().unwrap()).collect();
        names.sort();
        names
    }
}

impl Drop for Folder {
    fn drop(&mut self) {
        let _ = std::fs::remove_dir_all(&self.0);
    }
}
