//! The command `floo`, run as people run it: what it prints where, and its exit status. Expected texts are worked out by hand from the papers and from `--help`.

mod files;
mod forf;
mod mending;
mod options;
mod prompt;
mod room;
mod runs;
mod scans;
mod steps;

use std::io::Write;
use std::path::PathBuf;
use std::process::{Command, Stdio};

/// What a run of the command came to.
#[derive(Debug, PartialEq, Eq)]
struct Said {
    status: i32,
    output: String,
    errors: String,
}

impl Said {
    /// The first line on standard error.
    fn error(&self) -> &str {
        self.errors.lines().next().unwrap_or_default()
    }
}

/// Runs the command in a folder, with so many bytes on standard input.
fn floo_with(folder: &Folder, arguments: &[&str], input: &[u8]) -> Said {
    let mut child = Command::new(env!("CARGO_BIN_EXE_floo"))
        .args(arguments)
        .current_dir(&folder.0)
        .stdin(Stdio::piped())
        .stdout(Stdio::piped())
        .stderr(Stdio::piped())
        .spawn()
        .expect("the command starts");
    let mut standard_input = child.stdin.take().expect("standard input is piped");
    // one that only refuses may be gone before it reads
    let _ = standard_input.write_all(input);
    drop(standard_input);
    let output = child.wait_with_output().expect("the command ends");
    Said {
        status: output.status.code().expect("no signal ends it"),
        output: String::from_utf8(output.stdout).expect("these outputs are text"),
        errors: String::from_utf8(output.stderr).expect("messages are text"),
    }
}

fn floo(folder: &Folder, arguments: &[&str]) -> Said {
    floo_with(folder, arguments, b"")
}

/// Runs a script, with options before it.
fn script(text: &str, options: &[&str]) -> Said {
    let folder = Folder::new();
    folder.put("label.floo", text.as_bytes());
    floo(&folder, &[options, &["label.floo"]].concat())
}

/// A folder of a test's own, which goes with it.
struct Folder(PathBuf);

impl Folder {
    fn new() -> Self {
        use std::sync::atomic::{AtomicUsize, Ordering};
        static COUNT: AtomicUsize = AtomicUsize::new(0);
        let count = COUNT.fetch_add(1, Ordering::Relaxed);
        let name = format!("floo-{}-{count}", std::process::id());
        let path = PathBuf::from(env!("CARGO_TARGET_TMPDIR")).join(name);
        std::fs::create_dir_all(&path).expect("the folder is made");
        Folder(path)
    }

    fn put(&self, name: &str, bytes: &[u8]) {
        std::fs::write(self.0.join(name), bytes).expect("the file is written");
    }

    fn get(&self, name: &str) -> Vec<u8> {
        std::fs::read(self.0.join(name)).expect("the file is there")
    }

    /// The files in it, by name.
    fn names(&self) -> Vec<String> {
        let entries = std::fs::read_dir(&self.0).expect("the folder is there");
        let name = |entry: std::io::Result<std::fs::DirEntry>| entry.unwrap().file_name();
        let mut names: Vec<String> = entries
            .map(|entry| name(entry).into_string().unwrap())
            .collect();
        names.sort();
        names
    }
}

impl Drop for Folder {
    fn drop(&mut self) {
        let _ = std::fs::remove_dir_all(&self.0);
    }
}
