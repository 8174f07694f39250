//! A book of sockets kept in a file, as a ledger.

use std::ffi::OsStr;
use std::fs::{self, File, OpenOptions};
use std::io::{self, Read, Write};
use std::path::PathBuf;
use std::process;

use floo::floor::{Book, LedgerError};

use crate::message::Message;

/// Bytes of a file that is read as a ledger. A written one has under 6,000; needless quotes and zeros make it no longer than this.
const MOST: u64 = 1 << 20;

pub struct BookFile {
    path: PathBuf,
    pub book: Book,
}

impl BookFile {
    /// The book in a file, or one without records for a file that is not there yet.
    pub fn open(path: &OsStr, new: bool) -> Result<Self, Message> {
        let said = |what: String| Message::at(path.to_string_lossy(), what);
        let mut file = BookFile {
            path: path.into(),
            book: Book::new(),
        };
        if new {
            let begun = OpenOptions::new().write(true).create_new(true).open(path);
            begun.map_err(|error| said(error.to_string()))?;
            file.save()?;
            return Ok(file);
        }
        let mut text = vec![];
        let read = File::open(path).and_then(|opened| opened.take(MOST + 1).read_to_end(&mut text));
        match read {
            Ok(_) if text.len() as u64 > MOST => return Err(said(format!("over {MOST} bytes"))),
            Ok(_) => {}
            Err(error) if error.kind() == io::ErrorKind::NotFound => {
                return Err(said(error.to_string()).note("--new begins a book"));
            }
            Err(error) => return Err(said(error.to_string())),
        }
        file.book.read_ledger(&text).map_err(|refusal| {
            let message = said(format!("not a ledger: {refusal}"));
            match refusal {
                LedgerError::BadHeader => message
                    .note("its first line is socket,place,time, and each line ends with CR LF"),
                _ => message,
            }
        })?;
        Ok(file)
    }

    /// Writes the book beside its file and puts it in the file's place, so that a cut leaves the old one or the new one.
    pub fn save(&self) -> Result<(), Message> {
        let said = |what: String| Message::at(self.path.to_string_lossy(), what);
        let ledger = self
            .book
            .to_ledger()
            .map_err(|refusal| said(refusal.to_string()))?;
        self.replace(&ledger)
            .map_err(|error| said(format!("not written: {error}")))
    }

    fn replace(&self, ledger: &[u8]) -> io::Result<()> {
        let path = fs::canonicalize(&self.path)?;
        let mut beside = path.clone().into_os_string();
        beside.push(format!(".{}.part", process::id()));
        let beside = PathBuf::from(beside);
        let mut part = OpenOptions::new()
            .write(true)
            .create_new(true)
            .open(&beside)?;
        let written = part
            .write_all(ledger)
            .and_then(|()| part.set_permissions(fs::metadata(&path)?.permissions()))
            .and_then(|()| part.sync_all())
            .and_then(|()| fs::rename(&beside, &path));
        if written.is_err() {
            let _ = fs::remove_file(&beside);
        }
        written
    }
}
