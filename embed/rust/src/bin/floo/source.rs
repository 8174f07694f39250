//! A script with the name of its file.

use std::ffi::OsStr;
use std::fs::File;
use std::io::{self, Read};

use floo::{position, Position};

use crate::excerpt;
use crate::message::Message;
use crate::options::STANDARD_INPUT;

pub struct Source {
    pub name: String,
    pub bytes: Vec<u8>,
    /// Lines at the beginning that the writer did not write.
    pub hidden_lines: usize,
}

impl Source {
    /// The script in a file, or on standard input. One byte over the limit is enough to be refused by.
    pub fn read(path: &OsStr) -> Result<Self, Message> {
        let standard = path == STANDARD_INPUT;
        let name = match standard {
            true => "<standard input>".to_owned(),
            false => path.to_string_lossy().into_owned(),
        };
        let input: io::Result<Box<dyn Read>> = match standard {
            true => Ok(Box::new(io::stdin())),
            false => File::open(path).map(|file| Box::new(file) as Box<dyn Read>),
        };
        let mut bytes = vec![];
        let enough = floo::SCRIPT_BYTES_MAX as u64 + 1;
        match input.and_then(|input| input.take(enough).read_to_end(&mut bytes)) {
            Ok(_) => Ok(Source {
                name,
                bytes,
                hidden_lines: 0,
            }),
            Err(error) => Err(Message::at(
                name,
                excerpt::printable(error.to_string().as_bytes()),
            )),
        }
    }

    /// The first offset from this one on that is neither space nor comment.
    pub fn skip_blank(&self, offset: usize) -> usize {
        let bytes = &self.bytes[offset..];
        let mut comment = false;
        let token = bytes.iter().position(|byte| {
            comment = *byte == b'#' || comment && !matches!(byte, b'\n' | b'\r');
            !comment && !matches!(byte, b' ' | b'\t' | b'\n' | b'\r')
        });
        offset + token.unwrap_or(bytes.len())
    }

    /// The line and the column of an offset, as the writer counts them.
    pub fn position(&self, offset: usize) -> Position {
        let mut found = position(&self.bytes, offset.min(self.bytes.len()))
            .expect("an offset up to the length has a place");
        found.line = found.line.saturating_sub(self.hidden_lines).max(1);
        found
    }

    /// `14:9`.
    pub fn line_and_column(&self, offset: usize) -> String {
        let Position { line, column } = self.position(offset);
        format!("{line}:{column}")
    }

    /// What is said of a place in the script.
    pub fn message(&self, offset: usize, what: impl Into<String>) -> Message {
        let place = format!("{}:{}", self.name, self.line_and_column(offset));
        let line = self.position(offset).line;
        Message::at(place, what).excerpt(excerpt::excerpt(&self.bytes, offset, line))
    }
}
