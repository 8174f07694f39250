//! Standard output and standard error. Colours are for terminals alone.

use std::env;
use std::io::{self, IsTerminal, Write};

use crate::message::Message;

/// The codes of ECMA-48 for what a message shows.
pub struct Paint {
    on: bool,
}

impl Paint {
    pub fn strong(&self, text: &str) -> String {
        self.with("1", text)
    }

    pub fn bad(&self, text: &str) -> String {
        self.with("1;31", text)
    }

    pub fn quiet(&self, text: &str) -> String {
        self.with("2", text)
    }

    fn with(&self, code: &str, text: &str) -> String {
        if self.on {
            format!("\x1b[{code}m{text}\x1b[0m")
        } else {
            text.to_owned()
        }
    }
}

pub struct Screen {
    errors: Paint,
    output: Paint,
    /// Whether a line on the terminal is begun, and not ended.
    midline: bool,
}

impl Screen {
    pub fn new() -> Self {
        let plain = env::var_os("NO_COLOR").is_some_and(|value| !value.is_empty());
        let paint = |terminal: bool| Paint {
            on: terminal && !plain,
        };
        Screen {
            errors: paint(io::stderr().is_terminal()),
            output: paint(io::stdout().is_terminal()),
            midline: false,
        }
    }

    /// To standard output, at once: what follows on standard error stands after it.
    pub fn print(&mut self, bytes: &[u8]) -> io::Result<()> {
        let mut output = io::stdout().lock();
        if let Some(last) = bytes.last() {
            self.midline = *last != b'\n' && output.is_terminal();
        }
        output.write_all(bytes)?;
        output.flush()
    }

    /// What was typed has ended the line.
    pub fn typed(&mut self) {
        self.midline = false;
    }

    /// A line beside the script's own output.
    pub fn print_quiet(&mut self, line: &str) -> io::Result<()> {
        let line = self.output.quiet(line);
        self.print(format!("{line}\n").as_bytes())
    }

    /// To standard error, on a line of its own. If that is closed there is no one to tell.
    pub fn say(&mut self, message: &Message) {
        let mut text = message.text(&self.errors);
        if self.midline {
            text.insert(0, '\n');
            self.midline = false;
        }
        let _ = io::stderr().write_all(text.as_bytes());
    }
}
