//! Forf, the language of the shelf displays: a [`Display`] runs scripts one after another, and its memory of 32 integers is kept between them.
//!
//! ```
//! use floo::forf::Display;
//!
//! let mut display = Display::new();
//! let report = display.run(b"0 mget 1 + dup 0 mset", 100).unwrap();
//! assert_eq!(report.outcome(), "ending=finished\nerror=none\ncommand=\nat=21\nsteps=7\ndepth=1\nitem=integer:1\n");
//! display.run(b"0 mget 1 + 0 mset", 100).unwrap();
//! assert_eq!(display.memory[0], 2);
//! ```

use std::fmt;

use crate::exported::{forf_lent, forf_token_reply};

/// Slots of a display's memory.
pub const MEMORY_SLOTS: usize = 32;

/// Stack slots of a display.
pub const STACK_SLOTS: usize = 256;

/// Execution slots of a display.
pub const EXECUTION_SLOTS: usize = 128;

/// The room for runs, and the memory that they leave to each other.
pub struct Display {
    /// The 32 integers: what a run stores with `mset` stands here afterwards, after an error too.
    pub memory: [i32; MEMORY_SLOTS],
    stack: Vec<u32>,
    execution: Vec<u32>,
    outcome: Vec<u8>,
}

/// How a run ended.
#[derive(Clone, Copy, Debug, PartialEq, Eq)]
pub enum Ending {
    /// Every token was taken.
    Finished,
    /// A step failed.
    Error,
    /// The fuel was spent.
    Fuel,
}

/// Why a script was not run.
#[derive(Clone, Copy, Debug, PartialEq, Eq)]
pub enum Refusal {
    /// The script has over 32,768 bytes.
    ScriptTooLong,
    /// The fuel is over 1,000,000.
    TooMuchFuel,
}

impl fmt::Display for Refusal {
    fn fmt(&self, f: &mut fmt::Formatter) -> fmt::Result {
        f.write_str(match self {
            Refusal::ScriptTooLong => "the script has over 32,768 bytes",
            Refusal::TooMuchFuel => "the fuel is over 1,000,000",
        })
    }
}

impl std::error::Error for Refusal {}

/// What a run came to.
#[derive(Debug)]
pub struct Report<'d> {
    steps: u32,
    outcome: &'d str,
}

impl<'d> Report<'d> {
    /// How many steps were made.
    pub fn steps(&self) -> u32 {
        self.steps
    }

    /// The outcome's lines.
    pub fn outcome(&self) -> &'d str {
        self.outcome
    }

    /// How the run ended.
    pub fn ending(&self) -> Ending {
        match self.value("ending") {
            "finished" => Ending::Finished,
            "fuel" => Ending::Fuel,
            _ => Ending::Error,
        }
    }

    /// The error's name, if a step failed.
    pub fn error(&self) -> Option<&'d str> {
        Some(self.value("error")).filter(|&name| name != "none")
    }

    /// The word whose execution failed, escaped, or nothing.
    pub fn command(&self) -> &'d str {
        self.value("command")
    }

    /// The offset of the script token last taken.
    pub fn at(&self) -> usize {
        self.value("at").parse().unwrap_or(0)
    }

    /// The stack's items, the bottom first, as the outcome has them: `integer:58`, `substack:3`.
    pub fn items(&self) -> impl Iterator<Item = &'d str> {
        self.outcome
            .lines()
            .filter_map(|line| line.strip_prefix("item="))
    }

    fn value(&self, key: &str) -> &'d str {
        let line = self.outcome.lines().find_map(|line| {
            let (found, value) = line.split_once('=')?;
            (found == key).then_some(value)
        });
        line.unwrap_or_default()
    }
}

impl Default for Display {
    fn default() -> Self {
        Display::new()
    }
}

impl Display {
    /// A display with a memory of zeros.
    pub fn new() -> Display {
        Display {
            memory: [0; MEMORY_SLOTS],
            stack: vec![0; 2 * STACK_SLOTS],
            execution: vec![0; 8 * EXECUTION_SLOTS],
            outcome: vec![0; 256 + 136 * STACK_SLOTS],
        }
    }

    /// Runs a script, at most so many steps of it.
    pub fn run(&mut self, script: &[u8], fuel: u32) -> Result<Report<'_>, Refusal> {
        let mut memory = self.memory.map(unsigned);
        let reply = forf_lent(
            script,
            fuel,
            &mut self.stack,
            &mut self.execution,
            &mut memory,
            &mut self.outcome,
        );
        match reply.refused {
            0 => {}
            1 => return Err(Refusal::ScriptTooLong),
            _ => return Err(Refusal::TooMuchFuel),
        }
        self.memory = memory.map(signed);
        let outcome = std::str::from_utf8(&self.outcome[..reply.outcome]).unwrap_or_default();
        Ok(Report {
            steps: reply.steps,
            outcome,
        })
    }
}

fn unsigned(n: i32) -> u32 {
    u32::from_ne_bytes(n.to_ne_bytes())
}

fn signed(w: u32) -> i32 {
    i32::from_ne_bytes(w.to_ne_bytes())
}

/// The kinds of tokens.
#[derive(Clone, Copy, Debug, PartialEq, Eq)]
pub enum Kind {
    /// 58, -0x3A, 072
    Integer,
    /// Any other run of bytes that are not space, brace or parenthesis.
    Word,
    /// {
    OpenBrace,
    /// }
    CloseBrace,
    /// The script's end.
    End,
}

/// A token of a script: its kind, its own bytes, a part of the script, and the offset after it.
#[derive(Clone, Copy, Debug, PartialEq, Eq)]
pub struct Token<'s> {
    /// What it is.
    pub kind: Kind,
    /// Its own bytes.
    pub part: &'s [u8],
    /// The offset after it.
    pub next: usize,
}

/// Why there is no token.
#[derive(Clone, Copy, Debug, PartialEq, Eq)]
pub enum TokenError {
    /// The script has over 32,768 bytes.
    ScriptTooLong,
    /// The offset is past the script's end.
    PastEnd,
    /// The bytes are no token.
    Syntax,
}

/// The next token of a script from an offset on.
///
/// ```
/// use floo::forf::{token, Kind};
///
/// let found = token(b"(a shelf) -0x1F{", 0).unwrap();
/// assert_eq!((found.kind, found.part, found.next), (Kind::Integer, &b"-0x1F"[..], 15));
/// ```
pub fn token(script: &[u8], offset: usize) -> Result<Token<'_>, TokenError> {
    let reply = forf_token_reply(script, offset);
    let kind = match (reply.refused, reply.fault, reply.kind) {
        (1, _, _) => return Err(TokenError::ScriptTooLong),
        (10, _, _) => return Err(TokenError::PastEnd),
        (_, 1, _) => return Err(TokenError::Syntax),
        (_, _, 1) => Kind::Integer,
        (_, _, 2) => Kind::Word,
        (_, _, 3) => Kind::OpenBrace,
        (_, _, 4) => Kind::CloseBrace,
        _ => Kind::End,
    };
    Ok(Token {
        kind,
        part: &script[reply.start..reply.start + reply.size],
        next: reply.next,
    })
}
