//! What the command line asks for.

use std::ffi::OsString;
use std::io::{self, IsTerminal};
use std::ops::RangeInclusive;

use floo::Sizes;

/// What a run is lent.
#[derive(Clone, Copy)]
pub struct Room {
    pub fuel: u32,
    pub sizes: Sizes,
}

pub struct Options {
    pub room: Room,
    pub task: Task,
}

pub enum Task {
    Help,
    Version,
    Prompt,
    Script(What, OsString),
    Scan(Scan),
    /// A Forf script.
    Forf(OsString),
}

/// What is done with a script.
pub enum What {
    Run { outcome: bool },
    Tokens,
    Steps(RangeInclusive<u32>),
    Room,
}

pub struct Scan {
    pub script: OsString,
    pub book: OsString,
    /// Whether the book is begun: then its file must not be there.
    pub new: bool,
    /// Those of standard input, line by line, if there are none.
    pub labels: Vec<OsString>,
}

/// The standard input, as a file's name.
pub const STANDARD_INPUT: &str = "-";

/// Options as they are met. Each that says what is done is kept with its name, for two of them contradict each other.
struct Found {
    room: Room,
    what: Option<(&'static str, What)>,
    prompt: bool,
    new: bool,
    names: Vec<OsString>,
}

/// The command line taken apart, or what is wrong with it.
pub fn parse(arguments: impl Iterator<Item = OsString>) -> Result<Options, String> {
    let mut arguments = arguments.peekable();
    let scan = arguments
        .next_if(|first| first.to_str() == Some("scan"))
        .is_some();
    let forf = !scan
        && arguments
            .next_if(|first| first.to_str() == Some("forf"))
            .is_some();
    let mut found = Found {
        room: Room {
            fuel: floo::FUEL_MAX,
            sizes: Sizes::default(),
        },
        what: None,
        prompt: false,
        new: false,
        names: vec![],
    };
    while let Some(argument) = arguments.next() {
        match argument.to_str() {
            Some("--help" | "-h") => return Ok(found.task(Task::Help)),
            Some("--version" | "-V") => return Ok(found.task(Task::Version)),
            Some("--") => {
                found.names.extend(arguments);
                break;
            }
            Some(option) if option.starts_with("--") => {
                let (name, value) = match option.split_once('=') {
                    Some((name, value)) => (name, Some(value.to_owned())),
                    None => (option, None),
                };
                found.option(name, value, &mut arguments)?;
            }
            Some(option) if option.starts_with('-') && option != STANDARD_INPUT => {
                return Err(format!("unknown option {option}"));
            }
            _ => found.names.push(argument),
        }
    }
    if scan {
        found.scan()
    } else if forf {
        found.forf()
    } else {
        found.script()
    }
}

impl Found {
    fn option(
        &mut self,
        name: &str,
        given: Option<String>,
        rest: &mut impl Iterator<Item = OsString>,
    ) -> Result<(), String> {
        if !matches!(
            name,
            "--fuel" | "--stack" | "--exec" | "--dictionary" | "--cells" | "--log" | "--steps"
        ) {
            if let Some(value) = given {
                return Err(format!("{name} takes no value, here {value}"));
            }
            return self.flag(name);
        }
        let value = match given {
            Some(value) => value,
            None => {
                let next = rest
                    .next()
                    .ok_or_else(|| format!("{name} lacks its value"))?;
                next.to_string_lossy().into_owned()
            }
        };
        if name == "--steps" {
            return self.what("--steps", What::Steps(range(&value)?));
        }
        let number = number(&value).ok_or_else(|| format!("{name} wants a number, not {value}"))?;
        let Room { fuel, sizes } = &mut self.room;
        match name {
            "--fuel" => *fuel = u32::try_from(number).unwrap_or(u32::MAX),
            "--stack" => sizes.stack = number,
            "--exec" => sizes.execution = number,
            "--dictionary" => sizes.dictionary = number,
            "--cells" => sizes.cells = number,
            _ => sizes.log = number,
        }
        Ok(())
    }

    fn flag(&mut self, name: &str) -> Result<(), String> {
        match name {
            "--outcome" => self.what("--outcome", What::Run { outcome: true }),
            "--tokens" => self.what("--tokens", What::Tokens),
            "--room" => self.what("--room", What::Room),
            "--prompt" => {
                self.prompt = true;
                Ok(())
            }
            "--new" => {
                self.new = true;
                Ok(())
            }
            _ => Err(format!("unknown option {name}")),
        }
    }

    fn what(&mut self, name: &'static str, what: What) -> Result<(), String> {
        match self.what.replace((name, what)) {
            Some((earlier, _)) => Err(format!("{earlier} and {name} cannot both be")),
            None => Ok(()),
        }
    }

    fn task(self, task: Task) -> Options {
        Options {
            room: self.room,
            task,
        }
    }

    fn script(mut self) -> Result<Options, String> {
        if self.new {
            return Err("--new is of `floo scan`".to_owned());
        }
        if self.prompt {
            return match (&self.what, self.names.is_empty()) {
                (None, true) => Ok(self.task(Task::Prompt)),
                (Some((name, _)), _) => Err(format!("--prompt and {name} cannot both be")),
                (None, false) => Err("--prompt takes no file".to_owned()),
            };
        }
        if self.names.len() > 1 {
            let second = self.names[1].to_string_lossy();
            return Err(format!("one script at a time, and {second} is a second"));
        }
        let name = match (self.names.pop(), &self.what) {
            (Some(name), _) => name,
            (None, None) if io::stdin().is_terminal() => return Ok(self.task(Task::Prompt)),
            (None, Some((option, _))) if io::stdin().is_terminal() => {
                return Err(format!("{option} wants a script"));
            }
            (None, _) => STANDARD_INPUT.into(),
        };
        let what = match self.what.take() {
            Some((_, what)) => what,
            None => What::Run { outcome: false },
        };
        Ok(self.task(Task::Script(what, name)))
    }

    fn forf(mut self) -> Result<Options, String> {
        if let Some((name, _)) = self.what {
            return Err(format!("`floo forf` has no {name}"));
        }
        if self.prompt || self.new {
            return Err("`floo forf` has only --fuel".to_owned());
        }
        if self.names.len() > 1 {
            let second = self.names[1].to_string_lossy();
            return Err(format!("one script at a time, and {second} is a second"));
        }
        let name = self.names.pop().unwrap_or_else(|| STANDARD_INPUT.into());
        Ok(self.task(Task::Forf(name)))
    }

    fn scan(mut self) -> Result<Options, String> {
        if let Some((name, _)) = self.what {
            return Err(format!("`floo scan` has no {name}"));
        }
        if self.prompt {
            return Err("`floo scan` has no --prompt".to_owned());
        }
        let mut names = std::mem::take(&mut self.names).into_iter();
        let (Some(script), Some(book)) = (names.next(), names.next()) else {
            return Err("`floo scan` wants a script and a book".to_owned());
        };
        let scan = Scan {
            script,
            book,
            new: self.new,
            labels: names.collect(),
        };
        Ok(self.task(Task::Scan(scan)))
    }
}

/// Decimal digits. One that is too great for the machine is too great for setup, which refuses it.
fn number(text: &str) -> Option<usize> {
    let digits = !text.is_empty() && text.bytes().all(|byte| byte.is_ascii_digit());
    digits.then(|| text.parse().unwrap_or(usize::MAX))
}

/// `A..B`, both included, or one number.
fn range(text: &str) -> Result<RangeInclusive<u32>, String> {
    let bad = || format!("--steps wants A..B, two numbers of steps, not {text}");
    let (first, last) = text.split_once("..").unwrap_or((text, text));
    let steps = |text| {
        let number = number(text).ok_or_else(bad)?;
        Ok::<_, String>(u32::try_from(number).unwrap_or(u32::MAX))
    };
    let (first, last) = (steps(first)?, steps(last)?);
    if first > last {
        return Err(format!("--steps {text} has its greater number first"));
    }
    Ok(first..=last)
}
