//! The command for people, over the proved library: `floo --help` says what it does. Runs, token readings, scans and ledgers are the library's; what is read
//! from files and how answers are shown is plain Rust.

#![forbid(unsafe_code)]

mod advice;
mod book;
mod excerpt;
mod forf;
mod help;
mod message;
mod options;
mod prompt;
mod room;
mod run;
mod scan;
mod screen;
mod source;
mod steps;
mod tokens;
mod verdict;

use std::io;
use std::process::ExitCode;

use message::Message;
use options::{Task, What};
use screen::Screen;
use source::Source;

/// What the command ends with. A run that was not made has the refusal's.
pub mod status {
    pub const FINISHED: u8 = 0;
    pub const ERROR: u8 = 1;
    pub const REFUSED: u8 = 2;
    pub const FUEL: u8 = 3;
    pub const STOPPED: u8 = 4;
}

/// A task's status, or what kept it from its work: a file that cannot be read, or an output that cannot be written.
pub type Answer = Result<u8, Failure>;

pub enum Failure {
    Said(Message),
    Output(io::Error),
}

impl From<io::Error> for Failure {
    fn from(error: io::Error) -> Self {
        Failure::Output(error)
    }
}

impl From<Message> for Failure {
    fn from(message: Message) -> Self {
        Failure::Said(message)
    }
}

fn main() -> ExitCode {
    let mut screen = Screen::new();
    let status = match perform(&mut screen) {
        Ok(status) => status,
        Err(Failure::Said(message)) => {
            screen.say(&message);
            status::REFUSED
        }
        // who closed the pipe wants no more
        Err(Failure::Output(error)) if error.kind() == io::ErrorKind::BrokenPipe => status::REFUSED,
        Err(Failure::Output(error)) => {
            screen.say(&Message::plain(format!("standard output: {error}")));
            status::REFUSED
        }
    };
    ExitCode::from(status)
}

fn perform(screen: &mut Screen) -> Answer {
    let options = options::parse(std::env::args_os().skip(1))
        .map_err(|problem| Message::plain(problem).note("`floo --help` lists the options"))?;
    let room = &options.room;
    match &options.task {
        Task::Help => {
            screen.print(help::TEXT.as_bytes())?;
            Ok(status::FINISHED)
        }
        Task::Version => {
            screen.print(help::version().as_bytes())?;
            Ok(status::FINISHED)
        }
        Task::Prompt => prompt::prompt(room, screen),
        Task::Scan(scan) => scan::scan(scan, room, screen),
        Task::Forf(path) => forf::run(&Source::read(path)?, room.fuel, screen),
        Task::Script(what, path) => {
            let source = Source::read(path)?;
            match what {
                What::Run { outcome } => run::run(&source, room, *outcome, screen),
                What::Tokens => tokens::list(&source, screen),
                What::Steps(range) => steps::list(&source, room, range.clone(), screen),
                What::Room => room::measure(&source, room, screen),
            }
        }
    }
}
