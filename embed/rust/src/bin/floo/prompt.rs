//! The prompt. Each line is put after those before it, and the whole is run again: a run depends on its script and room alone, so what the earlier lines did they
//! do again. A line that ends the run is not kept.

use std::io::{self, BufRead, IsTerminal};

use floo::{Ending, ErrorName, Item, Report, Runner};

use crate::message::Message;
use crate::options::Room;
use crate::screen::Screen;
use crate::source::Source;
use crate::verdict::{self, short, stack};
use crate::{status, Answer};

const HEAD: &[u8] = b"#FLOO\n";
const HEAD_LINES: usize = 1;

/// The lines that were kept, and how much they wrote.
struct Session {
    source: Source,
    logged: usize,
}

/// Reads lines to the end of standard input.
pub fn prompt(room: &Room, screen: &mut Screen) -> Answer {
    let asks = io::stdin().is_terminal();
    let mut runner = Runner::new(room.sizes);
    let mut session = Session::new();
    if let Err(refusal) = runner.run(HEAD, room.fuel) {
        return Err(Message::plain(refusal.to_string()).into());
    }
    if asks {
        screen.print_quiet("Floo 0.5. Each line goes on with the script; Ctrl-D ends.")?;
    }
    let mut open = vec![]; // lines of a group or a string that goes on
    loop {
        if asks {
            screen.print(if open.is_empty() {
                b"floo> "
            } else {
                b"  ..> "
            })?;
        }
        let line = read_line()?;
        let ended = line.is_empty();
        if !ended {
            screen.typed();
        }
        open.extend(line);
        if ended && open.is_empty() {
            break;
        }
        if !ended && goes_on(&mut runner, room, &session, &open) {
            continue;
        }
        session.take(&open, &mut runner, room, screen)?;
        open.clear();
    }
    if asks {
        screen.print(b"\n")?;
    }
    Ok(status::FINISHED)
}

/// A line with its LF, or nothing at the end.
fn read_line() -> Result<Vec<u8>, Message> {
    let mut line = vec![];
    let read = io::stdin().lock().read_until(b'\n', &mut line);
    read.map_err(|error| Message::plain(format!("standard input: {error}")))?;
    if line.last().is_some_and(|last| *last != b'\n') {
        line.push(b'\n');
    }
    Ok(line)
}

/// Whether the lines end in the midst of a group, or with a backslash in a string.
fn goes_on(runner: &mut Runner, room: &Room, session: &Session, open: &[u8]) -> bool {
    let script = [&session.source.bytes, open].concat();
    let Ok(report) = runner.run(&script, room.fuel) else {
        return false;
    };
    let Some(place) = report.place() else {
        return false;
    };
    match report.error() {
        Some(ErrorName::BadBrace) => script[place] == b'{',
        Some(ErrorName::OpenString) => open.ends_with(b"\\\n") && continued(&script[place..]),
        _ => false,
    }
}

/// Whether each line break in an open string has its backslash.
fn continued(string: &[u8]) -> bool {
    let mut breaks = string.windows(2).filter(|pair| pair[1] == b'\n');
    breaks.all(|pair| pair[0] == b'\\')
}

impl Session {
    fn new() -> Self {
        let source = Source {
            name: "line".to_owned(),
            bytes: HEAD.to_vec(),
            hidden_lines: HEAD_LINES,
        };
        Session { source, logged: 0 }
    }

    fn take(
        &mut self,
        lines: &[u8],
        runner: &mut Runner,
        room: &Room,
        screen: &mut Screen,
    ) -> io::Result<()> {
        let kept = self.source.bytes.len();
        self.source.bytes.extend_from_slice(lines);
        let report = match runner.run(&self.source.bytes, room.fuel) {
            Ok(report) => report,
            Err(refusal) => {
                screen.say(&verdict::refused(&self.source, refusal).note("the line is not kept"));
                self.source.bytes.truncate(kept);
                return Ok(());
            }
        };
        let log = &report.log()[self.logged..];
        screen.print(log)?;
        if log.last().is_some_and(|last| *last != b'\n') {
            screen.print(b"\n")?;
        }
        match verdict::message(&self.source, &report) {
            Some(message) => {
                screen.say(&message.note("the line is not kept"));
                self.source.bytes.truncate(kept);
            }
            None => {
                self.logged = report.log().len();
                let items: Vec<String> = report.items().map(|item| short(&item)).collect();
                let steps = report.steps();
                let shown = match items.is_empty() {
                    true => "empty".to_owned(),
                    false => self.contents(runner, room, steps).unwrap_or(stack(&items)),
                };
                screen.print_quiet(&format!("stack: {shown}"))?;
            }
        }
        Ok(())
    }

    /// The stack after so many steps as echostack writes it, with what is in strings and arrays. Nothing where the script has made another of that name, or where
    /// there is no room.
    fn contents(&self, runner: &mut Runner, room: &Room, steps: u32) -> Option<String> {
        let after = |text: &[u8]| [&self.source.bytes, text].concat();
        let script = after(b"\n/echostack load");
        let bound = finished(runner.run(&script, room.fuel).ok()?, steps + 3)?
            .items()
            .next_back();
        if bound != Some(Item::Operator("echostack")) {
            return None;
        }
        let script = after(b"\nechostack");
        let report = finished(runner.run(&script, room.fuel).ok()?, steps + 2)?;
        let text = report.log()[self.logged..].strip_suffix(b"\n")?;
        Some(String::from_utf8_lossy(text).into_owned())
    }
}

/// A run that has finished in so many steps: with an error that the script handles it would take more.
fn finished(report: Report<'_>, steps: u32) -> Option<Report<'_>> {
    ((report.ending(), report.steps()) == (Ending::Finished, steps)).then_some(report)
}
