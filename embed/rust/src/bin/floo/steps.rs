//! `--steps A..B`: the state after each number of steps. A run with fuel k is the state after k steps, so each line is a run of its own.

use std::ops::RangeInclusive;

use floo::{token, Ending, Kind, Report, Runner};

use crate::excerpt::printable;
use crate::message::Message;
use crate::options::Room;
use crate::screen::Screen;
use crate::source::Source;
use crate::verdict::{self, short, stack};
use crate::{status, Answer};

/// What a line is made of, and what is said if the run ends there.
struct State {
    steps: u32,
    ending: Ending,
    at: usize,
    held: usize,
    items: Vec<String>,
    status: u8,
    message: Option<Message>,
}

impl State {
    fn new(source: &Source, report: &Report) -> Self {
        State {
            steps: report.steps(),
            ending: report.ending(),
            at: report.at(),
            held: report.held(),
            items: report.items().map(|item| short(&item)).collect(),
            status: verdict::status(report),
            message: verdict::message(source, report),
        }
    }

    /// Whether there is no state after it.
    fn is_last(&self, fuel: u32) -> bool {
        self.ending != Ending::Fuel || self.steps == fuel
    }

    fn line(&self, doing: &str) -> String {
        let (steps, held, stack) = (self.steps, self.held, stack(&self.items));
        let line = format!("{steps:>5} {held:>7}  {doing:<24}  {stack}");
        format!("{}\n", line.trim_end())
    }
}

/// A line for each state from A to B steps, or to the end of the run if that comes first. Where the run ends, the error is said as by a plain run.
pub fn list(
    source: &Source,
    room: &Room,
    range: RangeInclusive<u32>,
    screen: &mut Screen,
) -> Answer {
    let mut runner = Runner::new(room.sizes);
    let mut state = |steps: u32| -> Result<State, Message> {
        let report = runner.run(&source.bytes, steps);
        let report = report.map_err(|refusal| verdict::refused(source, refusal))?;
        Ok(State::new(source, &report))
    };
    // the fuel that is lent is judged, whatever the steps shown
    state(room.fuel)?;
    let mut now = state(room.fuel.min(*range.start()))?;
    screen.print(b"after    held  next                      stack\n")?;
    while !now.is_last(room.fuel) {
        let next = state(now.steps + 1)?;
        let doing = match taken(source, &now, &next) {
            Some(at) => shown(source, at),
            None => format!("in {}", shown(source, now.at)),
        };
        screen.print(now.line(&doing).as_bytes())?;
        if now.steps == *range.end() {
            return Ok(status::FINISHED);
        }
        now = next;
    }
    screen.print(now.line(now.ending.word()).as_bytes())?;
    if let Some(message) = &now.message {
        screen.say(message);
    }
    Ok(now.status)
}

/// The token of the script that the step between two states takes, if it takes one. A step that takes none leaves `at`, unless it is the last.
fn taken(source: &Source, now: &State, next: &State) -> Option<usize> {
    if next.ending != Ending::Finished {
        return (next.at != now.at).then_some(next.at);
    }
    let left = source.skip_blank(after(source, now.at));
    (left < source.bytes.len()).then_some(left)
}

/// The offset after the token or the group at an offset; before the first token there is none.
fn after(source: &Source, at: usize) -> usize {
    if at == 0 {
        return 0;
    }
    let mut offset = at;
    let mut depth = 0;
    while let Ok(found) = token(&source.bytes, offset) {
        offset = found.next;
        depth += match found.kind {
            Kind::OpenBrace => 1,
            Kind::CloseBrace => -1,
            _ => 0,
        };
        if depth <= 0 {
            break;
        }
    }
    offset
}

/// A token with its place, a group by its braces.
fn shown(source: &Source, at: usize) -> String {
    let place = source.line_and_column(at);
    let text = match token(&source.bytes, at) {
        Ok(found) if found.kind == Kind::OpenBrace => "{..}".to_owned(),
        Ok(found) => printable(&source.bytes[at..found.next]),
        Err(_) => "no token".to_owned(),
    };
    let mut text: Vec<char> = text.chars().collect();
    if text.len() > 14 {
        text.splice(12.., "..".chars());
    }
    format!("{place} {}", text.into_iter().collect::<String>())
}
