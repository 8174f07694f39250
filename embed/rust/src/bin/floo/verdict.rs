//! What is said of a run that did not finish, and of one that was not made.

use floo::{Ending, Item, Refusal, Report};

use crate::advice;
use crate::message::Message;
use crate::source::Source;
use crate::status;

pub fn status(report: &Report) -> u8 {
    match report.ending() {
        Ending::Finished => status::FINISHED,
        Ending::Stopped => status::STOPPED,
        Ending::Fuel => status::FUEL,
        _ => status::ERROR,
    }
}

pub fn refused(source: &Source, refusal: Refusal) -> Message {
    let message = match refusal {
        Refusal::NotAScript => source.message(0, refusal.to_string()),
        _ => Message::at(&source.name, refusal.to_string()),
    };
    match refusal {
        Refusal::NotAScript => message.note("put a line `#FLOO` before it"),
        _ => message,
    }
}

/// The ending or the error, at the byte that could not be accepted or else at the token that was taken last.
pub fn message(source: &Source, report: &Report) -> Option<Message> {
    let at = report.place().unwrap_or(report.at());
    match (report.ending(), report.error()) {
        (Ending::Finished, _) => None,
        (Ending::Stopped, _) => Some(source.message(at, "stopped")),
        (Ending::Fuel, _) => {
            let what = format!("fuel: not finished after {} steps", report.steps());
            Some(source.message(at, what).notes(advice::of_fuel(report)))
        }
        (_, Some(error)) => {
            let what = match report.command() {
                Some(command) => format!("{error} in {command}"),
                None => error.to_string(),
            };
            let notes = advice::of_error(source, report, error);
            Some(source.message(at, what).notes(notes))
        }
        (ending, None) => Some(source.message(at, ending.to_string())),
    }
}

/// An item, in few letters.
pub fn short(item: &Item) -> String {
    match item {
        Item::Integer(number) => number.to_string(),
        Item::Boolean(truth) => truth.to_string(),
        Item::Mark => "-mark-".to_owned(),
        Item::Name {
            literal: true,
            text,
        } => format!("/{text}"),
        Item::Name { text, .. } => (*text).to_owned(),
        item => item.to_string(),
    }
}

/// The stack, bottom first. Of many items the topmost.
pub fn stack(items: &[String]) -> String {
    const SHOWN: usize = 12;
    match items.len().checked_sub(SHOWN) {
        Some(hidden) if hidden > 0 => format!("({hidden} more) {}", items[hidden..].join(" ")),
        _ => items.join(" "),
    }
}
