//! `floo scan SCRIPT BOOK [LABEL ..]`: labels through the floor rule, into a book that is kept in a file.

use std::ffi::OsString;
use std::io::{self, BufRead};

use floo::floor::{Book, Record, Scan};
use floo::{Item, Runner};

use crate::book::BookFile;
use crate::excerpt::printable;
use crate::message::Message;
use crate::options::{self, Room};
use crate::screen::Screen;
use crate::source::Source;
use crate::{status, verdict, Answer, Failure};

/// Answers each label with a line. The status is that of the first label that was neither entered nor late.
pub fn scan(asked: &options::Scan, room: &Room, screen: &mut Screen) -> Answer {
    let source = Source::read(&asked.script)?;
    let mut file = BookFile::open(&asked.book, asked.new)?;
    let mut runner = Runner::new(room.sizes);
    let mut worst = status::FINISHED;
    let mut answer = |label: &[u8]| -> Result<(), Failure> {
        let status = one(&mut runner, &source, label, room.fuel, &mut file, screen)?;
        if worst == status::FINISHED {
            worst = status;
        }
        Ok(())
    };
    for label in &asked.labels {
        answer(&bytes(label))?;
    }
    if asked.labels.is_empty() {
        for line in io::stdin().lock().split(b'\n') {
            let line = line.map_err(|error| Message::plain(format!("standard input: {error}")))?;
            let label = line.strip_suffix(b"\r").unwrap_or(&line);
            answer(label)?;
        }
    }
    Ok(worst)
}

/// The bytes of an argument. Elsewhere than on Unix it is text, and is taken as UTF-8.
fn bytes(argument: &OsString) -> Vec<u8> {
    argument.as_encoded_bytes().to_vec()
}

/// One label. The book is in its file before the answer is shown.
fn one(
    runner: &mut Runner,
    source: &Source,
    label: &[u8],
    fuel: u32,
    file: &mut BookFile,
    screen: &mut Screen,
) -> Answer {
    let scan = runner.scan(&source.bytes, label, fuel, &mut file.book);
    let label = printable(label);
    let log = scan.report().map_or(&[][..], |report| report.log());
    if scan.is_accepted() {
        file.save()?;
    }
    screen.print(log)?;
    let line = match &scan {
        Scan::Added(at, _) => format!("added: {}", shown(&file.book.records()[*at])),
        Scan::Replaced(at, _) => format!("replaced: {}", shown(&file.book.records()[*at])),
        Scan::Late(report) => match known(&file.book, report.items().next()) {
            Some(record) => format!("late: the book has {}", shown(record)),
            None => scan.to_string(),
        },
        _ => {
            screen.say(&refused(source, &scan, &label));
            return Ok(scan.report().map_or(status::REFUSED, |report| {
                match verdict::status(&report) {
                    status::FINISHED => status::REFUSED,
                    status => status,
                }
            }));
        }
    };
    screen.print(format!("{label} -> {line}\n").as_bytes())?;
    Ok(status::FINISHED)
}

fn known<'a>(book: &'a Book, number: Option<Item>) -> Option<&'a Record> {
    match number {
        Some(Item::Integer(number)) => book.find(u32::try_from(number).ok()?),
        _ => None,
    }
}

fn shown(record: &Record) -> String {
    let place = printable(record.place_bytes());
    format!("socket {} at {place} since {}", record.number, record.time)
}

fn refused(source: &Source, scan: &Scan, label: &str) -> Message {
    let message = match scan {
        Scan::Refused(refusal) => verdict::refused(source, *refusal),
        Scan::NotFinished(report) => match verdict::message(source, report) {
            Some(message) => message,
            None => Message::at(&source.name, scan.to_string()),
        },
        Scan::BadStack(report) => {
            let items: Vec<String> = report.items().map(|item| verdict::short(&item)).collect();
            let left = match items.is_empty() {
                true => "nothing".to_owned(),
                false => verdict::stack(&items),
            };
            Message::at(&source.name, scan.to_string())
                .note("a number, a string of 1 to 31 bytes and a time are wanted, in this order")
                .note(format!("the script left {left}"))
        }
        _ => Message::at(&source.name, scan.to_string()),
    };
    message.note(format!("the label is {label}; the book stays as it was"))
}
