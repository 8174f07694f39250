//! Random scans by the exported floor rule and by the reference's: the answer with its numbers, the run's results, the count, every record of the book and those
//! around it, and that nothing changes where a refusal comes before the run.

use std::collections::BTreeSet;

use floo::floor::Record;
use floo::ScanReply;
use floo_reference::floor::{self, Answer, MOST_RECORDS};
use floo_reference::value::Value;

use crate::asked::Asked;
use crate::check_left;
use crate::random::Random;

/// How often each answer was given, by both.
#[derive(Default)]
pub struct Scans {
    /// By the number of the answer, less 1.
    pub answers: [usize; 11],
    /// By the number of the refusal, less 1.
    pub refusals: [usize; 9],
    pub late_equal: usize,
    pub late_earlier: usize,
    pub replaced_in_full: usize,
    /// Runs with records lent past the 64th.
    pub past_64: usize,
    /// The lengths of the labels.
    pub lengths: BTreeSet<usize>,
    pub steps: u64,
    pub objects: usize,
}

impl Scans {
    pub fn total(&self) -> usize {
        self.answers.iter().sum()
    }

    /// `book` is the one before.
    fn count(&mut self, scan: &floor::Scan, book: &[Record], count: usize) {
        self.answers[numbers(scan.answer).0 as usize - 1] += 1;
        self.past_64 += usize::from(scan.run.is_some() && book.len() > MOST_RECORDS);
        match scan.answer {
            Answer::Refused(number) => self.refusals[usize::from(number) - 1] += 1,
            Answer::Replaced(_) if count == book.len().min(MOST_RECORDS) => self.replaced_in_full += 1,
            Answer::Late if is_known_at_time(scan, &book[..count]) => self.late_equal += 1,
            Answer::Late => self.late_earlier += 1,
            _ => {}
        }
    }
}

/// Whether a record has the number and the time that the run has left.
fn is_known_at_time(scan: &floor::Scan, book: &[Record]) -> bool {
    let stack = scan.run.as_ref().map_or(&[][..], |run| &run.machine.stack);
    book.iter().any(|record| {
        let integer = |number: u32| Value::Integer(number as i32);
        matches!(stack, &[number, _, time] if number == integer(record.number) && time == integer(record.time))
    })
}

/// The `n`-th scan, or how the two differ.
pub fn compare(n: usize, random: &mut Random, tally: &mut Scans) -> Result<(), String> {
    let mut asked = Asked::new(n, random);
    let before = asked.clone();
    let reply = asked.scan();
    let mut book: Vec<floor::Record> = before.book.lent().iter().map(to_reference).collect();
    let sizes = before.lent.sizes();
    let scan = floor::scan(&before.script, before.fuel.into(), &before.label, &sizes, &mut book, before.count);
    tally.count(&scan, before.book.lent(), before.count);
    tally.lengths.insert(before.label.len());
    check(&asked, &before, reply, scan, &book, tally).map_err(|what| format!("{what}\n{before}"))
}

fn check(asked: &Asked, before: &Asked, reply: ScanReply, scan: floor::Scan, book: &[floor::Record], tally: &mut Scans) -> Result<(), String> {
    let expected = numbers(scan.answer);
    if (reply.answer, reply.refused, reply.at) != expected || reply.count != scan.count {
        return Err(format!("{reply:?} and not {:?}, count {}", scan.answer, scan.count));
    }
    let mut after = before.book.clone();
    for (record, expected) in after.lend().iter_mut().zip(book) {
        *record = from_reference(expected);
    }
    if asked.book != after {
        return Err("another book".to_owned());
    }
    let Some(mut run) = scan.run else {
        if asked.lent != before.lent {
            return Err("a refusal before the run changed a lent byte".to_owned());
        }
        return match (reply.steps, reply.log, reply.outcome) {
            (0, 0, 0) => Ok(()),
            counts => Err(format!("counts {counts:?} without a run")),
        };
    };
    if u64::from(reply.steps) != run.machine.steps {
        return Err(format!("{} steps and not {}", reply.steps, run.machine.steps));
    }
    let counts = [reply.log, reply.outcome];
    let shown = check_left(&asked.lent, &before.lent, counts, [&run.log, &run.outcome], &mut run.machine)?;
    tally.steps += run.machine.steps;
    tally.objects += shown.objects;
    Ok(())
}

/// The answer's number, the refusal's, and the place in the book.
fn numbers(answer: Answer) -> (u32, u32, usize) {
    match answer {
        Answer::Refused(number) => (1, number.into(), 0),
        Answer::BookMalformed => (2, 0, 0),
        Answer::LabelTooLong => (3, 0, 0),
        Answer::NoSlot => (4, 0, 0),
        Answer::NoCells => (5, 0, 0),
        Answer::NotFinished => (6, 0, 0),
        Answer::BadStack => (7, 0, 0),
        Answer::Late => (8, 0, 0),
        Answer::NoRoom => (9, 0, 0),
        Answer::Replaced(at) => (10, 0, at),
        Answer::Added(at) => (11, 0, at),
    }
}

/// The answer that a reply stands for, if it stands for one.
pub fn answer_of(reply: &ScanReply) -> Option<Answer> {
    let refused = u8::try_from(reply.refused).ok()?;
    let answers = [
        Answer::Refused(refused),
        Answer::BookMalformed,
        Answer::LabelTooLong,
        Answer::NoSlot,
        Answer::NoCells,
        Answer::NotFinished,
        Answer::BadStack,
        Answer::Late,
        Answer::NoRoom,
        Answer::Replaced(reply.at),
        Answer::Added(reply.at),
    ];
    let said = (reply.answer, reply.refused, reply.at);
    answers.into_iter().find(|&answer| numbers(answer) == said)
}

pub fn to_reference(record: &Record) -> floor::Record {
    floor::Record {
        number: record.number,
        place: record.place,
        length: record.length,
        time: record.time,
    }
}

pub fn from_reference(record: &floor::Record) -> Record {
    Record {
        number: record.number,
        place: record.place,
        length: record.length,
        time: record.time,
    }
}
