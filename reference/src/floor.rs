//! The floor rule for late scans (02, W3): a run of the script with the label lent to it, and what it
//! leaves on the stack entered in a book.

use crate::machine::Machine;
use crate::run::Ending;
use crate::setup::{self, Sizes, PREDEFINED_NAMES};
use crate::value::{Object, Value};
use crate::{run_from, Ran};

/// "The lent book of records, 64 at most".
pub const MOST_RECORDS: usize = 64;
pub const LONGEST_PLACE: usize = 31;
const LONGEST_LABEL: usize = 512;
/// "Number and time are integers from 0": those of 32 bits.
pub(crate) const GREATEST: u32 = i32::MAX as u32;

/// A record as it is lent, of any contents. Of the place the first `length` bytes count.
#[derive(Clone, Copy, Debug, PartialEq, Eq)]
pub struct Record {
    pub number: u32,
    pub place: [u8; LONGEST_PLACE],
    pub length: u32,
    pub time: u32,
}

/// The answers in the order in which they are looked for. The last two have the record's place in
/// the book.
#[derive(Clone, Copy, Debug, PartialEq, Eq)]
pub enum Answer {
    Refused(u8),
    BookMalformed,
    LabelTooLong,
    NoSlot,
    NoCells,
    NotFinished,
    BadStack,
    Late,
    NoRoom,
    Replaced(usize),
    Added(usize),
}

pub struct Scan {
    pub answer: Answer,
    /// Unless a refusal came before it.
    pub run: Option<Ran>,
    /// The book's count after the scan.
    pub count: usize,
}

/// "It lends a label as the string bound to label, runs the script, and takes from the final stack
/// exactly three items". Of the lent records the first `count` are the book.
pub fn scan(
    script: &[u8],
    fuel: u64,
    label: &[u8],
    sizes: &Sizes,
    book: &mut [Record],
    count: usize,
) -> Scan {
    if let Some(answer) = refusal(script, fuel, label, sizes, book, count) {
        return Scan {
            answer,
            run: None,
            count,
        };
    }
    let mut start = Machine::new(sizes);
    start.lend(b"label", label);
    let run = run_from(start, script, fuel);
    let answer = match (&run.ending, record_of(&run.machine)) {
        (Ending::Finished, Some(record)) => enter(record, book, count),
        (Ending::Finished, None) => Answer::BadStack,
        _ => Answer::NotFinished,
    };
    Scan {
        answer,
        run: Some(run),
        count: count + usize::from(matches!(answer, Answer::Added(_))),
    }
}

/// The first refusal before the run that applies.
fn refusal(
    script: &[u8],
    fuel: u64,
    label: &[u8],
    sizes: &Sizes,
    book: &[Record],
    count: usize,
) -> Option<Answer> {
    if let Some(number) = setup::refusal(script, fuel, sizes) {
        return Some(Answer::Refused(number));
    }
    let refused = [
        (!is_sound(book, count), Answer::BookMalformed),
        (label.len() > LONGEST_LABEL, Answer::LabelTooLong),
        (sizes.dictionary <= PREDEFINED_NAMES, Answer::NoSlot),
        (
            Object::String(label.to_vec()).cells() > sizes.cells,
            Answer::NoCells,
        ),
    ];
    refused
        .into_iter()
        .find_map(|(applies, answer)| applies.then_some(answer))
}

/// "lent records past the 64th go unused"
pub(crate) fn room(book: &[Record]) -> usize {
    book.len().min(MOST_RECORDS)
}

/// Not "count past its room, socket twice, field out of range". Records past the count are not looked
/// at, nor are the bytes of a place, which may have any values.
pub(crate) fn is_sound(book: &[Record], count: usize) -> bool {
    if count > room(book) {
        return false;
    }
    let counted = &book[..count];
    counted.iter().enumerate().all(|(at, record)| {
        let before = &counted[..at];
        record.number <= GREATEST
            && record.time <= GREATEST
            && (1..=LONGEST_PLACE).contains(&(record.length as usize))
            && before.iter().all(|other| other.number != record.number)
    })
}

/// What a final stack says: "a socket number, a place and a scan time, in that order from the
/// bottom".
fn record_of(machine: &Machine) -> Option<Record> {
    let &[number, place, time] = &machine.stack[..] else {
        return None;
    };
    let (number, time) = (from_zero(number)?, from_zero(time)?);
    Record::new(number, machine.current_bytes(place.string().ok()?), time)
}

fn from_zero(item: Value) -> Option<u32> {
    u32::try_from(item.integer().ok()?).ok()
}

impl Record {
    /// A record of a place of 1 to 31 bytes; "place bytes past its length are written 0".
    pub fn new(number: u32, place: &[u8], time: u32) -> Option<Record> {
        if place.is_empty() || place.len() > LONGEST_PLACE {
            return None;
        }
        let mut bytes = [0; LONGEST_PLACE];
        bytes[..place.len()].copy_from_slice(place);
        Some(Record {
            number,
            place: bytes,
            length: place.len() as u32,
            time,
        })
    }
}

/// "A scan strictly later than the stored time replaces the record; an equal or earlier one is
/// answered as late." "A new socket goes after the last".
fn enter(record: Record, book: &mut [Record], count: usize) -> Answer {
    let known = book[..count]
        .iter()
        .position(|other| other.number == record.number);
    match known {
        Some(at) if record.time > book[at].time => {
            book[at] = record;
            Answer::Replaced(at)
        }
        Some(_) => Answer::Late,
        None if count < room(book) => {
            book[count] = record;
            Answer::Added(count)
        }
        None => Answer::NoRoom,
    }
}

impl Answer {
    /// In the paper's words; an accepted scan with its place in the book.
    pub fn words(self) -> String {
        let words = match self {
            Answer::Refused(number) => return format!("refused={number}"),
            Answer::BookMalformed => "book malformed",
            Answer::LabelTooLong => "label over 512 bytes",
            Answer::NoSlot => "no slot for label",
            Answer::NoCells => "no cells for label",
            Answer::NotFinished => "run not finished",
            Answer::BadStack => "stack not of this form",
            Answer::Late => "late",
            Answer::NoRoom => "no room for a new socket",
            Answer::Replaced(at) => return format!("replaces the record at {at}"),
            Answer::Added(at) => return format!("goes after the last, at {at}"),
        };
        words.to_owned()
    }
}

impl Scan {
    /// A line with the answer, then what the run prints.
    pub fn printed(&self) -> Vec<u8> {
        let mut text = self.answer.words().into_bytes();
        text.push(b'\n');
        text.extend(self.run.iter().flat_map(Ran::printed));
        text
    }
}
