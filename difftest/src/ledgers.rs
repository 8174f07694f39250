//! Random books written as ledgers, and texts good and damaged read, by the exported functions and by the reference's: the answer, its count, every byte of the
//! lent text and every record, with those around them. What was written is read back by both.

use floo::floor::Record;
use floo::{read_ledger_lent, write_ledger_lent, LedgerReply};
use floo_reference::floor::{self, MOST_RECORDS};
use floo_reference::ledger::{self, Refusal, REFUSALS};

use crate::asked;
use crate::lent::Buffer;
use crate::random::Random;
use crate::scans::{from_reference, to_reference};
use crate::texts::{self, DAMAGES};

/// How often each answer was given, by both.
pub struct Ledgers {
    /// By the number of the answer, less 1: nine refusals, and done.
    pub written: [usize; 10],
    pub read: [usize; 10],
    /// Texts by what was done to them, and those of them that were refused.
    pub damaged: [usize; DAMAGES.len()],
    pub refused: [usize; DAMAGES.len()],
    /// Written texts with quotes, and texts that were read back as the book that they were written from.
    pub quoted: usize,
    pub read_back: usize,
    /// Accepted texts with lent records past theirs, and random texts of over 64 lines.
    pub past_count: usize,
    pub long: usize,
}

impl Default for Ledgers {
    fn default() -> Self {
        Ledgers {
            written: [0; 10],
            read: [0; 10],
            damaged: [0; DAMAGES.len()],
            refused: [0; DAMAGES.len()],
            quoted: 0,
            read_back: 0,
            past_count: 0,
            long: 0,
        }
    }
}

/// A book written and read back, and a text read; or how the two differ.
pub fn compare(n: usize, random: &mut Random, tally: &mut Ledgers) -> Result<(), String> {
    let (mut book, count) = asked::book(n % 15 == 7, random);
    if n % 2 == 0 {
        texts::spice(book.lend(), random);
    }
    let told = |what: String| format!("{what}\ncount {count} of {:?}", book.lent());
    let text = compare_written(&book, count, random, tally).map_err(told)?;
    if let Some(text) = text {
        let mut lent = Buffer::new(count, || asked::any_record(random));
        let reply = read_ledger_lent(&text, lent.lend());
        let same = lent.lent().iter().zip(book.lent()).all(|(read, written)| read == &cleared(written));
        if reply != done(count) || !same {
            return Err(told(format!("read back with {reply:?}\n{}", text.escape_ascii())));
        }
        compare_read(&text, random, tally)?;
        tally.quoted += usize::from(text.contains(&b'"'));
        tally.read_back += 1;
    }
    let (damage, lines, text) = texts::text(n, random);
    let refused = compare_read(&text, random, tally).map_err(|what| format!("{what}, {}", DAMAGES[damage]))?;
    tally.damaged[damage] += 1;
    tally.refused[damage] += usize::from(refused);
    tally.long += usize::from(lines > MOST_RECORDS);
    Ok(())
}

/// The text, if it is written.
fn compare_written(book: &Buffer<Record>, count: usize, random: &mut Random, tally: &mut Ledgers) -> Result<Option<Vec<u8>>, String> {
    let known: Vec<floor::Record> = book.lent().iter().map(to_reference).collect();
    let whole = ledger::write(&known, count, &mut [0; 8192]).unwrap_or(19);
    let lent = match random.below(8) {
        0 => whole - 1,
        1 => random.below(whole),
        2..=4 => whole,
        _ => whole + random.below(100),
    };
    let mut text = Buffer::new(lent, || random.byte());
    let before = text.clone();
    let mut expected = text.lent().to_vec();
    let answer = ledger::write(&known, count, &mut expected);
    let book_before = book.clone();
    let reply = write_ledger_lent(book.lent(), count, text.lend());
    tally.written[reply_of(answer).answer as usize - 1] += 1;
    if reply != reply_of(answer) {
        return Err(format!("written with {reply:?} and not {answer:?}, {lent} bytes lent"));
    }
    if *book != book_before {
        return Err("writing changed the book".to_owned());
    }
    text.check("ledger", reply.count, &expected[..reply.count], &before)?;
    Ok(answer.ok().map(|bytes| expected[..bytes].to_vec()))
}

/// Whether the text is refused.
fn compare_read(text: &[u8], random: &mut Random, tally: &mut Ledgers) -> Result<bool, String> {
    let lent = match random.below(8) {
        0 => random.below(4),
        1..=3 => MOST_RECORDS,
        4..=5 => MOST_RECORDS + 1 + random.below(40),
        _ => random.below(MOST_RECORDS + 1),
    };
    let mut book = Buffer::new(lent, || asked::any_record(random));
    let mut after = book.clone();
    let mut known: Vec<floor::Record> = book.lent().iter().map(to_reference).collect();
    let answer = ledger::read(text, &mut known);
    for (record, expected) in after.lend().iter_mut().zip(&known) {
        *record = from_reference(expected);
    }
    let reply = read_ledger_lent(text, book.lend());
    tally.read[reply_of(answer).answer as usize - 1] += 1;
    tally.past_count += usize::from(answer.is_ok_and(|records| records < lent));
    let told = |what: String| format!("{what}, {lent} records lent\n{}", text.escape_ascii());
    if reply != reply_of(answer) {
        return Err(told(format!("read with {reply:?} and not {answer:?}")));
    }
    if book != after {
        return Err(told("another book".to_owned()));
    }
    Ok(answer.is_err())
}

/// The numbers of an answer.
pub fn reply_of(answer: Result<usize, Refusal>) -> LedgerReply {
    match answer {
        Ok(count) => done(count),
        Err(refusal) => LedgerReply {
            answer: 1 + REFUSALS.iter().position(|&other| other == refusal).expect("all are listed") as u32,
            count: 0,
        },
    }
}

fn done(count: usize) -> LedgerReply {
    LedgerReply { answer: 10, count }
}

/// The record with its place bytes past the length 0.
fn cleared(record: &Record) -> Record {
    Record::new(record.number, record.place_bytes(), record.time).expect("the book is sound")
}
