//! Random scans: a label, a book that is mostly sound, and a script that mostly leaves the number, the place and the time of a scan, often of a socket that the book
//! has and about as late.

use std::fmt;

use floo::floor::Record;
use floo::ScanReply;
use floo_reference::floor::{LONGEST_PLACE, MOST_RECORDS};
use floo_reference::setup::{LONGEST_SCRIPT, PREDEFINED_NAMES};
use floo_reference::Sizes;

use crate::lent::{Buffer, Lent};
use crate::random::Random;
use crate::{scripts, sizes};

const LONGEST_LABEL: usize = 520;

/// The label script of the examples.
const EXAMPLE: &str = include_str!("../../examples/scan.floo");

/// Of numbers and times.
const GREATEST: u32 = 0x7FFF_FFFF;

/// Numbers and times at the ends of their range, and past them.
const ENDS: [u32; 6] = [0, 1, GREATEST - 1, GREATEST, GREATEST + 1, u32::MAX];

/// What ends a run, or leaves another stack, after the three items.
const SPOILS: &[&str] = &["stop", "exit", "frob", "}", "{ } loop", "pop pop pop pop", "2147483648", "dup", "pop", "neg", "exch", "3 1 roll", "cvx exec", "mark", "null"];

/// What is no place.
const NO_PLACES: &[&str] = &["\"\"", "\"\\000a\"", "7", "true", "null", "mark", "/a", "/add load", "[ 97 ]", "{ }", "0 string", "9 string"];

#[derive(Clone)]
pub struct Asked {
    pub script: Vec<u8>,
    pub fuel: u32,
    pub label: Vec<u8>,
    pub lent: Lent,
    pub book: Buffer<Record>,
    pub count: usize,
}

impl Asked {
    /// Every third scan has a label of the next length, so that all are met. Every fifteenth is poor: several refusals may apply at once.
    pub fn new(n: usize, random: &mut Random) -> Asked {
        let poor = n % 15 == 7;
        let (book, count) = book(poor, random);
        let said = Said::new(&book.lent()[..count.min(book.lent().len())], random);
        let label = match n % 3 {
            0 => bytes(n / 3 % (LONGEST_LABEL + 1), random),
            1 if poor => bytes(LONGEST_LABEL - random.below(16), random),
            1 => said.label(random),
            _ => bytes(random.below(60), random),
        };
        let mut script = match n % 3 {
            1 if random.below(2) == 0 => EXAMPLE.as_bytes().to_vec(),
            _ => said.script(&label, random),
        };
        match random.below(100) {
            0 => script[4] = b'o',
            1 => script.resize(LONGEST_SCRIPT + random.below(2), b' '),
            _ => {}
        }
        let sizes = match random.below(8) {
            _ if poor => scarce(random),
            0 => sizes(random),
            _ => close(&label, random),
        };
        Asked {
            script,
            fuel: fuel(random),
            label,
            lent: Lent::new(&sizes, random),
            book,
            count,
        }
    }

    pub fn scan(&mut self) -> ScanReply {
        self.lent.scan(&self.script, self.fuel, &self.label, &mut self.book, self.count)
    }
}

impl fmt::Display for Asked {
    fn fmt(&self, f: &mut fmt::Formatter<'_>) -> fmt::Result {
        let (script, label) = (String::from_utf8_lossy(&self.script), self.label.escape_ascii());
        let records = self.book.lent();
        write!(f, "fuel {} {:?}\n{script}\nlabel {label}\ncount {} of {records:?}", self.fuel, self.lent.sizes(), self.count)
    }
}

/// Sizes that setup accepts, with few slots and cells beside those of the label, and sometimes too few for it.
fn close(label: &[u8], random: &mut Random) -> Sizes {
    let cells = 1 + label.len().div_ceil(8);
    let stack = 8 + random.below(4);
    Sizes {
        stack,
        exec: 4 + random.below(20),
        dictionary: PREDEFINED_NAMES + *random.choose(&[&0, &1, &2, &6, &7, &8, &9, &20, &40, &60]),
        cells: match random.below(20) {
            0..=1 => (cells - 1).max(1),
            2 => cells,
            3..=4 => cells + random.below(8),
            _ => cells + 80 + random.below(40),
        },
        log: random.below(100),
        outcome: Sizes::least_outcome(stack) + random.below(9),
    }
}

/// Sizes that setup accepts, and that have room for a label or not.
fn scarce(random: &mut Random) -> Sizes {
    Sizes {
        dictionary: PREDEFINED_NAMES + random.below(2),
        cells: *random.choose(&[&1, &64, &65, &66]),
        log: 0,
        ..Sizes::default()
    }
}

/// Literals take three steps, a label for the place four.
fn fuel(random: &mut Random) -> u32 {
    match random.below(50) {
        0 => 1_000_001,
        1 => 0,
        2..=5 => 2 + random.below(4) as u32,
        _ => 3_000,
    }
}

/// Bytes of every kind; often one of them is zero.
fn bytes(length: usize, random: &mut Random) -> Vec<u8> {
    let mut bytes: Vec<u8> = (0..length).map(|_| random.byte().max(1)).collect();
    if length > 0 && random.below(2) == 0 {
        bytes[random.below(length)] = 0;
    }
    bytes
}

/// Lent records, those past the count and past the 64th of any contents, and the count. One in ten is malformed, by one thing, and of the poor one in two.
pub(crate) fn book(poor: bool, random: &mut Random) -> (Buffer<Record>, usize) {
    let lent = match random.below(8) {
        0 => random.below(3),
        1..=2 => MOST_RECORDS,
        3..=4 => MOST_RECORDS + 1 + random.below(40),
        _ => random.below(MOST_RECORDS + 6),
    };
    let room = lent.min(MOST_RECORDS);
    let mut count = match random.below(3) {
        0 => room,
        _ => random.below(room + 1),
    };
    let mut book = Buffer::new(lent, || any_record(random));
    for (i, record) in book.lend()[..count].iter_mut().enumerate() {
        *record = sound_record(i as u32, random);
    }
    if random.below(if poor { 2 } else { 10 }) == 0 {
        match random.below(5) {
            0 => count = room + 1 + random.choose(&[&0, &1, &40, &(usize::MAX - 65)]),
            _ if count > 0 => spoil(&mut book.lend()[..count], random),
            _ => {}
        }
    }
    (book, count)
}

/// A record of any contents, with numbers that scripts scan too.
pub(crate) fn any_record(random: &mut Random) -> Record {
    let number = |random: &mut Random| match random.below(3) {
        0 => ENDS[random.below(ENDS.len())],
        1 => random.below(100) as u32,
        _ => random.below(usize::MAX) as u32,
    };
    let mut place = [0; LONGEST_PLACE];
    place.fill_with(|| random.byte());
    Record {
        number: number(random),
        place,
        length: number(random),
        time: number(random),
    }
}

/// The `i`-th record of a sound book: its number differs from those of the others.
fn sound_record(i: u32, random: &mut Random) -> Record {
    Record {
        number: match i {
            63 => GREATEST,
            _ => 3 * i,
        },
        length: match random.below(4) {
            0 => 1,
            1 => 31,
            _ => 1 + random.below(31) as u32,
        },
        time: match random.below(6) {
            0 => 0,
            1 => GREATEST,
            _ => random.below(100) as u32,
        },
        ..any_record(random)
    }
}

/// One record with a field just out of its range, or with the number of another.
fn spoil(records: &mut [Record], random: &mut Random) {
    let at = random.below(records.len());
    let other = random.below(records.len());
    let past = *random.choose(&[&(GREATEST + 1), &u32::MAX]);
    match random.below(4) {
        0 => records[at].number = past,
        1 => records[at].time = past,
        2 => records[at].length = *random.choose(&[&0, &32, &past]),
        _ if at != other => records[at].number = records[other].number,
        _ => records[at].length = 0,
    }
}

/// What a script is to leave.
struct Said {
    number: i64,
    place: Vec<u8>,
    time: i64,
}

impl Said {
    /// Most scans are of sockets that the book has, about as late.
    fn new(known: &[Record], random: &mut Random) -> Said {
        let (number, time) = match known {
            [_, ..] if random.below(3) > 0 => {
                let record = known[random.below(known.len())];
                let time = i64::from(record.time) + random.choose(&[&-1, &0, &0, &1, &1, &1, &50]);
                (record.number.into(), time.min(GREATEST.into()))
            }
            _ => (end_or_small(random), end_or_small(random)),
        };
        let length = match random.below(20) {
            0 => 32,
            1 => 31,
            2 => 0,
            _ => 1 + random.below(31),
        };
        let place = match random.below(3) {
            0 => bytes(length, random),
            _ => (0..length).map(|_| 33 + random.below(94) as u8).collect(),
        };
        Said { number, place, time }
    }

    /// A script that mostly leaves this.
    fn script(&self, label: &[u8], random: &mut Random) -> Vec<u8> {
        let text = match random.below(14) {
            0..=7 => self.literals(random),
            8..=10 => self.by_label(label, random),
            11 if random.below(3) == 0 => self.literals(random).replacen('\n', "\n7 ", 1),
            11 => format!("{} {}", self.literals(random), random.choose(SPOILS)),
            12 => format!("#FLOO\n{} {} {}", self.number, random.choose(NO_PLACES), self.time),
            _ => return scripts::hostile(random),
        };
        text.into_bytes()
    }

    /// A script of three literals.
    fn literals(&self, random: &mut Random) -> String {
        let place: String = self.place.iter().map(|byte| format!("\\{byte:03o}")).collect();
        let number = match u32::try_from(self.number) {
            Ok(number) if random.below(4) == 0 => format!("0x{number:X}"),
            _ => self.number.to_string(),
        };
        format!("#FLOO\n{number} \"{place}\" {}", self.time)
    }

    /// A script that takes the place from the label, and sometimes the numbers too.
    fn by_label(&self, label: &[u8], random: &mut Random) -> String {
        let start = random.below(label.len() + 1);
        let length = random.below((label.len() - start).min(34) + 1);
        let place = match random.below(4) {
            0 => "label".to_owned(),
            1 => format!("label {start} {length} getinterval /label 0 def"),
            _ => format!("label {start} {length} getinterval"),
        };
        let (number, time) = match random.below(4) {
            0 => (format!("label {start} get"), "label length".to_owned()),
            _ => (self.number.to_string(), self.time.to_string()),
        };
        format!("#FLOO\n{number} {place} {time}")
    }

    /// A label in the form of the example script, and sometimes not quite.
    fn label(&self, random: &mut Random) -> Vec<u8> {
        let mut label = format!("{:04}:", self.number).into_bytes();
        label.extend(&self.place);
        label.extend(format!(":{}", self.time).bytes());
        if random.below(6) == 0 {
            let at = random.below(label.len());
            label[at] = random.byte();
        }
        label
    }
}

/// A number or a time that no record is asked about.
fn end_or_small(random: &mut Random) -> i64 {
    match random.below(16) {
        0 => ENDS[random.below(ENDS.len())].into(),
        1 => -1,
        _ => random.below(250) as i64,
    }
}
