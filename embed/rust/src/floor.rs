//! The floor rule for late scans: a script takes a scanned label apart, and what it leaves goes into a book of sockets, unless the book knows a scan as late or
//! later.
//!
//! ```
//! use floo::floor::{Book, Scan};
//! use floo::{Runner, Sizes};
//!
//! let mut runner = Runner::new(Sizes::default());
//! let mut book = Book::new();
//! let script = b"#FLOO\n417 label 20"; // the label is the place
//! let scan = runner.scan(script, b"tester 3", 100, &mut book);
//! assert!(matches!(scan, Scan::Added(0, _)));
//! let late = b"#FLOO\n417 label 15";
//! assert!(matches!(runner.scan(late, b"shelf A", 100, &mut book), Scan::Late(_)));
//! assert_eq!(book.find(417).unwrap().place_bytes(), b"tester 3");
//! ```
//!
//! [`Book::to_ledger`] and [`Book::read_ledger`] take the book to the buying office and back.

mod ledger;

use std::fmt;

use crate::exported;
use crate::{Refusal, Report, Runner};
pub use ledger::{ledger_bytes, LedgerError};

/// Bytes of a label at most.
///
/// ```
/// use floo::floor::{Book, Scan, LABEL_BYTES_MAX};
///
/// let mut runner = floo::Runner::new(floo::Sizes::default());
/// let label = [b'x'; LABEL_BYTES_MAX + 1];
/// assert_eq!(runner.scan(b"#FLOO", &label, 100, &mut Book::new()), Scan::LabelTooLong);
/// ```
pub const LABEL_BYTES_MAX: usize = 512;

/// Records of a book at most.
///
/// ```
/// use floo::floor::{Book, Record, RECORDS_MAX};
///
/// let record = Record::new(417, b"rack B-7", 10).unwrap();
/// assert_eq!(Book::from_records(&[record; RECORDS_MAX + 1]), None);
/// ```
pub const RECORDS_MAX: usize = 64;

/// Bytes of a place at most.
///
/// ```
/// use floo::floor::{Record, PLACE_BYTES_MAX};
///
/// assert!(Record::new(417, &[b'x'; PLACE_BYTES_MAX], 10).is_some());
/// assert!(Record::new(417, &[b'x'; PLACE_BYTES_MAX + 1], 10).is_none());
/// ```
pub const PLACE_BYTES_MAX: usize = 31;

/// The greatest number of a socket, and the greatest time.
///
/// ```
/// use floo::floor::{Record, NUMBER_MAX};
///
/// assert!(Record::new(NUMBER_MAX, b"rack B-7", NUMBER_MAX).is_some());
/// assert!(Record::new(NUMBER_MAX + 1, b"rack B-7", 10).is_none());
/// ```
pub const NUMBER_MAX: u32 = i32::MAX as u32;

/// Where a socket was seen last, and when. A record whose fields are out of their ranges makes a book malformed.
///
/// ```
/// use floo::floor::Record;
///
/// let record = Record::new(417, b"rack B-7", 1731690000).unwrap();
/// assert_eq!(record.to_string(), "socket 417 at rack B-7 since 1731690000");
/// ```
#[repr(C)]
#[derive(Clone, Copy, Debug, PartialEq, Eq)]
pub struct Record {
    /// The socket's, at most [`NUMBER_MAX`].
    pub number: u32,
    /// Of any bytes; those past the length are written 0 and never read.
    pub place: [u8; PLACE_BYTES_MAX],
    /// How many bytes of the place count, 1 to [`PLACE_BYTES_MAX`].
    pub length: u32,
    /// At most [`NUMBER_MAX`].
    pub time: u32,
}

impl Record {
    /// A record, where each field is in its range.
    ///
    /// ```
    /// assert!(floo::floor::Record::new(417, b"", 10).is_none());
    /// ```
    pub fn new(number: u32, place: &[u8], time: u32) -> Option<Self> {
        let length = place.len();
        if number > NUMBER_MAX || time > NUMBER_MAX || !(1..=PLACE_BYTES_MAX).contains(&length) {
            return None;
        }
        let mut bytes = [0; PLACE_BYTES_MAX];
        bytes[..length].copy_from_slice(place);
        Some(Record {
            number,
            place: bytes,
            length: length as u32,
            time,
        })
    }

    /// The bytes of the place that count.
    ///
    /// ```
    /// let record = floo::floor::Record::new(417, b"rack B-7", 10).unwrap();
    /// assert_eq!(record.place_bytes(), b"rack B-7");
    /// ```
    pub fn place_bytes(&self) -> &[u8] {
        let length = PLACE_BYTES_MAX.min(self.length as usize);
        &self.place[..length]
    }
}

/// In words, each byte of the place that is not printable ASCII as Rust escapes it.
impl fmt::Display for Record {
    fn fmt(&self, f: &mut fmt::Formatter<'_>) -> fmt::Result {
        let place = self.place_bytes().escape_ascii();
        write!(f, "socket {} at {place} since {}", self.number, self.time)
    }
}

/// Where each socket is: a record for each, [`RECORDS_MAX`] at most.
///
/// ```
/// use floo::floor::Book;
///
/// let mut book = Book::new();
/// book.read_ledger(b"socket,place,time\r\n417,rack B-7,10\r\n").unwrap();
/// assert_eq!(book.find(417).unwrap().place_bytes(), b"rack B-7");
/// ```
#[derive(Clone, Copy, Debug)]
pub struct Book {
    records: [Record; RECORDS_MAX],
    count: usize,
}

impl Book {
    /// A book without records.
    ///
    /// ```
    /// assert!(floo::floor::Book::new().records().is_empty());
    /// ```
    pub fn new() -> Self {
        let blank = Record {
            number: 0,
            place: [0; PLACE_BYTES_MAX],
            length: 0,
            time: 0,
        };
        Book {
            records: [blank; RECORDS_MAX],
            count: 0,
        }
    }

    /// A book of these records, unless they are too many. That they are in range and no socket is there twice is for [`Runner::scan`] to see.
    ///
    /// ```
    /// use floo::floor::{Book, Record, Scan};
    ///
    /// let record = Record::new(417, b"rack B-7", 10).unwrap();
    /// let mut twice = Book::from_records(&[record, record]).unwrap();
    /// let mut runner = floo::Runner::new(floo::Sizes::default());
    /// assert_eq!(runner.scan(b"#FLOO\n417 label 20", b"shelf A", 100, &mut twice), Scan::BookMalformed);
    /// ```
    pub fn from_records(records: &[Record]) -> Option<Self> {
        let mut book = Book::new();
        book.count = records.len();
        book.records.get_mut(..book.count)?.copy_from_slice(records);
        Some(book)
    }

    /// The records, in the order in which their sockets came.
    ///
    /// ```
    /// use floo::floor::{Book, Record};
    ///
    /// let record = Record::new(417, b"rack B-7", 10).unwrap();
    /// assert_eq!(Book::from_records(&[record]).unwrap().records(), [record]);
    /// ```
    pub fn records(&self) -> &[Record] {
        &self.records[..self.count]
    }

    /// The record of a socket.
    ///
    /// ```
    /// use floo::floor::{Book, Record};
    ///
    /// let record = Record::new(417, b"rack B-7", 10).unwrap();
    /// let book = Book::from_records(&[record]).unwrap();
    /// assert_eq!(book.find(417), Some(&record));
    /// assert_eq!(book.find(388), None);
    /// ```
    pub fn find(&self, number: u32) -> Option<&Record> {
        self.records().iter().find(|record| record.number == number)
    }
}

impl Default for Book {
    fn default() -> Self {
        Book::new()
    }
}

/// Books are equal if their records are; what lies past these does not count.
impl PartialEq for Book {
    fn eq(&self, other: &Self) -> bool {
        self.records() == other.records()
    }
}

impl Eq for Book {}

/// The answer to a scan. Answers are looked for in this order, and the first that applies is given. All but the last two refuse the scan and leave the book as it
/// was; those without a report come before the run.
///
/// ```
/// use floo::floor::{Book, Scan};
///
/// let mut runner = floo::Runner::new(floo::Sizes::default());
/// let mut book = Book::new();
/// let scan = runner.scan(b"#FLOO\n417 label", b"rack B-7", 100, &mut book);
/// assert!(matches!(scan, Scan::BadStack(_)));
/// assert_eq!(scan.to_string(), "stack not of this form");
/// ```
#[derive(Clone, Copy, Debug, PartialEq, Eq)]
#[non_exhaustive]
pub enum Scan<'a> {
    /// As by [`Runner::run`].
    Refused(Refusal),
    /// A socket is in the book twice, or a field of a record is out of range.
    BookMalformed,
    /// The label has over [`LABEL_BYTES_MAX`] bytes.
    LabelTooLong,
    /// The dictionary has no slot for the label.
    NoSlot,
    /// The label wants more cells than there are.
    NoCells,
    /// The run ended by an error, by stop or for want of fuel.
    NotFinished(Report<'a>),
    /// The run left something else than a number, a place and a time.
    BadStack(Report<'a>),
    /// The book has the socket with this time or a later one.
    Late(Report<'a>),
    /// The book has no room for a new socket.
    NoRoom(Report<'a>),
    /// The socket's record, which has this place in the book, is now this scan's.
    Replaced(usize, Report<'a>),
    /// The scan of a new socket is the last record now, at this place.
    Added(usize, Report<'a>),
}

impl<'a> Scan<'a> {
    /// What the run came to, if one was made.
    ///
    /// ```
    /// let mut runner = floo::Runner::new(floo::Sizes::default());
    /// let mut book = floo::floor::Book::new();
    /// let scan = runner.scan(b"#FLOO\n417 label echo 20", b"rack B-7", 100, &mut book);
    /// assert_eq!(scan.report().unwrap().log(), b"\"rack B-7\"\n");
    /// ```
    pub fn report(&self) -> Option<Report<'a>> {
        match *self {
            Scan::Refused(_) | Scan::BookMalformed | Scan::LabelTooLong => None,
            Scan::NoSlot | Scan::NoCells => None,
            Scan::NotFinished(report) | Scan::BadStack(report) | Scan::Late(report) => Some(report),
            Scan::NoRoom(report) | Scan::Replaced(_, report) | Scan::Added(_, report) => {
                Some(report)
            }
        }
    }

    /// Whether the scan went into the book.
    ///
    /// ```
    /// let mut runner = floo::Runner::new(floo::Sizes::default());
    /// let mut book = floo::floor::Book::new();
    /// assert!(runner.scan(b"#FLOO\n417 label 20", b"rack B-7", 100, &mut book).is_accepted());
    /// assert!(!runner.scan(b"#FLOO\n417 label 20", b"rack B-7", 100, &mut book).is_accepted());
    /// ```
    pub fn is_accepted(&self) -> bool {
        matches!(self, Scan::Replaced(..) | Scan::Added(..))
    }
}

/// In the paper's words.
impl fmt::Display for Scan<'_> {
    fn fmt(&self, f: &mut fmt::Formatter<'_>) -> fmt::Result {
        match self {
            Scan::Refused(refusal) => refusal.fmt(f),
            Scan::BookMalformed => f.write_str("book malformed"),
            Scan::LabelTooLong => f.write_str("label over 512 bytes"),
            Scan::NoSlot => f.write_str("no slot for label"),
            Scan::NoCells => f.write_str("no cells for label"),
            Scan::NotFinished(_) => f.write_str("run not finished"),
            Scan::BadStack(_) => f.write_str("stack not of this form"),
            Scan::Late(_) => f.write_str("late"),
            Scan::NoRoom(_) => f.write_str("no room for a new socket"),
            Scan::Replaced(at, _) => write!(f, "replaces the record at {at}"),
            Scan::Added(at, _) => write!(f, "goes after the last, at {at}"),
        }
    }
}

impl Runner {
    /// Runs a script with so much fuel and with a label, the string bound to `label`, and enters what it leaves in the book: the socket's number, its place and the
    /// time of the scan, in that order from the bottom of the stack, and nothing else. A later scan than the book has of the socket replaces its record, a new
    /// socket goes after the last.
    ///
    /// ```
    /// use floo::floor::{Book, Scan};
    ///
    /// let mut runner = floo::Runner::new(floo::Sizes::default());
    /// let mut book = Book::new();
    /// assert!(matches!(runner.scan(b"#FLOO\n417 label 20", b"rack B-7", 100, &mut book), Scan::Added(0, _)));
    /// assert!(matches!(runner.scan(b"#FLOO\n417 label 30", b"tester 3", 100, &mut book), Scan::Replaced(0, _)));
    /// assert!(matches!(runner.scan(b"#FLOO\n417 label 25", b"shelf A", 100, &mut book), Scan::Late(_)));
    /// assert_eq!(book.find(417).unwrap().place_bytes(), b"tester 3");
    /// ```
    pub fn scan(&mut self, script: &[u8], label: &[u8], fuel: u32, book: &mut Book) -> Scan<'_> {
        let reply = exported::scan(
            script,
            fuel,
            label,
            &mut self.stack,
            &mut self.execution,
            &mut self.dictionary,
            &mut self.cells,
            &mut self.log,
            &mut self.outcome,
            &mut book.records,
            book.count,
        );
        book.count = reply.count;
        let report = self.report(reply.steps, reply.log, reply.outcome);
        match reply.answer {
            1 => Scan::Refused(
                Refusal::from_number(reply.refused).expect("refusals have the numbers 1 to 9"),
            ),
            2 => Scan::BookMalformed,
            3 => Scan::LabelTooLong,
            4 => Scan::NoSlot,
            5 => Scan::NoCells,
            6 => Scan::NotFinished(report),
            7 => Scan::BadStack(report),
            8 => Scan::Late(report),
            9 => Scan::NoRoom(report),
            10 => Scan::Replaced(reply.at, report),
            11 => Scan::Added(reply.at, report),
            number => unreachable!("a scan has no answer {number}"),
        }
    }
}
