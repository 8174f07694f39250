use std::error::Error;
use std::fmt;

use super::Book;
use crate::exported;

/// Bytes that the ledger of so many records takes at most.
///
/// ```
/// assert_eq!(floo::floor::ledger_bytes(0), "socket,place,time\r\n".len());
/// ```
pub const fn ledger_bytes(records: usize) -> usize {
    19 + 88 * records
}

/// Why no ledger was written or read. The refusals are looked for in this order, each in the whole text before the next, and the first that applies is given.
/// The first and the last are of writing, the others of reading.
///
/// ```
/// use floo::floor::{Book, LedgerError};
///
/// let refusal = Book::new().read_ledger(b"socket,place\r\n").unwrap_err();
/// assert_eq!(refusal, LedgerError::BadHeader);
/// assert_eq!(refusal.to_string(), "bad header");
/// ```
#[non_exhaustive]
#[derive(Clone, Copy, Debug, PartialEq, Eq)]
pub enum LedgerError {
    /// A socket is in the book twice, or a field of a record is out of range.
    BookMalformed = 1,
    /// The text does not begin with exactly `socket,place,time`, then CR and LF or the end.
    BadHeader = 2,
    /// A quote inside a field without quotes, a byte after a closing quote, no closing quote, or a CR or LF by itself outside quotes.
    BadQuoting = 3,
    /// A line has not three fields; an empty line has one.
    FieldCount = 4,
    /// A number or a time is not one or more digits, or is over [`NUMBER_MAX`](super::NUMBER_MAX).
    BadNumber = 5,
    /// A place has not 1 to [`PLACE_BYTES_MAX`](super::PLACE_BYTES_MAX) bytes.
    BadPlace = 6,
    /// Two lines have one socket.
    SocketTwice = 7,
    /// There are over [`RECORDS_MAX`](super::RECORDS_MAX) lines.
    TooMany = 8,
    /// The lent text is shorter than the ledger: never of [`Book::to_ledger`], which lends enough.
    TextTooShort = 9,
}

const ALL: [LedgerError; 9] = [
    LedgerError::BookMalformed,
    LedgerError::BadHeader,
    LedgerError::BadQuoting,
    LedgerError::FieldCount,
    LedgerError::BadNumber,
    LedgerError::BadPlace,
    LedgerError::SocketTwice,
    LedgerError::TooMany,
    LedgerError::TextTooShort,
];

/// The answer when it is done.
const DONE: u32 = 10;

impl LedgerError {
    /// Its number in `floor.h`, 1 to 9.
    ///
    /// ```
    /// assert_eq!(floo::floor::LedgerError::SocketTwice.number(), 7);
    /// ```
    pub fn number(self) -> u32 {
        self as u32
    }

    /// The refusal with a number of `floor.h`.
    ///
    /// ```
    /// use floo::floor::LedgerError;
    ///
    /// assert_eq!(LedgerError::from_number(7), Some(LedgerError::SocketTwice));
    /// assert_eq!(LedgerError::from_number(10), None);
    /// ```
    pub fn from_number(number: u32) -> Option<Self> {
        ALL.into_iter().find(|error| error.number() == number)
    }
}

/// In the paper's words.
impl fmt::Display for LedgerError {
    fn fmt(&self, f: &mut fmt::Formatter<'_>) -> fmt::Result {
        f.write_str(match self {
            LedgerError::BookMalformed => "book malformed",
            LedgerError::BadHeader => "bad header",
            LedgerError::BadQuoting => "bad quoting",
            LedgerError::FieldCount => "wrong field count",
            LedgerError::BadNumber => "bad number",
            LedgerError::BadPlace => "place not 1 to 31 bytes",
            LedgerError::SocketTwice => "socket twice",
            LedgerError::TooMany => "more records than room",
            LedgerError::TextTooShort => "lent text too short",
        })
    }
}

impl Error for LedgerError {}

impl Book {
    /// The book as a ledger for the buying office: comma-separated values by RFC 4180, under the header `socket,place,time`, with CR and LF after each line.
    /// A place with a comma, a quote or a line break is quoted, and its quotes are doubled.
    ///
    /// ```
    /// use floo::floor::{Book, Record};
    ///
    /// let records = [Record::new(417, b"rack B-7", 10).unwrap(), Record::new(388, b"row 2, shelf 9", 20).unwrap()];
    /// let ledger = Book::from_records(&records).unwrap().to_ledger().unwrap();
    /// assert_eq!(ledger, b"socket,place,time\r\n417,rack B-7,10\r\n388,\"row 2, shelf 9\",20\r\n");
    /// ```
    pub fn to_ledger(&self) -> Result<Vec<u8>, LedgerError> {
        let mut text = vec![0; ledger_bytes(self.count)];
        let reply = exported::write_ledger(&self.records, self.count, &mut text);
        text.truncate(count(reply)?);
        Ok(text)
    }

    /// Reads a ledger, whose records replace those of the book; a refusal leaves the book as it was. Needless quotes around a record's fields are accepted, and a
    /// last line without CR and LF. What [`Book::to_ledger`] writes is read as the same records in the same order.
    ///
    /// ```
    /// use floo::floor::{Book, LedgerError};
    ///
    /// let mut book = Book::new();
    /// book.read_ledger(b"socket,place,time\r\n417,\"rack B-7\",10").unwrap();
    /// assert_eq!(book.find(417).unwrap().place_bytes(), b"rack B-7");
    /// assert_eq!(book.read_ledger(b"socket,place,time\r\n417,rack B-7\r\n"), Err(LedgerError::FieldCount));
    /// assert_eq!(book.records().len(), 1);
    /// ```
    pub fn read_ledger(&mut self, text: &[u8]) -> Result<(), LedgerError> {
        self.count = count(exported::read_ledger(text, &mut self.records))?;
        Ok(())
    }
}

fn count(reply: exported::LedgerReply) -> Result<usize, LedgerError> {
    match LedgerError::from_number(reply.answer) {
        Some(error) => Err(error),
        None if reply.answer == DONE => Ok(reply.count),
        None => unreachable!("a ledger has no answer {}", reply.answer),
    }
}
