//! A full book written as a ledger and read back: places without quotes, with quotes, and the longest lines there are.

use floo::floor::{ledger_bytes, Record, NUMBER_MAX, RECORDS_MAX};
use floo::{read_ledger_lent, write_ledger_lent};

use crate::timing::pair;

/// What each of the two takes at most.
const SECONDS: f64 = 50e-6;

/// What the numbers of `floor.h` stand for.
const DONE: u32 = 10;

/// Prints the table; the longest of the times.
pub fn table() -> f64 {
    let longest = [b'"'; 31];
    let books: [(&str, &[u8], u32); 3] = [
        ("rack B-7", b"rack B-7", 1000),
        ("row 2, rack A-1, shelf 9", b"row 2, rack A-1, shelf 9", 1000),
        ("31 quotes, and the greatest numbers", &longest, NUMBER_MAX - RECORDS_MAX as u32 + 1),
    ];
    println!("\n| A book of {RECORDS_MAX}, each place | Bytes | Written, microseconds | Read, microseconds |");
    println!("|---|---|---|---|");
    let mut most: f64 = 0.0;
    for (what, place, first) in books {
        let time = if first > 1000 { NUMBER_MAX } else { 1_731_690_000 };
        let record = |number| Record::new(number, place, time).expect("the fields are in range");
        let book: Vec<Record> = (first..).map(record).take(RECORDS_MAX).collect();
        let mut text = vec![0; ledger_bytes(RECORDS_MAX)];
        let reply = write_ledger_lent(&book, RECORDS_MAX, &mut text);
        assert_eq!(reply.answer, DONE);
        let ledger = text[..reply.count].to_vec();
        let mut read = vec![book[0]; RECORDS_MAX];
        let (writing, reading) = pair(
            || {
                assert_eq!(write_ledger_lent(&book, RECORDS_MAX, &mut text).answer, DONE);
            },
            || {
                assert_eq!(read_ledger_lent(&ledger, &mut read).answer, DONE);
            },
        );
        assert_eq!(read, book);
        println!("| {what} | {} | {:.2} | {:.2} |", ledger.len(), writing * 1e6, reading * 1e6);
        most = most.max(writing).max(reading);
    }
    most
}

pub fn is_met(seconds: f64) -> bool {
    seconds < SECONDS
}
