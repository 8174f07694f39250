//! A scan by the floor rule against a run of the same script with the label in its text: what the lent label, the judging of the book and its search cost.

use std::fs;
use std::io;

use floo::floor::{Record, RECORDS_MAX};
use floo::{run_lent, scan_lent, FUEL_MAX};

use crate::root;
use crate::timing::pair;

const LABEL: &str = "0417:row 1, rack B-7, shelf 3:1731690000";
const SOCKET: u32 = 417;

/// Records before the scan.
const COUNTS: [usize; 3] = [0, 8, 64];

/// What the numbers of `floor.h` stand for.
const REPLACED: u32 = 10;
const ADDED: u32 = 11;

/// Prints the table. A scan of a known socket is the last record's, which is found last, and replaces it.
pub fn table() -> io::Result<()> {
    let script = fs::read_to_string(root().join("examples/scan.floo"))?;
    let (first, rest) = script.split_once('\n').expect("the first line is #FLOO");
    let with_label = format!("{first}\n/label \"{LABEL}\" def\n{rest}");
    assert_eq!(LABEL.len(), 40);
    println!("\n| A label of {} bytes | Steps | Scan, microseconds | Label in the script: steps | Run, microseconds | Quotient |", LABEL.len());
    println!("|---|---|---|---|---|---|");
    for count in COUNTS {
        let (mut scanning, mut running) = (Lent::new(), Lent::new());
        let (scan_steps, run_steps) = (scanning.scan(&script, count), running.run(&with_label));
        let (scan, run) = pair(
            || {
                scanning.scan(&script, count);
            },
            || {
                running.run(&with_label);
            },
        );
        println!("| a book of {count} records | {scan_steps} | {:.2} | {run_steps} | {:.2} | {:.2} |", scan * 1e6, run * 1e6, scan / run);
    }
    Ok(())
}

/// Buffers of the program's sizes, and a book.
struct Lent {
    stack: Vec<u32>,
    execution: Vec<u32>,
    dictionary: Vec<u32>,
    cells: Vec<u32>,
    log: Vec<u8>,
    outcome: Vec<u8>,
    book: Vec<Record>,
}

impl Lent {
    fn new() -> Lent {
        let record = |number| Record::new(number, b"row 2, rack A-1, shelf 9", 0).expect("the fields are in range");
        Lent {
            stack: vec![0; 2 * 256],
            execution: vec![0; 8 * 128],
            dictionary: vec![0; 12 * 512],
            cells: vec![0; 4 * 4096],
            log: vec![0; 8192],
            outcome: vec![0; 256 + 136 * 256],
            book: (1000..).map(record).take(RECORDS_MAX).collect(),
        }
    }

    /// A scan of the socket; its steps.
    fn scan(&mut self, script: &str, count: usize) -> u32 {
        if let Some(known) = count.checked_sub(1) {
            (self.book[known].number, self.book[known].time) = (SOCKET, 0);
        }
        let reply = scan_lent(
            script.as_bytes(),
            FUEL_MAX,
            LABEL.as_bytes(),
            &mut self.stack,
            &mut self.execution,
            &mut self.dictionary,
            &mut self.cells,
            &mut self.log,
            &mut self.outcome,
            &mut self.book,
            count,
        );
        assert_eq!(reply.answer, if count == 0 { ADDED } else { REPLACED });
        reply.steps
    }

    /// A run of the script; its steps.
    fn run(&mut self, script: &str) -> u32 {
        let reply = run_lent(
            script.as_bytes(),
            FUEL_MAX,
            &mut self.stack,
            &mut self.execution,
            &mut self.dictionary,
            &mut self.cells,
            &mut self.log,
            &mut self.outcome,
        );
        assert!(self.outcome.starts_with(b"ending=finished\n"));
        reply.steps
    }
}
