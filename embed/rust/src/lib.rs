//! Runs Floo 0.5 scripts by the proved runner of this repository, and reads their tokens; [`floor`] is the rule for late scans on top of it,
//! and [`forf`] runs the scripts of the shelf displays.
//!
//! A [`Runner`] owns the room for runs and can be used for one script after another; a run neither allocates nor depends on
//! the runs before it.
//!
//! ```
//! use floo::{Runner, Sizes};
//!
//! let mut runner = Runner::new(Sizes::default());
//! let report = runner.run(b"#FLOO\n1 2 add echo", 100).unwrap();
//! assert_eq!(report.log(), b"3\n");
//! assert_eq!(report.ending(), floo::Ending::Finished);
//! ```
//!
//! [`token`] reads one token, wherever it stands in a script:
//!
//! ```
//! use floo::{token, Kind};
//!
//! let name = token(b"#FLOO\n/two 2 def", 6).unwrap();
//! assert_eq!((name.kind, name.part, name.next), (Kind::LiteralName, &b"two"[..], 10));
//! ```
//!
//! Where a run or a token comes to grief over bytes that are no token, it says at which of them, and [`position`] gives its line and column:
//!
//! ```
//! use floo::{position, Runner, Sizes};
//!
//! let mut runner = Runner::new(Sizes::default());
//! let script = b"#FLOO\n{ 1 2\n  { 0x1G }\n} exec";
//! let report = runner.run(script, 100).unwrap();
//! assert_eq!(report.error(), Some(floo::ErrorName::BadNumber));
//! let position = position(script, report.place().unwrap()).unwrap();
//! assert_eq!((position.line, position.column), (3, 8));
//! ```

#![deny(unsafe_code, missing_docs)]

mod ending;
mod exported;
pub mod floor;
pub mod forf;
mod item;
mod names;
mod position;
mod refusal;
mod report;
mod token;

pub use ending::{Ending, ErrorName};
pub use exported::{forf_lent, forf_token_reply, ForfReply, ForfTokenReply};
pub use exported::{read_ledger as read_ledger_lent, write_ledger as write_ledger_lent};
pub use exported::{run as run_lent, scan as scan_lent, token as token_reply};
pub use exported::{LedgerReply, Reply, ScanReply, TokenReply};
pub use item::Item;
pub use names::{NAMES, PREDEFINED_NAMES};
pub use position::{position, Position};
pub use refusal::Refusal;
pub use report::Report;
pub use token::{token, Kind, Token, TokenError};

/// Bytes of a script at most.
///
/// ```
/// let mut script = vec![b' '; floo::SCRIPT_BYTES_MAX];
/// script[..5].copy_from_slice(b"#FLOO");
/// let mut runner = floo::Runner::new(floo::Sizes::default());
/// assert!(runner.run(&script, 0).is_ok());
/// script.push(b' ');
/// assert_eq!(runner.run(&script, 0), Err(floo::Refusal::ScriptTooLong));
/// ```
pub const SCRIPT_BYTES_MAX: usize = 32_768;

/// Fuel that is accepted at most.
///
/// ```
/// let mut runner = floo::Runner::new(floo::Sizes::default());
/// assert!(runner.run(b"#FLOO", floo::FUEL_MAX).is_ok());
/// assert!(runner.run(b"#FLOO", floo::FUEL_MAX + 1).is_err());
/// ```
pub const FUEL_MAX: u32 = 1_000_000;

/// The room for a run: slots, cells, and bytes of the log. The default is what the program `floo` has.
///
/// ```
/// use floo::{ErrorName, Runner, Sizes};
///
/// let mut small = Runner::new(Sizes { cells: 4, ..Sizes::default() });
/// assert_eq!(small.run(b"#FLOO\n[ 1 2 3 ]", 100).unwrap().error(), None);
/// assert_eq!(small.run(b"#FLOO\n[ 1 2 3 4 ]", 100).unwrap().error(), Some(ErrorName::VmError));
/// ```
#[derive(Clone, Copy, Debug, PartialEq, Eq)]
pub struct Sizes {
    /// Stack slots, 8 to 256.
    pub stack: usize,
    /// Execution slots, 4 to 128.
    pub execution: usize,
    /// Dictionary slots, [`PREDEFINED_NAMES`] to 512.
    pub dictionary: usize,
    /// Arena cells, 1 to 32,768: an array of n takes n + 1, a string of at most m bytes 1 + m/8, rounded up.
    pub cells: usize,
    /// Bytes of the log, at most 65,536.
    pub log: usize,
}

impl Default for Sizes {
    fn default() -> Self {
        Sizes {
            stack: 256,
            execution: 128,
            dictionary: 512,
            cells: 4096,
            log: 8192,
        }
    }
}

/// Room for runs, and the runs in it.
///
/// ```
/// use floo::{Runner, Sizes};
///
/// let mut runner = Runner::new(Sizes::default());
/// for (script, log) in [("#FLOO\n1 echo", "1\n"), ("#FLOO\n[ 2 3 ] echo", "[2 3]\n")] {
///     assert_eq!(runner.run(script.as_bytes(), 100).unwrap().log(), log.as_bytes());
/// }
/// ```
pub struct Runner {
    stack: Vec<u32>,
    execution: Vec<u32>,
    dictionary: Vec<u32>,
    cells: Vec<u32>,
    log: Vec<u8>,
    outcome: Vec<u8>,
}

impl Runner {
    /// Room of these sizes. Sizes outside the limits are allowed here, and refused by [`Runner::run`] and [`Runner::scan`]; no more is allocated for
    /// them than that takes.
    ///
    /// ```
    /// use floo::{Refusal, Runner, Sizes};
    ///
    /// let mut none = Runner::new(Sizes { stack: 7, ..Sizes::default() });
    /// assert_eq!(none.run(b"#FLOO", 100), Err(Refusal::StackSlots));
    /// ```
    pub fn new(sizes: Sizes) -> Self {
        let stack = sizes.stack.min(257);
        Runner {
            stack: vec![0; 2 * stack],
            execution: vec![0; 8 * sizes.execution.min(129)],
            dictionary: vec![0; 12 * sizes.dictionary.min(513)],
            cells: vec![0; 4 * sizes.cells.min(32_769)],
            log: vec![0; sizes.log.min(65_537)],
            outcome: vec![0; 256 + 136 * stack],
        }
    }

    /// Runs a script with so much fuel, or refuses it. Each step costs 1 fuel.
    ///
    /// ```
    /// let mut runner = floo::Runner::new(floo::Sizes::default());
    /// match runner.run(b"#FLOO\n\"rack \" print 7 echo", 1000) {
    ///     Ok(report) => assert_eq!(report.log(), b"rack 7\n"),
    ///     Err(refusal) => panic!("{refusal}"),
    /// }
    /// ```
    pub fn run(&mut self, script: &[u8], fuel: u32) -> Result<Report<'_>, Refusal> {
        let reply = exported::run(
            script,
            fuel,
            &mut self.stack,
            &mut self.execution,
            &mut self.dictionary,
            &mut self.cells,
            &mut self.log,
            &mut self.outcome,
        );
        match reply.refused {
            0 => Ok(self.report(reply.steps, reply.log, reply.outcome)),
            number => Err(Refusal::from_number(number).expect("refusals have the numbers 1 to 9")),
        }
    }

    /// What the last run came to, by its reply's numbers.
    fn report(&self, steps: u32, log: usize, outcome: usize) -> Report<'_> {
        Report::new(steps, &self.log[..log], &self.outcome[..outcome])
    }
}
