//! A small reference interpreter for Floo 0.5, written from the papers alone to be compared with
//! other programs. "01" is the scope paper, "000" the Floo document and R1 to R100 the settled
//! readings. A step is worked out as a `Change` (change.rs) by the rules of run.rs and operators/,
//! tested for fit in the paper's order, and then applied to the `Machine` (machine.rs). The floor
//! rule of the change requests ("02") is a library on top of the run (floor.rs), and the ledger
//! writes and reads its book (ledger.rs). Forf is a language of its own (forf.rs).

#![forbid(unsafe_code)]

pub mod change;
pub mod corpus;
pub mod error;
pub mod floor;
pub mod forf;
pub mod ledger;
pub mod machine;
pub mod met;
pub mod operators;
pub mod print;
pub mod room;
pub mod run;
pub mod setup;
pub mod stored;
pub mod token;
pub mod value;

pub use machine::Machine;
pub use run::Ending;
pub use setup::Sizes;
pub use token::{read_token, Fault, Kind, Reading, TokenAnswer};

/// The answer to a script: the number of a refusal, or a run.
pub enum Answer {
    Refused(u8),
    Run(Ran),
}

/// What a run gives, and the state that it leaves.
pub struct Ran {
    pub log: Vec<u8>,
    pub outcome: Vec<u8>,
    pub ending: Ending,
    pub machine: Box<Machine>,
}

pub fn run(script: &[u8], fuel: u64, sizes: &Sizes) -> Answer {
    match setup::refusal(script, fuel, sizes) {
        Some(number) => Answer::Refused(number),
        None => Answer::Run(run_from(Machine::new(sizes), script, fuel)),
    }
}

/// The run from a machine before step 1, in sizes that setup accepts.
pub fn run_from(start: Machine, script: &[u8], fuel: u64) -> Ran {
    let mut machine = Box::new(start);
    let ending = run::run_to_end(&mut machine, script, fuel);
    Ran {
        log: machine.log.clone(),
        outcome: print::outcome(&mut machine, &ending),
        ending,
        machine,
    }
}

impl Ran {
    /// "log, then outcome"
    pub fn printed(&self) -> Vec<u8> {
        [&self.log[..], &self.outcome].concat()
    }
}

impl Answer {
    /// What the program prints: "log, then outcome, or `refused=` and the number".
    pub fn printed(&self) -> Vec<u8> {
        match self {
            Answer::Refused(number) => format!("refused={number}\n").into_bytes(),
            Answer::Run(ran) => ran.printed(),
        }
    }
}

pub fn printed(script: &[u8], fuel: u64, sizes: &Sizes) -> Vec<u8> {
    run(script, fuel, sizes).printed()
}
