//! Random scripts, fuel and room, run by the proved runner and by the reference interpreter: the answers, every lent byte outside what is promised to
//! change, and the objects and handlers that the runner's words show. The tokens of these scripts and of rows of bytes, read by both at every offset. Random scans by the
//! exported floor rule and the reference's, with their books; books written as ledgers, and texts good and damaged read as such, by both. Echo lines that are read
//! back. And random Forf scripts.

#![forbid(unsafe_code)]

#[path = "../../reference/tests/hostile/ground.rs"]
pub mod ground;
#[path = "../../reference/tests/hostile/handlers.rs"]
pub mod handlers;
#[path = "../../reference/tests/hostile/random.rs"]
pub mod random;
#[path = "../../reference/tests/hostile/scripts.rs"]
pub mod scripts;

mod asked;
mod circles;
mod echoes;
pub mod forf;
mod ledgers;
mod lent;
mod readings;
mod scans;
mod shown;
mod texts;

use floo_reference::setup::PREDEFINED_NAMES;
use floo_reference::value::Object;
use floo_reference::{run, Answer, Ending, Fault, Machine, Ran, Sizes};
use ground::Ground;
use lent::Lent;
use random::Random;
use shown::Shown;
pub use echoes::Echoes;
pub use ledgers::Ledgers;
pub use readings::Readings;
pub use scans::{answer_of, from_reference, to_reference, Scans};
pub use texts::DAMAGES;

/// What was compared.
#[derive(Default)]
pub struct Tally {
    pub scripts: usize,
    pub refused: usize,
    pub steps: u64,
    pub objects: usize,
    /// Of these, the ones that only circles name.
    pub circled: usize,
    /// Of the objects, the ones that are read only.
    pub read_only: usize,
    /// Runs in which the least number is written into the log, into a string, and into the outcome.
    pub least: [usize; 3],
    /// Runs in which a `for` ends on a number above 32 bits, and on one below.
    pub loops_past: [usize; 2],
    /// Runs that each fault of a token ends, in the order of `fault_number`, outside braces and in a brace group.
    pub misread: [[usize; 2]; 6],
    /// Handlers at the runs' ends, and those of them that name an object.
    pub handlers: [usize; 2],
    /// Runs that meet what pegs, the mark for read only and handlers are about.
    pub ground: Ground,
    pub readings: Readings,
    pub scans: Scans,
    pub ledgers: Ledgers,
    pub echoes: Echoes,
}

/// One case, or how the two differ.
pub fn compare(random: &mut Random, tally: &mut Tally) -> Result<(), String> {
    let script = match random.below(8) {
        0 => circles::script(random),
        _ => scripts::hostile(random),
    };
    compare_run(&script, random, tally)?;
    readings::compare(&script, &mut tally.readings)?;
    readings::compare(&readings::row(random), &mut tally.readings)?;
    if random.below(100) == 0 {
        readings::compare_long(random, &mut tally.readings)?;
    }
    Ok(())
}

fn compare_run(script: &[u8], random: &mut Random, tally: &mut Tally) -> Result<(), String> {
    let fuel = fuel(random);
    let mut lent = Lent::new(&sizes(random), random);
    let sizes = lent.sizes();
    let before = lent.clone();
    let reply = lent.run(script, fuel);
    let told = |what: &str| {
        format!(
            "{what}\nfuel {fuel} {sizes:?}\n{}",
            String::from_utf8_lossy(script)
        )
    };
    tally.scripts += 1;
    match run(script, fuel.into(), &sizes) {
        Answer::Refused(number) => {
            tally.refused += 1;
            if reply.refused != number.into() {
                return Err(told(&format!("refused {} and not {number}", reply.refused)));
            }
            if lent != before {
                return Err(told("a refusal changed a lent byte"));
            }
        }
        Answer::Run(Ran {
            log,
            outcome,
            ending,
            mut machine,
        }) => {
            tally.steps += machine.steps;
            if reply.refused != 0 {
                return Err(told(&format!("refused {}", reply.refused)));
            }
            if u64::from(reply.steps) != machine.steps {
                return Err(told(&format!("{} steps and not {}", reply.steps, machine.steps)));
            }
            let shown = check_left(&lent, &before, [reply.log, reply.outcome], [&log, &outcome], &mut machine).map_err(|what| told(&what))?;
            tally.objects += shown.objects;
            tally.circled += shown.circled;
            tally.read_only += shown.read_only;
            for (count, shown) in tally.handlers.iter_mut().zip(shown.handlers) {
                *count += shown;
            }
            tally.ground.count(&ending, &machine);
            let in_string = |object: &Object| matches!(object, Object::String(bytes) if has_least(bytes));
            let least = [has_least(&log), machine.store.iter().any(in_string), has_least(&outcome)];
            if let Ending::Misread(fault) = ending {
                let in_group = script[machine.at] == b'{';
                tally.misread[fault_number(fault)][usize::from(in_group)] += 1;
            }
            for (count, loops) in tally.loops_past.iter_mut().zip(machine.met.loops_past) {
                *count += usize::from(loops > 0);
            }
            for (count, met) in tally.least.iter_mut().zip(least) {
                *count += usize::from(met);
            }
        }
    }
    Ok(())
}

/// What a run leaves: log and outcome by their counts, the words past whole slots, and the objects that the words show.
fn check_left(lent: &Lent, before: &Lent, counts: [usize; 2], texts: [&[u8]; 2], machine: &mut Machine) -> Result<Shown, String> {
    lent.log.check("log", counts[0], texts[0], &before.log)?;
    lent.outcome.check("outcome", counts[1], texts[1], &before.outcome)?;
    lent.check_tails(before)?;
    shown::check(lent, machine)
}

fn has_least(text: &[u8]) -> bool {
    const LEAST: &[u8] = b"-2147483648";
    text.windows(LEAST.len()).any(|part| part == LEAST)
}

/// In the order of the change request, and limitcheck after them.
fn fault_number(fault: Fault) -> usize {
    match fault {
        Fault::Badnumber(_) => 0,
        Fault::Badescape(_) => 1,
        Fault::Openstring(_) => 2,
        Fault::Badbrace(_) => 3,
        Fault::Badbyte(_) => 4,
        Fault::Limitcheck => 5,
    }
}

fn fuel(random: &mut Random) -> u32 {
    match random.below(100) {
        0 => 1_000_001,
        1..=9 => 0,
        10..=19 => 1,
        20..=59 => 300,
        _ => 3_000,
    }
}

/// Cases for each scan and ledger, and for each echo line.
const SCAN_EVERY: usize = 4;
const ECHO_EVERY: usize = 4;

/// As many cases as asked, from a seed; stops at the first difference. Of four one has a scan and a ledger, and one an echo line. These have numbers of their own, so that
/// the cases are the same with and without them.
pub fn compare_all(count: usize, seed: u64) -> Result<Tally, String> {
    let mut random = Random::new(seed);
    let mut scanning = Random::new(seed.rotate_left(32) | 1);
    let mut writing = Random::new(seed.rotate_left(16) | 1);
    let mut echoing = Random::new(seed.rotate_left(48) | 1);
    let mut tally = Tally::default();
    for case in 0..count {
        let mut compared = compare(&mut random, &mut tally);
        if case % SCAN_EVERY == 0 {
            compared = compared.and_then(|()| scans::compare(case / SCAN_EVERY, &mut scanning, &mut tally.scans));
            compared = compared.and_then(|()| ledgers::compare(case / SCAN_EVERY, &mut writing, &mut tally.ledgers));
        }
        if case % ECHO_EVERY == 1 {
            compared = compared.and_then(|()| echoes::compare(case / ECHO_EVERY, &mut echoing, &mut tally.echoes));
        }
        compared.map_err(|what| format!("case {case}, seed {seed}: {what}"))?;
    }
    Ok(tally)
}

/// Sizes from the smallest that setup accepts, and one below and above the limits.
fn slots(random: &mut Random, low: usize, high: usize) -> usize {
    match random.below(40) {
        0 => low - 1,
        1 => high + 1,
        2..=9 => low,
        10..=14 => high,
        _ => low + random.below((high - low).min(60)),
    }
}

pub(crate) fn sizes(random: &mut Random) -> Sizes {
    let stack = slots(random, 8, 256);
    let least = Sizes::least_outcome(stack);
    Sizes {
        stack,
        exec: match random.below(4) {
            0 => 4 + random.below(3),
            _ => slots(random, 4, 128),
        },
        dictionary: match random.below(4) {
            0 => PREDEFINED_NAMES + random.below(10),
            _ => slots(random, PREDEFINED_NAMES, 512),
        },
        cells: slots(random, 1, 32_768),
        log: match random.below(40) {
            0 => 65_537,
            1..=9 => random.below(8),
            _ => random.below(3_000),
        },
        outcome: match random.below(40) {
            0 => least - 1,
            1..=9 => least,
            _ => least + random.below(200),
        },
    }
}
