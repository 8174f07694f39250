//! Whatever the script and the sizes: no panic, no step beyond the fuel, nothing beyond the sizes,
//! and held as the paper's words give it. Runs are counted that meet every result of a peg and handled errors of every kind.

mod ground;
mod handlers;
mod random;
mod scripts;

use std::collections::BTreeSet;

use floo_reference::setup::PREDEFINED_NAMES;
use floo_reference::value::{Object, ObjectId, Value};
use floo_reference::{printed, read_token, run, Answer, Ending, Machine, Ran, Sizes, TokenAnswer};
use ground::Ground;
use random::Random;

const ROUNDS: usize = 30_000;
const LEAST_STEPS: u64 = 300_000;
/// Runs that meet each of what pegs, the mark for read only and handlers are about.
const LEAST_RUNS: usize = 12;

#[test]
fn runs_stay_within_fuel_and_sizes() {
    let mut random = Random::new(0x0F10_0F10_0F10_0F10);
    let mut steps = 0;
    let mut ground = Ground::default();
    for _ in 0..ROUNDS {
        let script = scripts::hostile(&mut random);
        let fuel = random.choose(&[&0, &1, &30, &300, &300, &3_000]);
        let ran = check_run(&script, *fuel, &allowed_sizes(&mut random));
        steps += ran.machine.steps;
        ground.count(&ran.ending, &ran.machine);
    }
    assert!(steps >= LEAST_STEPS, "only {steps} steps were taken");
    for (what, count) in ground.met() {
        assert!(count >= LEAST_RUNS, "{what}: {count} runs");
    }
}

#[test]
fn one_below_the_smallest_is_refused() {
    let mut random = Random::new(0x1234_5678_9ABC_DEF0);
    for _ in 0..ROUNDS / 10 {
        let script = scripts::hostile(&mut random);
        let mut sizes = allowed_sizes(&mut random);
        let number = 4 + random.below(6);
        match number {
            4 => sizes.stack = 7,
            5 => sizes.exec = 3,
            6 => sizes.dictionary = PREDEFINED_NAMES - 1,
            7 => sizes.cells = 0,
            8 => sizes.log = 65_537,
            _ => sizes.outcome = Sizes::least_outcome(sizes.stack) - 1,
        }
        let refused = format!("refused={number}\n").into_bytes();
        assert_eq!(printed(&script, 10, &sizes), refused);
    }
}

#[test]
fn token_readings_stay_within_the_script() {
    let mut random = Random::new(0x0DDB_A115_0DDB_A115);
    for _ in 0..ROUNDS / 2 {
        let script = scripts::hostile(&mut random);
        for offset in 0..script.len() + 2 {
            let reading = read_token(&script, offset);
            let TokenAnswer::Kind(_) = reading.answer else {
                assert_eq!((reading.next, reading.part), (offset, &[][..]));
                if let TokenAnswer::Fault(fault) = reading.answer {
                    let place = fault.place().unwrap_or(offset);
                    assert!(offset <= place && place <= script.len());
                }
                continue;
            };
            assert!(offset <= reading.next && reading.next <= script.len());
            let own = &script[offset..reading.next];
            assert!(
                reading.part.is_empty()
                    || own.windows(reading.part.len()).any(|w| w == reading.part)
            );
        }
    }
}

/// Sizes from the smallest allowed upwards.
fn allowed_sizes(random: &mut Random) -> Sizes {
    let stack = 8 + random.choose(&[&0, &1, &20, &248]);
    Sizes {
        stack,
        exec: 4 + random.choose(&[&0, &1, &2, &10, &124]),
        dictionary: match random.below(3) {
            0 => PREDEFINED_NAMES + random.below(10),
            1 => PREDEFINED_NAMES + random.below(40),
            _ => 512,
        },
        cells: 1 + random.choose(&[&0, &3, &20, &40, &200, &4_095]),
        log: *random.choose(&[&0, &1, &40, &8_192]),
        outcome: Sizes::least_outcome(stack),
    }
}

/// Runs a script and checks what it leaves.
fn check_run(script: &[u8], fuel: u64, sizes: &Sizes) -> Ran {
    let answer = run(script, fuel, sizes);
    let output = answer.printed();
    let Answer::Run(mut ran) = answer else {
        panic!("allowed sizes were refused");
    };
    assert!(ran.log.len() <= sizes.log && ran.outcome.len() <= sizes.outcome);
    check_machine(&mut ran.machine, sizes);
    let steps = ran.machine.steps;
    assert!(steps <= fuel);
    assert!(ran.ending != Ending::Fuel || steps == fuel);
    // Fuel does nothing but end the run.
    assert_eq!(printed(script, steps, sizes), output);
    if steps > 0 {
        let Answer::Run(Ran {
            ending, machine, ..
        }) = run(script, steps - 1, sizes)
        else {
            panic!("less fuel was refused");
        };
        assert_eq!((ending, machine.steps), (Ending::Fuel, steps - 1));
    }
    ran
}

fn check_machine(machine: &mut Machine, sizes: &Sizes) {
    assert!(machine.stack.len() <= sizes.stack);
    assert!(machine.frames.len() <= sizes.exec);
    assert!(machine.dictionary.len() <= sizes.dictionary);
    assert!(machine.held_cells() <= sizes.cells);
    let held: BTreeSet<ObjectId> = machine.held().iter().map(|held| held.id).collect();
    assert_eq!(held, held_by_the_words(machine));
}

/// Start from all objects, leave out what nothing names, repeat until nothing falls out.
fn held_by_the_words(machine: &Machine) -> BTreeSet<ObjectId> {
    let mut set: BTreeSet<ObjectId> = (0..machine.store.len()).collect();
    loop {
        let mut named: BTreeSet<ObjectId> = BTreeSet::new();
        named.extend(machine.stack.iter().filter_map(|item| item.object()));
        named.extend(
            machine
                .dictionary
                .iter()
                .filter_map(|entry| entry.binding?.object()),
        );
        named.extend(machine.frames.iter().filter_map(|frame| frame.object()));
        let handlers = machine.handlers.iter().flatten();
        named.extend(handlers.filter_map(|handler| handler.object()));
        for &id in &set {
            if let Object::Array(elements) = &machine.store[id] {
                named.extend(elements.iter().copied().filter_map(Value::object));
            }
        }
        let left: BTreeSet<ObjectId> = set.intersection(&named).copied().collect();
        if left == set {
            return set;
        }
        set = left;
    }
}
