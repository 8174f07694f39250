//! What random runs meet of pegs: each number that ones, lowpeg and highpeg can give, and their error. Of the mark for read only: what it refuses and what it does not stop.
//! And of handlers: each error that can be handled in each kind of step, and what is around them.

use floo_reference::error;
use floo_reference::met::{can_be_handled, Counts, REFUSED, TAKEN};
use floo_reference::{Ending, Machine};

const PEGS: [&str; 3] = ["ones", "lowpeg", "highpeg"];

/// In how many runs each was met.
#[derive(Default)]
pub struct Ground {
    /// Results of ones, lowpeg and highpeg, by the number.
    pegs: [Counts; 3],
    no_peg: [usize; 2],
    refused: [usize; REFUSED.len()],
    marked: [usize; 2],
    bound: usize,
    parts: usize,
    /// Handled errors, by the place of the error's name and by what had failed.
    handled: [[usize; TAKEN.len()]; error::NAMES.len()],
    /// Faults of tokens that ended the run though they had a handler, by the place of the fault's name.
    faults: [usize; error::NAMES.len()],
    lost_past: usize,
    nested: usize,
    commands: [usize; 2],
    crowded: [usize; 2],
    replaced: [usize; 2],
}

impl Ground {
    pub fn count(&mut self, ending: &Ending, machine: &Machine) {
        let met = &machine.met;
        for (counts, met) in self.pegs.iter_mut().zip(&met.pegs) {
            add(&mut counts.0, &met.0);
        }
        add(&mut self.no_peg, &met.no_peg);
        add(&mut self.refused, &met.refused);
        add(&mut self.marked, &met.marked);
        self.bound += usize::from(met.bound > 0);
        self.parts += usize::from(met.parts > 0);
        for (counts, met) in self.handled.iter_mut().zip(&met.handled) {
            add(counts, met);
        }
        if let Ending::Misread(fault) = ending {
            let place = error::place_of(fault.name().as_bytes()).expect("the list has every fault");
            self.faults[place] += usize::from(machine.handlers[place].is_some());
        }
        self.lost_past += usize::from(met.lost_past > 0);
        self.nested += usize::from(met.nested > 0);
        add(&mut self.commands, &met.commands);
        add(&mut self.crowded, &met.crowded);
        add(&mut self.replaced, &met.replaced);
    }

    /// What runs are to meet, and how many have met it.
    pub fn met(&self) -> Vec<(String, usize)> {
        let mut all = Vec::new();
        for (name, (counts, most)) in PEGS.iter().zip(self.pegs.iter().zip([32, 31, 31])) {
            let rarest = (0..=most).min_by_key(|&number| counts.0[number]).expect("there are numbers");
            all.push((format!("{name} of each number from 0 to {most}, {rarest} least often"), counts.0[rarest]));
        }
        for (name, count) in PEGS[1..].iter().zip(self.no_peg) {
            all.push((format!("undefinedresult of {name}"), count));
        }
        for (what, count) in REFUSED.iter().zip(self.refused) {
            all.push((format!("{what} that is read only"), count));
        }
        let [marked, again] = self.marked;
        let allowed = [("readonly", marked), ("readonly of what is read only", again), ("a read-only procedure changed by bind", self.bound), ("a part of what is read only", self.parts)];
        all.extend(allowed.map(|(what, count)| (what.to_owned(), count)));
        for (place, name) in error::NAMES.iter().enumerate() {
            for (taken, what) in TAKEN.iter().enumerate() {
                let count = self.handled[place][taken];
                match can_be_handled(place, taken) {
                    true => all.push((format!("{name} handled, {what}"), count)),
                    false => assert_eq!(count, 0, "{name} handled, {what}"),
                }
            }
        }
        for (name, count) in error::NAMES.iter().zip(self.faults).take(6) {
            all.push((format!("{name} of a token though it has a handler"), count));
        }
        let [taken, full] = self.commands;
        let [execution, other] = self.crowded;
        let [replaced, running] = self.replaced;
        let others = [
            ("a number lost after which the next has left 32 bits", self.lost_past),
            ("an error while a handler ran", self.nested),
            ("a command that took a slot", taken),
            ("a command without a slot", full),
            ("execstackoverflow with a handler", execution),
            ("another error without an execution slot for its handler", other),
            ("a handler replaced", replaced),
            ("a running handler replaced", running),
        ];
        all.extend(others.map(|(what, count)| (what.to_owned(), count)));
        all
    }
}

/// Counts a run for each of what it has met.
fn add<const N: usize>(counts: &mut [usize; N], met: &[usize; N]) {
    for (count, met) in counts.iter_mut().zip(met) {
        *count += usize::from(*met > 0);
    }
}
