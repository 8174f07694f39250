//! The lent sizes and the refusals 1 to 9 (01, Setup).

pub const LONGEST_SCRIPT: usize = 32_768;
/// The operators, and `[`, true, false and null.
pub const PREDEFINED_NAMES: usize = 65;
const MOST_FUEL: u64 = 1_000_000;
const LONGEST_LOG: usize = 65_536;

/// Slots of both stacks and the dictionary, cells of the arena, bytes of log and outcome.
#[derive(Clone, Copy, Debug, PartialEq, Eq)]
pub struct Sizes {
    pub stack: usize,
    pub exec: usize,
    pub dictionary: usize,
    pub cells: usize,
    pub log: usize,
    pub outcome: usize,
}

/// The program's own sizes (01, Outcome).
impl Default for Sizes {
    fn default() -> Sizes {
        Sizes {
            stack: 256,
            exec: 128,
            dictionary: 512,
            cells: 4_096,
            log: 8_192,
            outcome: Sizes::least_outcome(256),
        }
    }
}

impl Sizes {
    /// A size by its name. The outcome is not among them: unless it is given,
    /// it goes by the stack.
    fn named(&mut self, name: &str) -> Option<&mut usize> {
        match name {
            "stack" => Some(&mut self.stack),
            "exec" => Some(&mut self.exec),
            "dictionary" => Some(&mut self.dictionary),
            "cells" => Some(&mut self.cells),
            "log" => Some(&mut self.log),
            _ => None,
        }
    }

    /// Sets a size by its name, as corpus and options write it: a number, or for the dictionary `+N` or `-N` over the
    /// predefined names.
    pub fn set(&mut self, name: &str, number: &str) -> Option<()> {
        let size = self.named(name)?;
        *size = match number.as_bytes().first()? {
            b'+' | b'-' if name == "dictionary" => {
                PREDEFINED_NAMES.checked_add_signed(number.parse().ok()?)?
            }
            _ => number.parse().ok()?,
        };
        Some(())
    }

    /// The sizes of lent buffers: "2 words for a stack slot, 8 for an execution slot, 12 for a
    /// dictionary slot, 4 for a cell", rounded down. Log and outcome are bytes already.
    pub fn from_words(
        stack: usize,
        exec: usize,
        dictionary: usize,
        arena: usize,
        log: usize,
        outcome: usize,
    ) -> Sizes {
        Sizes {
            stack: stack / 2,
            exec: exec / 8,
            dictionary: dictionary / 12,
            cells: arena / 4,
            log,
            outcome,
        }
    }

    /// The least outcome for so many stack slots (refusal 9), for any number of them.
    pub fn least_outcome(stack: usize) -> usize {
        stack.saturating_mul(136).saturating_add(256)
    }
}

/// The number of the first refusal that applies.
pub fn refusal(script: &[u8], fuel: u64, sizes: &Sizes) -> Option<u8> {
    let refused = [
        script.len() > LONGEST_SCRIPT,
        !script.starts_with(b"#FLOO"),
        fuel > MOST_FUEL,
        !(8..=256).contains(&sizes.stack),
        !(4..=128).contains(&sizes.exec),
        !(PREDEFINED_NAMES..=512).contains(&sizes.dictionary),
        !(1..=32_768).contains(&sizes.cells),
        sizes.log > LONGEST_LOG,
        sizes.outcome < Sizes::least_outcome(sizes.stack),
    ];
    (1..)
        .zip(refused)
        .find_map(|(number, applies)| applies.then_some(number))
}
