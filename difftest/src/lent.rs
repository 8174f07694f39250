//! Lent buffers: words and bytes of any earlier contents, with more of them before and after that nobody lends.

use floo::floor::Record;
use floo::{run_lent, scan_lent, Reply, ScanReply};
use floo_reference::Sizes;

use crate::random::Random;

const MARGIN: usize = 24;

/// A header's word 3 has it, and no body cell's and no freed cell's.
pub const HEADER_MARK: u32 = 1 << 31;

#[derive(Clone, PartialEq)]
pub struct Buffer<T> {
    all: Vec<T>,
}

impl<T: Copy + PartialEq> Buffer<T> {
    pub fn new(length: usize, mut fill: impl FnMut() -> T) -> Buffer<T> {
        Buffer {
            all: (0..length + 2 * MARGIN).map(|_| fill()).collect(),
        }
    }

    fn len(&self) -> usize {
        self.all.len() - 2 * MARGIN
    }

    pub fn lent(&self) -> &[T] {
        &self.all[MARGIN..MARGIN + self.len()]
    }

    pub fn lend(&mut self) -> &mut [T] {
        let end = MARGIN + self.len();
        &mut self.all[MARGIN..end]
    }

    /// Whether all but the first `changed` of what is lent is as before.
    fn same_past(&self, changed: usize, before: &Buffer<T>) -> bool {
        self.all[..MARGIN] == before.all[..MARGIN]
            && self.all[MARGIN + changed..] == before.all[MARGIN + changed..]
    }
}

impl Buffer<u8> {
    /// The text at the front, and nothing past it.
    pub fn check(&self, name: &str, count: usize, text: &[u8], before: &Buffer<u8>) -> Result<(), String> {
        if self.lent().get(..count) != Some(text) {
            return Err(format!(
                "{name}: {:?} and not {:?}",
                self.lent().get(..count).map(String::from_utf8_lossy),
                String::from_utf8_lossy(text)
            ));
        }
        if !self.same_past(count, before) {
            return Err(format!("{name}: a byte past its {count} bytes has changed"));
        }
        Ok(())
    }
}

#[derive(Clone, PartialEq)]
pub struct Lent {
    pub stack: Buffer<u32>,
    pub exec: Buffer<u32>,
    pub dictionary: Buffer<u32>,
    pub cells: Buffer<u32>,
    /// Whether no word 3 of the cells had the mark of a header before.
    pub unmarked: bool,
    pub log: Buffer<u8>,
    pub outcome: Buffer<u8>,
}

impl Lent {
    pub fn new(sizes: &Sizes, random: &mut Random) -> Lent {
        let words = |random: &mut Random, slots: usize, width: usize| {
            let length = slots * width + random.below(width);
            Buffer::new(length, || random.below(usize::MAX) as u32)
        };
        let stack = words(random, sizes.stack, 2);
        let exec = words(random, sizes.exec, 8);
        let dictionary = words(random, sizes.dictionary, 12);
        let mut cells = words(random, sizes.cells, 4);
        let unmarked = random.below(2) == 0;
        if unmarked {
            for word in cells.lend().iter_mut().skip(3).step_by(4) {
                *word %= HEADER_MARK;
            }
        }
        Lent {
            stack,
            exec,
            dictionary,
            cells,
            unmarked,
            log: Buffer::new(sizes.log, || random.byte()),
            outcome: Buffer::new(sizes.outcome, || random.byte()),
        }
    }

    pub fn sizes(&self) -> Sizes {
        Sizes::from_words(
            self.stack.len(),
            self.exec.len(),
            self.dictionary.len(),
            self.cells.len(),
            self.log.len(),
            self.outcome.len(),
        )
    }

    pub fn run(&mut self, script: &[u8], fuel: u32) -> Reply {
        run_lent(
            script,
            fuel,
            self.stack.lend(),
            self.exec.lend(),
            self.dictionary.lend(),
            self.cells.lend(),
            self.log.lend(),
            self.outcome.lend(),
        )
    }

    pub fn scan(&mut self, script: &[u8], fuel: u32, label: &[u8], book: &mut Buffer<Record>, count: usize) -> ScanReply {
        scan_lent(
            script,
            fuel,
            label,
            self.stack.lend(),
            self.exec.lend(),
            self.dictionary.lend(),
            self.cells.lend(),
            self.log.lend(),
            self.outcome.lend(),
            book.lend(),
            count,
        )
    }

    /// Words past whole slots, and those that were not lent.
    pub fn check_tails(&self, before: &Lent) -> Result<(), String> {
        for (name, width, now, then) in [
            ("stack", 2, &self.stack, &before.stack),
            ("execution", 8, &self.exec, &before.exec),
            ("dictionary", 12, &self.dictionary, &before.dictionary),
            ("cells", 4, &self.cells, &before.cells),
        ] {
            if !now.same_past(now.len() / width * width, then) {
                return Err(format!("{name}: a word past the whole slots has changed"));
            }
        }
        Ok(())
    }
}
