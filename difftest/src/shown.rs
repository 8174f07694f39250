//! The objects that the runner's words show, against those of the reference interpreter: one to one, in kind and length, with the same elements, bytes and mark for read only, each
//! with its own cells and as many places as its stored count says. With them the handlers that the dictionary's words show, and the names of the latest error.
//!
//! The words are walked from the stack, the execution stack, the bindings and the handlers. What these do not lead to, circles and what only circles name, is looked for in
//! the other cells: a header has a mark in its word 3, which goes when it is freed. Where the cells' earlier contents have no mark, these headers must be as
//! many as the objects; elsewhere a cell that was never used may look like one.
//!
//! Not compared, since the words do not show it: that each other cell is on the free list. It shows in `held` of the outcome alone.

use std::collections::{HashMap, HashSet};

use floo_reference::error;
use floo_reference::machine::{Frame, Machine};
use floo_reference::value::{NameId, Object, ObjectId, Value};

use crate::lent::{Lent, HEADER_MARK};

const UNBOUND: u32 = 7;
const STRING: u32 = 8;

/// A handler's words, each the last word of a slot, three slots to a row: its tag, which is UNBOUND where there is none, its payload, and the slot of the error's name.
/// The rows are in the order of the errors' names.
const ROW: usize = 3 * 12;
const ROW_WORDS: [usize; 3] = [11, 23, 35];

/// The latest error's two names, 0 for none and else one more than the slot.
const ERRORNAME: usize = 12 * 51 + 11;
const COMMAND: usize = 12 * 52 + 11;

/// A header's word 1 modulo the first is its number of body cells, and its word 3 modulo the second the first of them; the bits above have other uses.
const SIZE_UNIT: u32 = 1 << 16;
const FIRST_UNIT: u32 = 1 << 15;

/// A header's word 1 has it where its object is read only.
const READ_ONLY: u32 = 1 << 16;

/// A header's word 1 has it unless its body's cells stand side by side, the first one last.
const SCATTERED: u32 = 1 << 17;

/// Headers that are tried for the objects of circles: many more than it takes where they match.
const MOST_TRIES: usize = 10_000;

/// What was compared.
pub struct Shown {
    pub objects: usize,
    /// Of these, the ones that no place outside leads to.
    pub circled: usize,
    /// Of these, the ones that are read only.
    pub read_only: usize,
    /// Handlers, and those of them that name an object.
    pub handlers: [usize; 2],
}

/// Headers and objects by each other, the cells of those compared, and those still to be compared.
#[derive(Clone, Default)]
struct Matched {
    objects: HashMap<u32, ObjectId>,
    headers: HashMap<ObjectId, u32>,
    cells: HashSet<u32>,
    waiting: Vec<(u32, ObjectId)>,
}

struct Walk<'a> {
    cells: &'a [u32],
    slots: HashMap<Vec<u8>, usize>,
    machine: &'a Machine,
    counts: HashMap<ObjectId, usize>,
    matched: Matched,
    tries: usize,
}

/// What was compared, or what differs.
pub fn check(lent: &Lent, machine: &mut Machine) -> Result<Shown, String> {
    let held = machine.held();
    let held_cells = machine.held_cells();
    let mut walk = Walk {
        cells: lent.cells.lent(),
        slots: slots(lent.dictionary.lent(), machine.dictionary.len()),
        machine,
        counts: held.iter().map(|one| (one.id, one.count)).collect(),
        matched: Matched::default(),
        tries: MOST_TRIES,
    };
    walk.places(lent)?;
    walk.handlers(lent.dictionary.lent())?;
    walk.latest(lent.dictionary.lent())?;
    walk.objects()?;
    let reached = walk.matched.objects.len();
    walk.circles(lent.unmarked)?;
    let (objects, cells) = (walk.matched.objects.len(), walk.matched.cells.len());
    if (objects, cells) != (held.len(), held_cells) {
        return Err(format!("{objects} objects of {cells} cells for {} of {held_cells}", held.len()));
    }
    let handlers = || walk.machine.handlers.iter().flatten();
    Ok(Shown {
        objects,
        circled: objects - reached,
        read_only: walk.matched.headers.keys().filter(|&id| walk.machine.read_only.contains(id)).count(),
        handlers: [handlers().count(), handlers().filter_map(|handler| handler.object()).count()],
    })
}

/// The names by their slots: a length, and the bytes, four to a word.
fn slots(words: &[u32], names: usize) -> HashMap<Vec<u8>, usize> {
    let name = |k: usize| -> Vec<u8> {
        let bytes = words[12 * k + 1..12 * k + 9].iter().flat_map(|word| word.to_le_bytes());
        bytes.take(words[12 * k] as usize).collect()
    };
    (0..names).map(|k| (name(k), k)).collect()
}

impl Walk<'_> {
    /// Stack items, execution slots and bindings.
    fn places(&mut self, lent: &Lent) -> Result<(), String> {
        let machine = self.machine;
        for (i, &value) in machine.stack.iter().enumerate() {
            self.place(lent.stack.lent(), 2 * i, value)?;
        }
        for (i, &frame) in machine.frames.iter().enumerate() {
            let value = match frame {
                Frame::Pending(value) => value,
                Frame::Running { array, .. } => Value::Array {
                    id: array,
                    executable: true,
                },
                Frame::Loop { body, .. } => body,
            };
            self.place(lent.exec.lent(), 8 * i + 1, value)?;
        }
        for entry in &machine.dictionary {
            let at = 12 * self.slot(&entry.name)? + 9;
            match entry.binding {
                Some(value) => self.place(lent.dictionary.lent(), at, value)?,
                None if lent.dictionary.lent()[at] == UNBOUND => {}
                None => return Err(format!("{:?} is bound", entry.name)),
            }
        }
        Ok(())
    }

    fn handlers(&mut self, words: &[u32]) -> Result<(), String> {
        for (j, (name, handler)) in error::NAMES.iter().zip(self.machine.handlers).enumerate() {
            let [tag, payload, slot] = ROW_WORDS.map(|at| words[ROW * j + at]);
            let Some(value) = handler else {
                if tag != UNBOUND {
                    return Err(format!("{name} has a handler"));
                }
                continue;
            };
            self.place(&[tag, payload], 0, value).map_err(|what| format!("handler of {name}: {what}"))?;
            if slot as usize != self.slot(name.as_bytes())? {
                return Err(format!("{name} is not in slot {slot}"));
            }
        }
        Ok(())
    }

    fn latest(&self, words: &[u32]) -> Result<(), String> {
        let latest = self.machine.latest;
        for (what, at, name) in [("errorname", ERRORNAME, latest.errorname), ("command", COMMAND, latest.command)] {
            let slot = |id: NameId| self.slot(&self.machine.dictionary[id].name);
            let expected = name.map_or(Ok(0), |id| slot(id).map(|slot| 1 + slot))?;
            if words[at] as usize != expected {
                return Err(format!("{what}: {} and not {expected}", words[at]));
            }
        }
        Ok(())
    }

    /// The objects met, and those that they name.
    fn objects(&mut self) -> Result<(), String> {
        while let Some((header, id)) = self.matched.waiting.pop() {
            self.object(header, id)?;
        }
        Ok(())
    }

    /// The held objects that have not been met.
    fn circles(&mut self, unmarked: bool) -> Result<(), String> {
        let headers: Vec<u32> = (0..self.cells.len() as u32 / 4).filter(|&c| self.is_left(c)).collect();
        let mut left: Vec<ObjectId> = self.counts.keys().copied().collect();
        left.retain(|id| !self.matched.headers.contains_key(id));
        if unmarked && headers.len() != left.len() {
            return Err(format!("{} headers for {} objects that no place leads to", headers.len(), left.len()));
        }
        // what leads to more comes first: most of the others are then met on the way
        left.sort_by_cached_key(|&id| (usize::MAX - self.reach(id), id));
        if !self.find(&left, &headers) {
            return Err(format!("no headers match the {} objects that no place leads to", left.len()));
        }
        Ok(())
    }

    /// Whether the cell is a header that has not been met.
    fn is_left(&self, c: u32) -> bool {
        self.cells[4 * c as usize + 3] >= HEADER_MARK && !self.matched.cells.contains(&c)
    }

    /// How many objects can be met from this one.
    fn reach(&self, id: ObjectId) -> usize {
        let mut met = HashSet::from([id]);
        let mut waiting = vec![id];
        while let Some(id) = waiting.pop() {
            if let Object::Array(elements) = &self.machine.store[id] {
                waiting.extend(elements.iter().filter_map(|element| element.object()).filter(|&id| met.insert(id)));
            }
        }
        met.len()
    }

    /// Matches each object with a header, where all match; alike ones are tried one after another.
    fn find(&mut self, left: &[ObjectId], headers: &[u32]) -> bool {
        let Some((&id, rest)) = left.split_first() else {
            return true;
        };
        if self.matched.headers.contains_key(&id) {
            return self.find(rest, headers);
        }
        for &header in headers {
            if self.matched.objects.contains_key(&header) || self.header(header, id).is_err() {
                continue;
            }
            if self.tries == 0 {
                return false;
            }
            self.tries -= 1;
            let before = self.matched.clone();
            if self.meet(header, id).is_ok() && self.objects().is_ok() && self.find(rest, headers) {
                return true;
            }
            self.matched = before;
        }
        false
    }

    fn slot(&self, name: &[u8]) -> Result<usize, String> {
        self.slots.get(name).copied().ok_or(format!("{name:?} has no slot"))
    }

    /// The two words at `at` are this value.
    fn place(&mut self, words: &[u32], at: usize, value: Value) -> Result<(), String> {
        let (tag, payload) = (words[at], words[at + 1]);
        let expected = match value {
            Value::Null => (0, payload),
            Value::Integer(number) => (1, number as u32),
            Value::Boolean(truth) => (2, truth.into()),
            Value::Mark => (3, payload),
            Value::Operator(operator) => (4, self.slot(operator.name().as_bytes())? as u32),
            Value::Name { id, executable } => {
                (5 + u32::from(executable), self.slot(&self.machine.dictionary[id].name)? as u32)
            }
            Value::String(id) => (STRING, self.meet(payload, id)?),
            Value::Array { id, executable } => (9 + u32::from(executable), self.meet(payload, id)?),
        };
        if (tag, payload) != expected {
            return Err(format!("words {tag} {payload} at {at} for {value:?}"));
        }
        Ok(())
    }

    fn meet(&mut self, header: u32, id: ObjectId) -> Result<u32, String> {
        let matched = &mut self.matched;
        let new = !matched.objects.contains_key(&header);
        let object = *matched.objects.entry(header).or_insert(id);
        if (object, *matched.headers.entry(id).or_insert(header)) != (id, header) {
            return Err(format!("header {header} and object {id} do not match one to one"));
        }
        if new {
            matched.waiting.push((header, id));
        }
        Ok(header)
    }

    fn cell(&self, c: u32) -> Result<&[u32], String> {
        let at = 4 * c as usize;
        self.cells.get(at..at + 4).ok_or(format!("cell {c} is not there"))
    }

    fn take(&mut self, c: u32) -> Result<(), String> {
        if !self.matched.cells.insert(c) {
            return Err(format!("cell {c} is shared"));
        }
        Ok(())
    }

    /// The number of body cells, where the header's words are this object's.
    fn header(&self, header: u32, id: ObjectId) -> Result<u32, String> {
        let words = self.cell(header)?;
        let shown = [words[0], words[1] % SIZE_UNIT, words[2]];
        let is_marked = self.machine.read_only.contains(&id);
        if (words[1] & READ_ONLY != 0) != is_marked {
            return Err(format!("header {words:?}, and the mark for read only is {is_marked}"));
        }
        let object = &self.machine.store[id];
        let kind = match object {
            Object::Array(_) => 0,
            Object::String(bytes) => 1 + bytes.len() as u32,
        };
        let count = self.counts.get(&id).copied().unwrap_or(0) as u32;
        let size = object.cells() as u32 - 1;
        if shown != [kind, size, count] || words[3] < HEADER_MARK {
            return Err(format!("header {words:?} for kind {kind}, {size} cells, count {count}"));
        }
        Ok(size)
    }

    fn object(&mut self, header: u32, id: ObjectId) -> Result<(), String> {
        let size = self.header(header, id)?;
        self.take(header)?;
        let object = &self.machine.store[id];
        let words = self.cell(header)?;
        let (first, side_by_side) = (words[3] % FIRST_UNIT, words[1] & SCATTERED == 0);
        let mut next = first;
        for q in 0..size as usize {
            if side_by_side && next.wrapping_add(q as u32) != first {
                return Err(format!("element {q} is in cell {next} and not {q} before {first}"));
            }
            let cell = self.cell(next)?.to_vec();
            self.take(next)?;
            match object {
                Object::Array(values) => self.place(&cell, 0, values[q])?,
                Object::String(bytes) => {
                    let held: Vec<u8> = cell[..2].iter().flat_map(|word| word.to_le_bytes()).collect();
                    let part = &bytes[8 * q..bytes.len().min(8 * q + 8)];
                    if held[..part.len()] != *part {
                        return Err(format!("bytes {held:?} for {part:?}"));
                    }
                }
            }
            next = cell[2];
        }
        Ok(())
    }
}
