//! Held objects and the room rule (01, Room).
//!
//! Held is the largest set of made objects each of which is named by a stack item, a binding, an
//! execution slot, a handler (02, W1) or an element of an array in the set (R89): start from all
//! objects, leave out what nothing names, repeat until nothing falls out.
//!
//! Two shortcuts give the same set. An object once not held is never held again: a step copies only
//! values from the stack, bindings, execution slots, handlers and elements of held arrays, and all
//! these name held objects or ones that the step makes. So the start need not be all objects, but
//! only the candidates: those held when held was last worked out, and those made since. And instead of
//! looking for names again after each object that falls out, the places that name each object are
//! counted once, and the elements of what falls out are taken off the counts.

use crate::machine::Machine;
use crate::value::{Object, ObjectId};

#[derive(Default)]
pub struct Room {
    /// Contains all held objects, in the order of making.
    candidates: Vec<ObjectId>,
    /// The cells of the candidates.
    cells: usize,
    /// For each object of the store, the places that named it when held was last worked out.
    counts: Vec<usize>,
}

/// A held object and the number of places that name it.
#[derive(Clone, Copy, Debug, PartialEq, Eq)]
pub struct Held {
    pub id: ObjectId,
    pub count: usize,
}

impl Machine {
    /// The room rule: whether `need` cells are free beside those of the objects held now. The
    /// candidates have at least the cells of the held ones, so most answers do not need held.
    pub fn has_room(&mut self, need: usize) -> bool {
        if self.room.cells + need > self.sizes.cells {
            self.work_out_held();
        }
        self.room.cells + need <= self.sizes.cells
    }

    pub fn add_object(&mut self, object: Object) {
        self.room.candidates.push(self.store.len());
        self.room.cells += object.cells();
        self.room.counts.push(0);
        self.store.push(object);
    }

    /// The held objects in the order of making.
    pub fn held(&mut self) -> Vec<Held> {
        self.work_out_held();
        let held = self.room.candidates.iter();
        held.map(|&id| Held {
            id,
            count: self.room.counts[id],
        })
        .collect()
    }

    /// The sum of the held objects' cells.
    pub fn held_cells(&mut self) -> usize {
        self.work_out_held();
        self.room.cells
    }

    /// Makes the candidates exactly the held objects.
    fn work_out_held(&mut self) {
        self.count_places();
        self.leave_out_unnamed();
        let counts = &self.room.counts;
        self.room.candidates.retain(|&id| counts[id] > 0);
        let held = self.room.candidates.iter();
        self.room.cells = held.map(|&id| self.store[id].cells()).sum();
    }

    /// Counts, for each candidate, the places that name it.
    fn count_places(&mut self) {
        let counts = &mut self.room.counts;
        for &id in &self.room.candidates {
            counts[id] = 0;
        }
        let items = self.stack.iter().filter_map(|item| item.object());
        let bindings = self
            .dictionary
            .iter()
            .filter_map(|entry| entry.binding?.object());
        let slots = self.frames.iter().filter_map(|frame| frame.object());
        let handlers = self
            .handlers
            .iter()
            .filter_map(|handler| (*handler)?.object());
        for id in items.chain(bindings).chain(slots).chain(handlers) {
            counts[id] += 1;
        }
        for &id in &self.room.candidates {
            if let Object::Array(elements) = &self.store[id] {
                for named in elements.iter().filter_map(|element| element.object()) {
                    counts[named] += 1;
                }
            }
        }
    }

    /// Takes the elements of each candidate that nothing names off the counts, until nothing more
    /// falls out. The store keeps the object's place; its contents, which no step can reach again,
    /// are dropped so that a long run needs no more memory than the lent cells.
    fn leave_out_unnamed(&mut self) {
        let counts = &mut self.room.counts;
        let mut unnamed = self.room.candidates.clone();
        unnamed.retain(|&id| counts[id] == 0);
        while let Some(id) = unnamed.pop() {
            let gone = std::mem::replace(&mut self.store[id], Object::String(Vec::new()));
            let Object::Array(elements) = gone else {
                continue;
            };
            for named in elements.iter().filter_map(|element| element.object()) {
                counts[named] -= 1;
                if counts[named] == 0 {
                    unnamed.push(named);
                }
            }
        }
    }
}
