//! What one step does to the machine. A step is worked out as a `Change` on the side, tested for
//! fit and only then applied, so a failing step changes nothing but the step count and `at`.

use crate::error::Error;
use crate::machine::{Entry, Frame, Machine};
use crate::value::{NameId, Object, ObjectId, Value};

/// New contents of a part of an array or a string.
pub enum Write {
    Elements {
        array: ObjectId,
        start: usize,
        elements: Vec<Value>,
    },
    Bytes {
        string: ObjectId,
        start: usize,
        bytes: Vec<u8>,
    },
}

pub struct Change {
    /// The offset of the script token last taken.
    pub at: usize,
    pub next: usize,
    /// The operator or executable name that the step executes, else empty.
    pub command: Vec<u8>,
    /// The execution slots that stay, counted from the bottom, and those that come on top.
    pub keep: usize,
    pub enter: Vec<Frame>,
    /// The stack items that go from the top, and those that come after.
    pub pops: usize,
    pub pushes: Vec<Value>,
    /// New names; their ids follow those of the dictionary.
    pub names: Vec<Vec<u8>>,
    /// New objects; their ids follow those of the store.
    pub makes: Vec<Object>,
    /// The objects that get the mark for read only.
    pub marks: Vec<ObjectId>,
    pub write: Option<Write>,
    pub binding: Option<(NameId, Value)>,
    /// A handler, by the place of its error's name.
    pub handler: Option<(usize, Value)>,
    pub text: Vec<u8>,
    pub stops: bool,
    /// The number on which a `for` ends, if one does.
    pub loop_end: Option<i64>,
    /// Which of ones, lowpeg and highpeg gives which number, if one does.
    pub peg: Option<(usize, i32)>,
}

impl Change {
    /// No change yet.
    pub fn new(machine: &Machine) -> Change {
        Change {
            at: machine.at,
            next: machine.next,
            command: Vec::new(),
            keep: machine.frames.len(),
            enter: Vec::new(),
            pops: 0,
            pushes: Vec::new(),
            names: Vec::new(),
            makes: Vec::new(),
            marks: Vec::new(),
            write: None,
            binding: None,
            handler: None,
            text: Vec::new(),
            stops: false,
            loop_end: None,
            peg: None,
        }
    }

    pub fn push(&mut self, value: Value) {
        self.pushes.push(value);
    }

    /// Puts `results` in the place of the top `pops` items.
    pub fn replace(&mut self, pops: usize, results: impl IntoIterator<Item = Value>) {
        self.pops = pops;
        self.pushes.extend(results);
    }

    /// The id of a name, which takes a slot if it has none.
    pub fn name(&mut self, machine: &Machine, name: &[u8]) -> NameId {
        if let Some(known) = machine.find_name(name) {
            return known;
        }
        let fresh = self.names.iter().position(|new| new == name);
        let place = fresh.unwrap_or_else(|| {
            self.names.push(name.to_vec());
            self.names.len() - 1
        });
        machine.dictionary.len() + place
    }

    pub fn make(&mut self, machine: &Machine, object: Object) -> ObjectId {
        self.makes.push(object);
        machine.store.len() + self.makes.len() - 1
    }

    /// "Whatever a brace group makes, itself included, has the mark from the start" (02, W7): all
    /// that the step makes which takes the group.
    pub fn mark_makes(&mut self, machine: &Machine) {
        let first = machine.store.len();
        self.marks.extend(first..first + self.makes.len());
    }

    /// The tests that only the state after the step decides, in the order of 01, "Order within a
    /// step", from the slots on.
    pub fn fits(&self, machine: &mut Machine) -> Result<(), Error> {
        let sizes = machine.sizes;
        if machine.dictionary.len() + self.names.len() > sizes.dictionary {
            return Err(Error::Limitcheck);
        }
        if self.keep + self.enter.len() > sizes.exec {
            return Err(Error::Execstackoverflow);
        }
        if machine.stack.len() - self.pops + self.pushes.len() > sizes.stack {
            return Err(Error::Stackoverflow);
        }
        let need = self.makes.iter().map(Object::cells).sum();
        if !machine.has_room(need) {
            return Err(Error::VMerror);
        }
        if self.text.len() > machine.log_rest() {
            return Err(Error::Ioerror);
        }
        Ok(())
    }

    /// Carries out a change that fits.
    pub fn apply(self, machine: &mut Machine) {
        machine.meet_part(&self.command);
        machine.next = self.next;
        machine.frames.truncate(self.keep);
        machine.frames.extend(self.enter);
        machine.stack.truncate(machine.stack.len() - self.pops);
        machine.stack.extend(self.pushes);
        machine
            .dictionary
            .extend(self.names.into_iter().map(|name| Entry {
                name,
                binding: None,
            }));
        for object in self.makes {
            machine.add_object(object);
        }
        machine.meet_marks(&self.command, &self.marks);
        machine.read_only.extend(self.marks);
        if let Some(write) = self.write {
            machine.meet_write(&write);
            carry_out(write, machine);
        }
        if let Some((name, value)) = self.binding {
            machine.dictionary[name].binding = Some(value);
        }
        if let Some((place, value)) = self.handler {
            machine.meet_handler(place);
            machine.handlers[place] = Some(value);
        }
        machine.log.extend(self.text);
        if let Some(end) = self.loop_end {
            machine.meet_loop_end(end);
        }
        if let Some((operator, number)) = self.peg {
            machine.meet_peg(operator, number);
        }
    }
}

fn carry_out(write: Write, machine: &mut Machine) {
    match write {
        Write::Elements {
            array,
            start,
            elements,
        } => {
            if let Object::Array(old) = &mut machine.store[array] {
                old[start..start + elements.len()].copy_from_slice(&elements);
            }
        }
        Write::Bytes {
            string,
            start,
            bytes,
        } => {
            if let Object::String(old) = &mut machine.store[string] {
                old[start..start + bytes.len()].copy_from_slice(&bytes);
            }
        }
    }
}
