//! The machine's state: both stacks, the dictionary, the store of made objects and the log.

use std::collections::HashSet;

use crate::error::{self, Error};
use crate::met::Met;
use crate::operators::{self, Operator};
use crate::room::Room;
use crate::setup::Sizes;
use crate::value::{current, NameId, Object, ObjectId, Value};

/// A dictionary slot. A name met in a literal, a brace group or cvn has one, bound or not.
#[derive(Clone, Debug)]
pub struct Entry {
    pub name: Vec<u8>,
    pub binding: Option<Value>,
}

/// An execution slot (01, Steps).
#[derive(Clone, Copy, Debug)]
pub enum Frame {
    Pending(Value),
    Running { array: ObjectId, position: usize },
    Loop { repetition: Repetition, body: Value },
}

/// What is left of a loop.
#[derive(Clone, Copy, Debug)]
pub enum Repetition {
    Forever,
    Times(i32),
    /// The number may have left 32 bits: "the next number is the ordinary sum" (02, W6).
    For {
        number: i64,
        increment: i32,
        last: i32,
    },
}

/// The names that errorname and command push; none is null (02, W1).
#[derive(Clone, Copy, Debug, Default)]
pub struct Latest {
    pub errorname: Option<NameId>,
    pub command: Option<NameId>,
}

impl Frame {
    /// What is left of the slot when what it took has failed and "counts as taken": the object of
    /// a procedure, the repetition of a loop; a pending object leaves nothing.
    pub fn passed(self) -> Option<Frame> {
        match self {
            Frame::Pending(_) => None,
            Frame::Running { array, position } => Some(Frame::Running {
                array,
                position: position + 1,
            }),
            Frame::Loop { repetition, body } => Some(Frame::Loop {
                repetition: repetition.passed(),
                body,
            }),
        }
    }

    /// The made object that the slot names: "its pending object, running procedure or loop body".
    pub fn object(self) -> Option<ObjectId> {
        match self {
            Frame::Pending(object) => object.object(),
            Frame::Running { array, .. } => Some(array),
            Frame::Loop { body, .. } => body.object(),
        }
    }
}

impl Repetition {
    fn passed(self) -> Repetition {
        match self {
            Repetition::Forever => self,
            Repetition::Times(left) => Repetition::Times(left - 1),
            Repetition::For {
                number,
                increment,
                last,
            } => Repetition::For {
                number: number + i64::from(increment),
                increment,
                last,
            },
        }
    }
}

pub struct Machine {
    pub stack: Vec<Value>,
    pub frames: Vec<Frame>,
    pub dictionary: Vec<Entry>,
    /// By the place of the error's name in `error::NAMES`.
    pub handlers: [Option<Value>; error::NAMES.len()],
    pub latest: Latest,
    /// Every object ever made, in the order of making.
    pub store: Vec<Object>,
    /// The objects that carry the mark for read only (02, W7).
    pub read_only: HashSet<ObjectId>,
    pub log: Vec<u8>,
    /// Where the next script token is looked for.
    pub next: usize,
    pub at: usize,
    pub steps: u64,
    pub sizes: Sizes,
    pub room: Room,
    pub met: Met,
}

impl Machine {
    /// The start: "both stacks empty, the predefined names and no object".
    pub fn new(sizes: &Sizes) -> Machine {
        Machine {
            stack: Vec::new(),
            frames: Vec::new(),
            dictionary: predefined(),
            handlers: [None; error::NAMES.len()],
            latest: Latest::default(),
            store: Vec::new(),
            read_only: HashSet::new(),
            log: Vec::new(),
            next: 0,
            at: 0,
            steps: 0,
            sizes: *sizes,
            room: Room::default(),
            met: Met::default(),
        }
    }

    /// A string made and bound before step 1, to a name that has no slot yet (02, W3).
    pub fn lend(&mut self, name: &[u8], bytes: &[u8]) {
        let binding = Some(Value::String(self.store.len()));
        self.add_object(Object::String(bytes.to_vec()));
        let name = name.to_vec();
        self.dictionary.push(Entry { name, binding });
    }

    /// The top `N` stack items, bottom first: an operator's fixed operands.
    pub fn operands<const N: usize>(&self) -> Result<[Value; N], Error> {
        let top = self.stack.last_chunk::<N>();
        top.copied().ok_or(Error::Stackunderflow)
    }

    /// The `count` items below the top `fixed` ones: an operator's counted operands.
    pub fn counted(&self, count: usize, fixed: usize) -> Result<&[Value], Error> {
        let below = &self.stack[..self.stack.len() - fixed];
        let start = below.len().checked_sub(count);
        start
            .map(|start| &below[start..])
            .ok_or(Error::Stackunderflow)
    }

    pub fn find_name(&self, name: &[u8]) -> Option<NameId> {
        self.dictionary.iter().position(|entry| entry.name == name)
    }

    pub fn binding(&self, name: NameId) -> Result<Value, Error> {
        self.dictionary[name].binding.ok_or(Error::Undefined)
    }

    pub fn elements(&self, array: ObjectId) -> &[Value] {
        match &self.store[array] {
            Object::Array(elements) => elements,
            Object::String(_) => unreachable!("array values name arrays"),
        }
    }

    /// All bytes of a string, as many as its maximum.
    pub fn bytes(&self, string: ObjectId) -> &[u8] {
        match &self.store[string] {
            Object::String(bytes) => bytes,
            Object::Array(_) => unreachable!("string values name strings"),
        }
    }

    pub fn current_bytes(&self, string: ObjectId) -> &[u8] {
        current(self.bytes(string))
    }

    /// "put, putinterval, astore and cvs refuse a marked target" (02, W7).
    pub fn writable(&self, target: ObjectId) -> Result<(), Error> {
        if self.read_only.contains(&target) {
            return Err(Error::Invalidaccess);
        }
        Ok(())
    }

    pub fn handler(&self, error: Error) -> Option<Value> {
        self.handlers[error.place()]
    }

    /// "An unknown name takes its slot then, or is null if none is free"; so is the empty one,
    /// whose command line is empty.
    pub fn note(&mut self, name: &[u8]) -> Option<NameId> {
        if name.is_empty() {
            return None;
        }
        if let Some(known) = self.find_name(name) {
            return Some(known);
        }
        if self.dictionary.len() == self.sizes.dictionary {
            return None;
        }
        let (name, binding) = (name.to_vec(), None);
        self.dictionary.push(Entry { name, binding });
        Some(self.dictionary.len() - 1)
    }

    /// The bytes that can still be written to the log.
    pub fn log_rest(&self) -> usize {
        self.sizes.log - self.log.len()
    }
}

/// The operators under their names, and `[`, true, false and null.
fn predefined() -> Vec<Entry> {
    let entry = |name: &str, value| Entry {
        name: name.as_bytes().to_vec(),
        binding: Some(value),
    };
    let mut dictionary: Vec<Entry> = operators::all()
        .map(|operator| entry(operator.name(), Value::Operator(operator)))
        .collect();
    dictionary.push(entry("[", Value::Operator(Operator::MARK)));
    dictionary.push(entry("true", Value::Boolean(true)));
    dictionary.push(entry("false", Value::Boolean(false)));
    dictionary.push(entry("null", Value::Null));
    dictionary
}
