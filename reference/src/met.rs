//! What random scripts are to reach, counted in the run. No rule looks at it.

use crate::change::Write;
use crate::error::{self, Error};
use crate::machine::{Frame, Machine, Repetition};
use crate::value::{ObjectId, Value};

/// How often each was met.
#[derive(Clone, Debug, Default)]
pub struct Met {
    /// `for` loops that ended on a number above 32 bits, and on one below (02, W6).
    pub loops_past: [usize; 2],
    /// Results of ones, lowpeg and highpeg, by the number (02, W5).
    pub pegs: [Counts; 3],
    /// Errors of lowpeg and of highpeg: undefinedresult.
    pub no_peg: [usize; 2],
    /// invalidaccess (02, W7), by what refused, in the order of `REFUSED`.
    pub refused: [usize; REFUSED.len()],
    /// Uses of readonly: on an object without the mark, and on one with it.
    pub marked: [usize; 2],
    /// Marked procedures whose elements bind has changed.
    pub bound: usize,
    /// Parts that getinterval made of marked objects.
    pub parts: usize,
    /// Handled errors (02, W1), by the place of the error's name and by what had failed, in the
    /// order of `TAKEN`.
    pub handled: [[usize; TAKEN.len()]; error::NAMES.len()],
    /// Of these, the numbers of a `for` after which the next one has left 32 bits.
    pub lost_past: usize,
    /// Of these, the ones that came while a handler was running.
    pub nested: usize,
    /// Of these, the ones whose command took a slot, and those where it found none.
    pub commands: [usize; 2],
    /// Errors with a handler for which no execution slot was free: execstackoverflow, and others.
    pub crowded: [usize; 2],
    /// Handlers that took the place of another, and of one that was running.
    pub replaced: [usize; 2],
}

/// What refuses a marked target, and of which kind.
pub const REFUSED: [&str; 6] = [
    "put into an array",
    "put into a string",
    "putinterval into an array",
    "putinterval into a string",
    "astore",
    "cvs",
];

/// A count for each of 0 to 32.
#[derive(Clone, Copy, Debug)]
pub struct Counts(pub [usize; 33]);

impl Default for Counts {
    fn default() -> Counts {
        Counts([0; 33])
    }
}

/// What a step takes: "the script token, object or repetition", an object being a pending one or an
/// element of a running procedure.
pub const TAKEN: [&str; 4] = ["script token", "pending object", "element", "repetition"];

/// Whether such a step can fail by such an error and find an execution slot for the handler.
/// Operators are pending or, after bind, elements. Of script tokens only names are executed, with
/// an empty execution stack; a repetition pushes the number of a `for`. Faults of tokens are not
/// handled, and execstackoverflow comes only where no slot is free.
pub fn can_be_handled(place: usize, taken: usize) -> bool {
    match (TAKEN[taken], error::NAMES[place]) {
        (_, "badnumber" | "badescape" | "openstring" | "badbrace" | "badbyte") => false,
        (_, "execstackoverflow") => false,
        ("script token", name) => {
            ["undefined", "limitcheck", "stackoverflow", "VMerror"].contains(&name)
        }
        ("repetition", name) => name == "stackoverflow",
        _ => true,
    }
}

impl Machine {
    pub fn meet_loop_end(&mut self, number: i64) {
        self.met.loops_past[0] += usize::from(number > i64::from(i32::MAX));
        self.met.loops_past[1] += usize::from(number < i64::from(i32::MIN));
    }

    pub fn meet_peg(&mut self, operator: usize, number: i32) {
        let number = usize::try_from(number).expect("from 0 to 32");
        self.met.pegs[operator].0[number] += 1;
    }

    /// A step has failed.
    pub fn meet_error(&mut self, error: Error, command: &[u8]) {
        if error == Error::Undefinedresult {
            self.met.no_peg[0] += usize::from(command == b"lowpeg");
            self.met.no_peg[1] += usize::from(command == b"highpeg");
        }
        if error == Error::Invalidaccess {
            let target = self.stack.iter().rev().nth(2);
            let is_string = usize::from(matches!(target, Some(Value::String(_))));
            let refused = match command {
                b"put" => is_string,
                b"putinterval" => 2 + is_string,
                b"astore" => 4,
                _ => 5,
            };
            self.met.refused[refused] += 1;
        }
    }

    /// A step is about to be carried out, and its operands are on the stack.
    pub fn meet_part(&mut self, command: &[u8]) {
        if command == b"getinterval" {
            let whole = self.stack.iter().rev().nth(2).and_then(|item| item.object());
            let is_marked = whole.is_some_and(|id| self.read_only.contains(&id));
            self.met.parts += usize::from(is_marked);
        }
    }

    /// Objects are about to get the mark for read only.
    pub fn meet_marks(&mut self, command: &[u8], marks: &[ObjectId]) {
        if command == b"readonly" {
            let again = marks.iter().any(|id| self.read_only.contains(id));
            self.met.marked[usize::from(again)] += 1;
        }
    }

    /// A part of an object is about to be written to; only bind writes to a marked one.
    pub fn meet_write(&mut self, write: &Write) {
        if let Write::Elements { array, elements, .. } = write {
            let is_marked = self.read_only.contains(array);
            self.met.bound += usize::from(is_marked && self.elements(*array) != elements);
        }
    }

    /// A handler is about to be set.
    pub fn meet_handler(&mut self, place: usize) {
        let old = self.handlers[place];
        let object = old.and_then(|handler| handler.object());
        let is_running = object.is_some_and(|id| self.is_running(id));
        self.met.replaced[0] += usize::from(old.is_some());
        self.met.replaced[1] += usize::from(is_running);
    }

    /// An error is about to end the run.
    pub fn meet_unhandled(&mut self, error: Error) {
        let other = usize::from(error != Error::Execstackoverflow);
        self.met.crowded[other] += usize::from(self.handler(error).is_some());
    }

    /// An error is about to be handled.
    pub fn meet_handled(&mut self, error: Error, command: &[u8]) {
        let taken = match self.frames.last() {
            None => 0,
            Some(Frame::Pending(_)) => 1,
            Some(Frame::Running { .. }) => 2,
            Some(Frame::Loop { .. }) => 3,
        };
        self.met.handled[error.place()][taken] += 1;
        if let Some(Frame::Loop {
            repetition: Repetition::For {
                number, increment, ..
            },
            ..
        }) = self.frames.last()
        {
            let next = number + i64::from(*increment);
            self.met.lost_past += usize::from(i32::try_from(next).is_err());
        }
        let objects = self
            .handlers
            .iter()
            .filter_map(|handler| (*handler)?.object());
        let is_nested = objects.into_iter().any(|id| self.is_running(id));
        self.met.nested += usize::from(is_nested);
        if !command.is_empty() && self.find_name(command).is_none() {
            let is_full = self.dictionary.len() == self.sizes.dictionary;
            self.met.commands[usize::from(is_full)] += 1;
        }
    }

    fn is_running(&self, object: ObjectId) -> bool {
        let runs =
            |frame: &Frame| matches!(frame, Frame::Running { array, .. } if *array == object);
        self.frames.iter().any(runs)
    }
}
