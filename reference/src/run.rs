//! Steps and the run (01, Steps).

use crate::change::Change;
use crate::error::Error;
use crate::machine::{Frame, Machine, Repetition};
use crate::token::{skip_space, token_at, Content, Fault};
use crate::value::{NameId, Object, Value};

const DEEPEST_BRACES: usize = 16;

#[derive(Clone, Debug, PartialEq, Eq)]
pub enum Ending {
    Finished,
    Stopped,
    Error { error: Error, command: Vec<u8> },
    /// The step could not read its token.
    Misread(Fault),
    Fuel,
}

/// Why a step is the last one.
enum Failure {
    Error(Error),
    Fault(Fault),
}

impl From<Error> for Failure {
    fn from(error: Error) -> Failure {
        Failure::Error(error)
    }
}

impl From<Fault> for Failure {
    fn from(fault: Fault) -> Failure {
        Failure::Fault(fault)
    }
}

/// Takes steps until the run ends. The end of the script is looked for before fuel.
pub fn run_to_end(machine: &mut Machine, script: &[u8], fuel: u64) -> Ending {
    loop {
        if machine.frames.is_empty() && skip_space(script, machine.next) == script.len() {
            machine.at = script.len();
            return Ending::Finished;
        }
        if machine.steps == fuel {
            return Ending::Fuel;
        }
        if let Some(ending) = step(machine, script) {
            return ending;
        }
    }
}

/// One step; the ending if it is the last one.
fn step(machine: &mut Machine, script: &[u8]) -> Option<Ending> {
    let mut change = Change::new(machine);
    let checked = work_out(machine, script, &mut change)
        .and_then(|()| change.fits(machine).map_err(Failure::Error));
    machine.steps += 1;
    machine.at = change.at;
    match checked {
        Err(Failure::Fault(fault)) => return Some(Ending::Misread(fault)),
        Err(Failure::Error(error)) => {
            let (next, command) = (change.next, change.command);
            return fail(machine, error, next, command);
        }
        Ok(()) => {}
    }
    let stops = change.stops;
    change.apply(machine);
    stops.then_some(Ending::Stopped)
}

/// A step has failed (02, W1): "the stack stays as it was before the step, the script token,
/// object or repetition that failed counts as taken, both names are stored, and the handler
/// becomes pending". Without a handler, or "with no execution slot free" for it, the run ends.
fn fail(machine: &mut Machine, error: Error, next: usize, command: Vec<u8>) -> Option<Ending> {
    machine.meet_error(error, &command);
    let below = machine.frames.len().saturating_sub(1);
    let left = machine.frames.last().and_then(|top| top.passed());
    let is_free = below + usize::from(left.is_some()) < machine.sizes.exec;
    let Some(handler) = machine.handler(error).filter(|_| is_free) else {
        machine.meet_unhandled(error);
        return Some(Ending::Error { error, command });
    };
    machine.meet_handled(error, &command);
    machine.next = next;
    machine.frames.truncate(below);
    machine.frames.extend(left);
    machine.frames.push(Frame::Pending(handler));
    machine.latest.errorname = machine.note(error.name().as_bytes());
    machine.latest.command = machine.note(&command);
    None
}

/// Acts once on the top of the execution stack, which goes unless it enters again.
fn work_out(machine: &Machine, script: &[u8], change: &mut Change) -> Result<(), Failure> {
    let Some(&top) = machine.frames.last() else {
        return take_token(machine, script, change);
    };
    change.keep -= 1;
    match top {
        Frame::Pending(object) => Ok(execute(machine, object, change)?),
        Frame::Running { array, position } => {
            let Some(&object) = machine.elements(array).get(position) else {
                return Ok(());
            };
            let position = position + 1;
            change.enter.push(Frame::Running { array, position });
            Ok(take(machine, object, change)?)
        }
        Frame::Loop { repetition, body } => {
            if let Some(repetition) = repeat(repetition, change) {
                change.enter.push(Frame::Loop { repetition, body });
                change.enter.push(Frame::Pending(body));
            }
            Ok(())
        }
    }
}

/// An object from a procedure: "Executable names and operators are executed; all else, procedures
/// too, is pushed."
fn take(machine: &Machine, object: Value, change: &mut Change) -> Result<(), Error> {
    match object {
        Value::Array { .. } => {
            change.push(object);
            Ok(())
        }
        _ => execute(machine, object, change),
    }
}

/// A pending object, already removed.
fn execute(machine: &Machine, object: Value, change: &mut Change) -> Result<(), Error> {
    match object {
        Value::Name {
            id,
            executable: true,
        } => execute_name(machine, id, change),
        Value::Operator(operator) => {
            change.command = operator.name().as_bytes().to_vec();
            operator.rule()(machine, change)
        }
        Value::Array {
            id,
            executable: true,
        } => {
            change.enter.push(Frame::Running {
                array: id,
                position: 0,
            });
            Ok(())
        }
        _ => {
            change.push(object);
            Ok(())
        }
    }
}

/// "Executing a name makes its binding pending."
fn execute_name(machine: &Machine, name: NameId, change: &mut Change) -> Result<(), Error> {
    change.command = machine.dictionary[name].name.clone();
    let binding = machine.binding(name)?;
    change.enter.push(Frame::Pending(binding));
    Ok(())
}

/// What is left of a loop after one more repetition, or nothing if it is finished. Pushes the
/// number of a `for`; its next is "the ordinary sum, outside 32 bits if need be" (02, W6).
fn repeat(repetition: Repetition, change: &mut Change) -> Option<Repetition> {
    match repetition {
        Repetition::Forever => Some(repetition),
        Repetition::Times(left) => (left > 0).then(|| Repetition::Times(left - 1)),
        Repetition::For {
            number,
            increment,
            last,
        } => {
            let ended = if increment >= 0 {
                number > last.into()
            } else {
                number < last.into()
            };
            if ended {
                change.loop_end = Some(number);
                return None;
            }
            // between the first number and the last one, so that it has 32 bits
            change.push(Value::Integer(number as i32));
            Some(Repetition::For {
                number: number + i64::from(increment),
                increment,
                last,
            })
        }
    }
}

/// "With an empty execution stack the next script token is taken and treated as from a procedure."
/// Outside braces an unknown executable name is undefined and takes no slot.
fn take_token(machine: &Machine, script: &[u8], change: &mut Change) -> Result<(), Failure> {
    change.at = skip_space(script, machine.next);
    let token = token_at(script, change.at)?;
    change.next = token.next;
    if let Content::ExecutableName(name) = token.content {
        let Some(known) = machine.find_name(name) else {
            change.command = name.to_vec();
            return Err(Error::Undefined.into());
        };
        return Ok(execute_name(machine, known, change)?);
    }
    let start = change.at;
    let is_group = matches!(token.content, Content::OpenBrace);
    let object = object_of(machine, script, start, token.content, DEEPEST_BRACES, change)?;
    if is_group {
        change.mark_makes(machine);
    }
    change.push(object);
    Ok(())
}

/// The object that the token at `start` stands for. A brace group is read whole; `depth` more
/// braces may open.
fn object_of(
    machine: &Machine,
    script: &[u8],
    start: usize,
    content: Content,
    depth: usize,
    change: &mut Change,
) -> Result<Value, Fault> {
    match content {
        Content::Integer(number) => Ok(Value::Integer(number)),
        Content::String(bytes) => Ok(Value::String(change.make(machine, Object::String(bytes)))),
        Content::LiteralName(name) => Ok(Value::Name {
            id: change.name(machine, name),
            executable: false,
        }),
        Content::ExecutableName(name) => Ok(Value::Name {
            id: change.name(machine, name),
            executable: true,
        }),
        Content::OpenBrace => {
            let depth = depth.checked_sub(1).ok_or(Fault::Limitcheck)?;
            let elements = group(machine, script, start, depth, change)?;
            Ok(Value::Array {
                id: change.make(machine, Object::Array(elements)),
                executable: true,
            })
        }
        // A stray brace. At the script's end no token is taken.
        Content::CloseBrace | Content::End => Err(Fault::Badbrace(start)),
    }
}

/// The elements up to the brace that closes the one at `brace`, the tokens judged left to right.
fn group(
    machine: &Machine,
    script: &[u8],
    brace: usize,
    depth: usize,
    change: &mut Change,
) -> Result<Vec<Value>, Fault> {
    let mut elements = Vec::new();
    loop {
        let start = skip_space(script, change.next);
        let token = token_at(script, start)?;
        change.next = token.next;
        match token.content {
            Content::CloseBrace => return Ok(elements),
            Content::End => return Err(Fault::Badbrace(brace)),
            content => elements.push(object_of(machine, script, start, content, depth, change)?),
        }
    }
}
