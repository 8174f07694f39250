//! Flow of control operators (000, 6.6; 01, Steps). An object to execute or repeat may be any.

use super::count;
use crate::change::Change;
use crate::error::Error;
use crate::machine::{Frame, Machine, Repetition};

pub fn exec(machine: &Machine, change: &mut Change) -> Result<(), Error> {
    let [object] = machine.operands()?;
    change.replace(1, []);
    change.enter.push(Frame::Pending(object));
    Ok(())
}

pub fn r#if(machine: &Machine, change: &mut Change) -> Result<(), Error> {
    let [truth, object] = machine.operands()?;
    if truth.boolean()? {
        change.enter.push(Frame::Pending(object));
    }
    change.replace(2, []);
    Ok(())
}

pub fn ifelse(machine: &Machine, change: &mut Change) -> Result<(), Error> {
    let [truth, if_true, if_false] = machine.operands()?;
    let object = if truth.boolean()? { if_true } else { if_false };
    change.replace(3, []);
    change.enter.push(Frame::Pending(object));
    Ok(())
}

pub fn r#loop(machine: &Machine, change: &mut Change) -> Result<(), Error> {
    let [body] = machine.operands()?;
    let repetition = Repetition::Forever;
    change.replace(1, []);
    change.enter.push(Frame::Loop { repetition, body });
    Ok(())
}

pub fn repeat(machine: &Machine, change: &mut Change) -> Result<(), Error> {
    let [times, body] = machine.operands()?;
    let times = times.integer()?;
    count(times)?;
    let repetition = Repetition::Times(times);
    change.replace(2, []);
    change.enter.push(Frame::Loop { repetition, body });
    Ok(())
}

pub fn r#for(machine: &Machine, change: &mut Change) -> Result<(), Error> {
    let [initial, increment, last, body] = machine.operands()?;
    let repetition = Repetition::For {
        number: initial.integer()?.into(),
        increment: increment.integer()?,
        last: last.integer()?,
    };
    change.replace(4, []);
    change.enter.push(Frame::Loop { repetition, body });
    Ok(())
}

/// "exit drops through the innermost loop"; with none it ends the run as stop does.
pub fn exit(machine: &Machine, change: &mut Change) -> Result<(), Error> {
    match innermost_loop(machine) {
        Some(place) => drop_to(place, change),
        None => change.stops = true,
    }
    Ok(())
}

/// "continue drops what is above it"; with no loop it ends the run as stop does.
pub fn r#continue(machine: &Machine, change: &mut Change) -> Result<(), Error> {
    match innermost_loop(machine) {
        Some(place) => drop_to(place + 1, change),
        None => change.stops = true,
    }
    Ok(())
}

/// "stop leaves the rest of the execution stack standing."
pub fn stop(_: &Machine, change: &mut Change) -> Result<(), Error> {
    change.stops = true;
    Ok(())
}

fn innermost_loop(machine: &Machine) -> Option<usize> {
    let is_loop = |frame: &Frame| matches!(frame, Frame::Loop { .. });
    machine.frames.iter().rposition(is_loop)
}

/// Leaves the lowest `keep` execution slots, also without the procedure that the operator is in.
fn drop_to(keep: usize, change: &mut Change) {
    change.keep = keep;
    change.enter.clear();
}
