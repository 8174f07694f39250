//! Miscellaneous operators (000, 6.10) and print (R5).

use crate::change::Change;
use crate::error::Error;
use crate::machine::Machine;
use crate::print as texts;

pub fn echo(machine: &Machine, change: &mut Change) -> Result<(), Error> {
    let [object] = machine.operands()?;
    change.text = texts::echo(machine, object);
    change.replace(1, []);
    Ok(())
}

/// The stack is not changed.
pub fn echostack(machine: &Machine, change: &mut Change) -> Result<(), Error> {
    change.text = texts::echostack(machine);
    Ok(())
}

/// "print writes a string's current bytes."
pub fn print(machine: &Machine, change: &mut Change) -> Result<(), Error> {
    let [string] = machine.operands()?;
    change.text = machine.current_bytes(string.string()?).to_vec();
    change.replace(1, []);
    Ok(())
}
