//! Conversion operators (000, 6.9).

use crate::change::{Change, Write};
use crate::error::Error;
use crate::machine::Machine;
use crate::print;
use crate::token::LONGEST_NAME;
use crate::value::Value;

/// "cvs works out the text first, writes it, then a zero if room remains; longer than the
/// maximum: rangecheck."
pub fn cvs(machine: &Machine, change: &mut Change) -> Result<(), Error> {
    let [object, target] = machine.operands()?;
    let string = target.string()?;
    machine.writable(string)?;
    let maximum = machine.bytes(string).len();
    let mut bytes = print::cvs(machine, object);
    if bytes.len() > maximum {
        return Err(Error::Rangecheck);
    }
    if bytes.len() < maximum {
        bytes.push(0);
    }
    change.write = Some(Write::Bytes {
        string,
        start: 0,
        bytes,
    });
    change.replace(2, [target]);
    Ok(())
}

pub fn cvx(machine: &Machine, change: &mut Change) -> Result<(), Error> {
    let [object] = machine.operands()?;
    change.replace(1, [object.made(true)]);
    Ok(())
}

pub fn cvlit(machine: &Machine, change: &mut Change) -> Result<(), Error> {
    let [object] = machine.operands()?;
    change.replace(1, [object.made(false)]);
    Ok(())
}

/// A literal name of the current bytes, also of none (R78).
pub fn cvn(machine: &Machine, change: &mut Change) -> Result<(), Error> {
    let [string] = machine.operands()?;
    let name = machine.current_bytes(string.string()?);
    if name.len() > LONGEST_NAME {
        return Err(Error::Limitcheck);
    }
    let id = change.name(machine, name);
    let executable = false;
    change.replace(1, [Value::Name { id, executable }]);
    Ok(())
}
