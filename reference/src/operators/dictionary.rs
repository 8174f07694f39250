//! Dictionary operators (000, 6.5). "def and load want a literal name."

use crate::change::{Change, Write};
use crate::error::Error;
use crate::machine::Machine;
use crate::value::Value;

pub fn def(machine: &Machine, change: &mut Change) -> Result<(), Error> {
    let [name, object] = machine.operands()?;
    change.binding = Some((name.literal_name()?, object));
    change.replace(2, []);
    Ok(())
}

pub fn load(machine: &Machine, change: &mut Change) -> Result<(), Error> {
    let [name] = machine.operands()?;
    let object = machine.binding(name.literal_name()?)?;
    change.replace(1, [object]);
    Ok(())
}

/// "bind wants a procedure and looks at its own elements only", and "still replaces names" where the procedure is read only (02, W7).
pub fn bind(machine: &Machine, change: &mut Change) -> Result<(), Error> {
    let [procedure] = machine.operands()?;
    let array = procedure.procedure()?;
    let elements = machine.elements(array).iter();
    change.write = Some(Write::Elements {
        array,
        start: 0,
        elements: elements.map(|&element| bound(machine, element)).collect(),
    });
    Ok(())
}

/// The operator that an executable name is bound to; all else stays (R74).
fn bound(machine: &Machine, element: Value) -> Value {
    let Value::Name {
        id,
        executable: true,
    } = element
    else {
        return element;
    };
    match machine.binding(id) {
        Ok(operator @ Value::Operator(_)) => operator,
        _ => element,
    }
}
