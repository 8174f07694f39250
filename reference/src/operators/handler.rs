//! Handlers for errors (02, W1).

use crate::change::Change;
use crate::error::{self, Error};
use crate::machine::Machine;
use crate::value::{NameId, Value};

/// "Takes a literal error name and an object", the name below; "on a name outside the runner's
/// errors" it "is rangecheck".
pub fn onerror(machine: &Machine, change: &mut Change) -> Result<(), Error> {
    let [name, object] = machine.operands()?;
    let name = &machine.dictionary[name.literal_name()?].name;
    let place = error::place_of(name).ok_or(Error::Rangecheck)?;
    change.handler = Some((place, object));
    change.replace(2, []);
    Ok(())
}

pub fn errorname(machine: &Machine, change: &mut Change) -> Result<(), Error> {
    change.push(literal_or_null(machine.latest.errorname));
    Ok(())
}

pub fn command(machine: &Machine, change: &mut Change) -> Result<(), Error> {
    change.push(literal_or_null(machine.latest.command));
    Ok(())
}

fn literal_or_null(name: Option<NameId>) -> Value {
    name.map_or(Value::Null, |id| Value::Name {
        id,
        executable: false,
    })
}
