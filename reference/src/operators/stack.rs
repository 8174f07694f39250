//! Stack operators (000, 6.2).

use super::count;
use crate::change::Change;
use crate::error::Error;
use crate::machine::Machine;

pub fn dup(machine: &Machine, change: &mut Change) -> Result<(), Error> {
    let [object] = machine.operands()?;
    change.replace(1, [object, object]);
    Ok(())
}

pub fn exch(machine: &Machine, change: &mut Change) -> Result<(), Error> {
    let [first, second] = machine.operands()?;
    change.replace(2, [second, first]);
    Ok(())
}

pub fn pop(machine: &Machine, change: &mut Change) -> Result<(), Error> {
    let [_] = machine.operands()?;
    change.replace(1, []);
    Ok(())
}

/// The item `distance` below the one under the count (R63).
pub fn index(machine: &Machine, change: &mut Change) -> Result<(), Error> {
    let [distance] = machine.operands()?;
    let distance = count(distance.integer()?)?;
    let items = machine.counted(distance + 1, 1)?;
    change.replace(1, [items[0]]);
    Ok(())
}

pub fn copy(machine: &Machine, change: &mut Change) -> Result<(), Error> {
    let [number] = machine.operands()?;
    let number = count(number.integer()?)?;
    let items = machine.counted(number, 1)?;
    change.replace(1, items.iter().copied());
    Ok(())
}

/// Item i goes to place (i + shift) mod n; "roll of 0 items does nothing" (R64).
pub fn roll(machine: &Machine, change: &mut Change) -> Result<(), Error> {
    let [number, shift] = machine.operands()?;
    let (number, shift) = (number.integer()?, shift.integer()?);
    let items = machine.counted(count(number)?, 2)?;
    let mut items = items.to_vec();
    if number > 0 {
        items.rotate_right(count(shift.rem_euclid(number))?);
    }
    change.replace(items.len() + 2, items);
    Ok(())
}
