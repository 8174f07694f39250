//! Relational operators (000, 6.4).

use crate::change::Change;
use crate::error::Error;
use crate::machine::Machine;
use crate::value::Value;

pub fn eq(machine: &Machine, change: &mut Change) -> Result<(), Error> {
    let [first, second] = machine.operands()?;
    change.replace(2, [Value::Boolean(equal(machine, first, second))]);
    Ok(())
}

pub fn ne(machine: &Machine, change: &mut Change) -> Result<(), Error> {
    let [first, second] = machine.operands()?;
    change.replace(2, [Value::Boolean(!equal(machine, first, second))]);
    Ok(())
}

/// Strings by their current bytes; arrays and names by identity, literal or executable ignored;
/// all else by value. Objects of different types are never equal (R73).
fn equal(machine: &Machine, first: Value, second: Value) -> bool {
    match (first, second) {
        (Value::String(a), Value::String(b)) => {
            machine.current_bytes(a) == machine.current_bytes(b)
        }
        _ => first.made(false) == second.made(false),
    }
}

/// *num* *num* => *bool*
fn compare(
    machine: &Machine,
    change: &mut Change,
    rule: impl Fn(i32, i32) -> bool,
) -> Result<(), Error> {
    let [first, second] = machine.operands()?;
    let (first, second) = (first.integer()?, second.integer()?);
    change.replace(2, [Value::Boolean(rule(first, second))]);
    Ok(())
}

pub fn lt(machine: &Machine, change: &mut Change) -> Result<(), Error> {
    compare(machine, change, |a, b| a < b)
}

pub fn le(machine: &Machine, change: &mut Change) -> Result<(), Error> {
    compare(machine, change, |a, b| a <= b)
}

pub fn gt(machine: &Machine, change: &mut Change) -> Result<(), Error> {
    compare(machine, change, |a, b| a > b)
}

pub fn ge(machine: &Machine, change: &mut Change) -> Result<(), Error> {
    compare(machine, change, |a, b| a >= b)
}
