//! Arithmetic and boolean operators (000, 6.3). "add, sub, mul, neg, abs wrap at 32 bits." And pegs (02, W5).

use crate::change::Change;
use crate::error::Error;
use crate::machine::Machine;
use crate::value::Value;

/// *num* *num* => *num*
fn binary(
    machine: &Machine,
    change: &mut Change,
    rule: impl Fn(i32, i32) -> Result<i32, Error>,
) -> Result<(), Error> {
    let [first, second] = machine.operands()?;
    let (first, second) = (first.integer()?, second.integer()?);
    change.replace(2, [Value::Integer(rule(first, second)?)]);
    Ok(())
}

/// *num* => *num*
fn unary(machine: &Machine, change: &mut Change, rule: impl Fn(i32) -> i32) -> Result<(), Error> {
    let [number] = machine.operands()?;
    change.replace(1, [Value::Integer(rule(number.integer()?))]);
    Ok(())
}

/// *num* => *num*, by the pegs of a row: the places of the bits that are set, lowest first, "the sign bit being peg 31". Where
/// there is no such number, undefinedresult. The operator is given by its place among the three.
fn pegs(
    machine: &Machine,
    change: &mut Change,
    operator: usize,
    rule: impl Fn(&[i32]) -> Option<i32>,
) -> Result<(), Error> {
    let [row] = machine.operands()?;
    let row = row.integer()?;
    let set: Vec<i32> = (0..32).filter(|&peg| row >> peg & 1 == 1).collect();
    let number = rule(&set).ok_or(Error::Undefinedresult)?;
    change.replace(1, [Value::Integer(number)]);
    change.peg = Some((operator, number));
    Ok(())
}

/// *bool* *bool* => *bool* or *num* *num* => *num*: "two of one kind".
fn logical(
    machine: &Machine,
    change: &mut Change,
    truths: impl Fn(bool, bool) -> bool,
    numbers: impl Fn(i32, i32) -> i32,
) -> Result<(), Error> {
    let result = match machine.operands()? {
        [Value::Boolean(first), Value::Boolean(second)] => Value::Boolean(truths(first, second)),
        [Value::Integer(first), Value::Integer(second)] => Value::Integer(numbers(first, second)),
        _ => return Err(Error::Typecheck),
    };
    change.replace(2, [result]);
    Ok(())
}

pub fn add(machine: &Machine, change: &mut Change) -> Result<(), Error> {
    binary(machine, change, |a, b| Ok(a.wrapping_add(b)))
}

pub fn sub(machine: &Machine, change: &mut Change) -> Result<(), Error> {
    binary(machine, change, |a, b| Ok(a.wrapping_sub(b)))
}

pub fn mul(machine: &Machine, change: &mut Change) -> Result<(), Error> {
    binary(machine, change, |a, b| Ok(a.wrapping_mul(b)))
}

/// Rounds towards zero; "-2147483648 divided by -1 is itself, remainder 0".
pub fn idiv(machine: &Machine, change: &mut Change) -> Result<(), Error> {
    binary(machine, change, |a, b| match b {
        0 => Err(Error::Undefinedresult),
        _ => Ok(a.wrapping_div(b)),
    })
}

/// The sign is that of the first operand.
pub fn r#mod(machine: &Machine, change: &mut Change) -> Result<(), Error> {
    binary(machine, change, |a, b| match b {
        0 => Err(Error::Undefinedresult),
        _ => Ok(a.wrapping_rem(b)),
    })
}

pub fn abs(machine: &Machine, change: &mut Change) -> Result<(), Error> {
    unary(machine, change, i32::wrapping_abs)
}

pub fn neg(machine: &Machine, change: &mut Change) -> Result<(), Error> {
    unary(machine, change, i32::wrapping_neg)
}

/// Left for a positive shift, right for a negative one, logical both; "Shifts of 32 or more
/// either way give 0."
pub fn bitshift(machine: &Machine, change: &mut Change) -> Result<(), Error> {
    binary(machine, change, |number, shift| {
        let (bits, places) = (number.cast_unsigned(), shift.unsigned_abs());
        let shifted = if shift >= 0 {
            bits.checked_shl(places)
        } else {
            bits.checked_shr(places)
        };
        Ok(shifted.unwrap_or(0).cast_signed())
    })
}

/// "giving how many bits are set. For 0 ones gives 0."
pub fn ones(machine: &Machine, change: &mut Change) -> Result<(), Error> {
    pegs(machine, change, 0, |set| i32::try_from(set.len()).ok())
}

/// "giving the place of the lowest set bit"
pub fn lowpeg(machine: &Machine, change: &mut Change) -> Result<(), Error> {
    pegs(machine, change, 1, |set| set.first().copied())
}

pub fn highpeg(machine: &Machine, change: &mut Change) -> Result<(), Error> {
    pegs(machine, change, 2, |set| set.last().copied())
}

pub fn not(machine: &Machine, change: &mut Change) -> Result<(), Error> {
    let result = match machine.operands()? {
        [Value::Boolean(truth)] => Value::Boolean(!truth),
        [Value::Integer(number)] => Value::Integer(!number),
        _ => return Err(Error::Typecheck),
    };
    change.replace(1, [result]);
    Ok(())
}

pub fn and(machine: &Machine, change: &mut Change) -> Result<(), Error> {
    logical(machine, change, |a, b| a & b, |a, b| a & b)
}

pub fn or(machine: &Machine, change: &mut Change) -> Result<(), Error> {
    logical(machine, change, |a, b| a | b, |a, b| a | b)
}

pub fn xor(machine: &Machine, change: &mut Change) -> Result<(), Error> {
    logical(machine, change, |a, b| a ^ b, |a, b| a ^ b)
}
