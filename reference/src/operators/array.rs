//! Array and string operators (000, 6.7 and 6.8). Those on places take both kinds; "n of a string
//! is its maximum".

use super::count;
use crate::change::{Change, Write};
use crate::error::Error;
use crate::machine::Machine;
use crate::value::{Object, Value};

const LONGEST: usize = 32_767;

/// "Lengths below 0: rangecheck; over 32,767: limitcheck."
fn new_length(number: Value) -> Result<usize, Error> {
    let length = count(number.integer()?)?;
    if length > LONGEST {
        return Err(Error::Limitcheck);
    }
    Ok(length)
}

pub fn array(machine: &Machine, change: &mut Change) -> Result<(), Error> {
    let [number] = machine.operands()?;
    let elements = vec![Value::Null; new_length(number)?];
    let id = change.make(machine, Object::Array(elements));
    let executable = false;
    change.replace(1, [Value::Array { id, executable }]);
    Ok(())
}

/// "`string` makes one of zero bytes."
pub fn string(machine: &Machine, change: &mut Change) -> Result<(), Error> {
    let [number] = machine.operands()?;
    let bytes = vec![0; new_length(number)?];
    let id = change.make(machine, Object::String(bytes));
    change.replace(1, [Value::String(id)]);
    Ok(())
}

pub fn mark(_: &Machine, change: &mut Change) -> Result<(), Error> {
    change.push(Value::Mark);
    Ok(())
}

/// `]` takes the items above the topmost mark, and the mark.
pub fn close_bracket(machine: &Machine, change: &mut Change) -> Result<(), Error> {
    let mark = machine.stack.iter().rposition(|&item| item == Value::Mark);
    let mark = mark.ok_or(Error::Unmatchedmark)?;
    let elements = machine.stack[mark + 1..].to_vec();
    let pops = elements.len() + 1;
    let id = change.make(machine, Object::Array(elements));
    let executable = false;
    change.replace(pops, [Value::Array { id, executable }]);
    Ok(())
}

/// "length of a string is its current length."
pub fn length(machine: &Machine, change: &mut Change) -> Result<(), Error> {
    let length = match machine.operands()? {
        [Value::Array { id, .. }] => machine.elements(id).len(),
        [Value::String(id)] => machine.current_bytes(id).len(),
        _ => return Err(Error::Typecheck),
    };
    let length = i32::try_from(length).expect("no length passes 32,767");
    change.replace(1, [Value::Integer(length)]);
    Ok(())
}

/// In a string, "get at position n gives 0".
pub fn get(machine: &Machine, change: &mut Change) -> Result<(), Error> {
    let element = match machine.operands()? {
        [Value::Array { id, .. }, Value::Integer(place)] => {
            let elements = machine.elements(id);
            *elements.get(count(place)?).ok_or(Error::Rangecheck)?
        }
        [Value::String(id), Value::Integer(place)] => {
            let bytes = machine.bytes(id).iter().chain(&[0]);
            let byte = bytes.copied().nth(count(place)?);
            Value::Integer(byte.ok_or(Error::Rangecheck)?.into())
        }
        _ => return Err(Error::Typecheck),
    };
    change.replace(2, [element]);
    Ok(())
}

/// In a string, position n "accepts only 0", which changes nothing. "Stored bytes are 0 to 255,
/// else rangecheck."
pub fn put(machine: &Machine, change: &mut Change) -> Result<(), Error> {
    change.write = match machine.operands()? {
        [Value::Array { id, .. }, Value::Integer(place), object] => {
            machine.writable(id)?;
            let start = count(place)?;
            if start >= machine.elements(id).len() {
                return Err(Error::Rangecheck);
            }
            Some(Write::Elements {
                array: id,
                start,
                elements: vec![object],
            })
        }
        [Value::String(id), Value::Integer(place), Value::Integer(number)] => {
            machine.writable(id)?;
            let start = count(place)?;
            let byte = u8::try_from(number).map_err(|_| Error::Rangecheck)?;
            let maximum = machine.bytes(id).len();
            if start > maximum || (start == maximum && byte != 0) {
                return Err(Error::Rangecheck);
            }
            (start < maximum).then(|| Write::Bytes {
                string: id,
                start,
                bytes: vec![byte],
            })
        }
        _ => return Err(Error::Typecheck),
    };
    change.replace(3, []);
    Ok(())
}

/// The part of `all` from `start` that has `length` places (R66).
fn interval<T>(all: &[T], start: i32, length: i32) -> Result<&[T], Error> {
    let (start, length) = (count(start)?, count(length)?);
    all.get(start..start + length).ok_or(Error::Rangecheck)
}

/// "getinterval keeps" literal or executable; a string's zeros are copied too (R68).
pub fn getinterval(machine: &Machine, change: &mut Change) -> Result<(), Error> {
    let result = match machine.operands()? {
        [Value::Array { id, executable }, Value::Integer(start), Value::Integer(length)] => {
            let elements = interval(machine.elements(id), start, length)?.to_vec();
            let id = change.make(machine, Object::Array(elements));
            Value::Array { id, executable }
        }
        [Value::String(id), Value::Integer(start), Value::Integer(length)] => {
            let bytes = interval(machine.bytes(id), start, length)?.to_vec();
            Value::String(change.make(machine, Object::String(bytes)))
        }
        _ => return Err(Error::Typecheck),
    };
    change.replace(3, [result]);
    Ok(())
}

/// "two arrays or two strings"; "putinterval reads its whole source before it writes".
pub fn putinterval(machine: &Machine, change: &mut Change) -> Result<(), Error> {
    let write = match machine.operands()? {
        [Value::Array { id: array, .. }, Value::Integer(start), Value::Array { id: source, .. }] => {
            machine.writable(array)?;
            let elements = machine.elements(source).to_vec();
            let start = start_for(elements.len(), machine.elements(array).len(), start)?;
            Write::Elements {
                array,
                start,
                elements,
            }
        }
        [Value::String(string), Value::Integer(start), Value::String(source)] => {
            machine.writable(string)?;
            let bytes = machine.bytes(source).to_vec();
            let start = start_for(bytes.len(), machine.bytes(string).len(), start)?;
            Write::Bytes {
                string,
                start,
                bytes,
            }
        }
        _ => return Err(Error::Typecheck),
    };
    change.write = Some(write);
    change.replace(3, []);
    Ok(())
}

/// A start from which `length` places do not run outside the bounds of `room` (R67).
fn start_for(length: usize, room: usize, start: i32) -> Result<usize, Error> {
    let start = count(start)?;
    if start + length > room {
        return Err(Error::Rangecheck);
    }
    Ok(start)
}

pub fn aload(machine: &Machine, change: &mut Change) -> Result<(), Error> {
    let [array] = machine.operands()?;
    let elements = machine.elements(array.array()?);
    change.replace(1, elements.iter().copied().chain([array]));
    Ok(())
}

/// The elements are counted operands.
pub fn astore(machine: &Machine, change: &mut Change) -> Result<(), Error> {
    let [array] = machine.operands()?;
    let id = array.array()?;
    machine.writable(id)?;
    let items = machine.counted(machine.elements(id).len(), 1)?;
    change.write = Some(Write::Elements {
        array: id,
        start: 0,
        elements: items.to_vec(),
    });
    change.replace(items.len() + 1, [array]);
    Ok(())
}

/// "readonly sets it on the array or string on top, which stays" (02, W7).
pub fn readonly(machine: &Machine, change: &mut Change) -> Result<(), Error> {
    let [object] = machine.operands()?;
    change.marks.push(object.object().ok_or(Error::Typecheck)?);
    Ok(())
}
