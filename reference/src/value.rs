//! What stands on the stack, in bindings and in arrays (000, chapter 2), and the made objects.

use crate::error::Error;
use crate::operators::Operator;

/// The place of a made object in the store.
pub type ObjectId = usize;

/// The place of a name in the dictionary. Names are found by their bytes, so equal names have one id.
pub type NameId = usize;

/// "Literal or executable belongs to the reference, not the array" (01, House rules).
#[derive(Clone, Copy, Debug, PartialEq, Eq)]
pub enum Value {
    Integer(i32),
    Boolean(bool),
    Null,
    Mark,
    Operator(Operator),
    Name { id: NameId, executable: bool },
    String(ObjectId),
    Array { id: ObjectId, executable: bool },
}

impl Value {
    pub fn integer(self) -> Result<i32, Error> {
        match self {
            Value::Integer(number) => Ok(number),
            _ => Err(Error::Typecheck),
        }
    }

    pub fn boolean(self) -> Result<bool, Error> {
        match self {
            Value::Boolean(truth) => Ok(truth),
            _ => Err(Error::Typecheck),
        }
    }

    pub fn string(self) -> Result<ObjectId, Error> {
        match self {
            Value::String(id) => Ok(id),
            _ => Err(Error::Typecheck),
        }
    }

    /// "An array may be a procedure" (01, House rules).
    pub fn array(self) -> Result<ObjectId, Error> {
        match self {
            Value::Array { id, .. } => Ok(id),
            _ => Err(Error::Typecheck),
        }
    }

    pub fn procedure(self) -> Result<ObjectId, Error> {
        match self {
            Value::Array {
                id,
                executable: true,
            } => Ok(id),
            _ => Err(Error::Typecheck),
        }
    }

    pub fn literal_name(self) -> Result<NameId, Error> {
        match self {
            Value::Name {
                id,
                executable: false,
            } => Ok(id),
            _ => Err(Error::Typecheck),
        }
    }

    /// The same reference made literal or executable; other kinds are not affected (000, 6.9).
    pub fn made(self, executable: bool) -> Value {
        match self {
            Value::Name { id, .. } => Value::Name { id, executable },
            Value::Array { id, .. } => Value::Array { id, executable },
            other => other,
        }
    }

    /// The made object that this value names, if any.
    pub fn object(self) -> Option<ObjectId> {
        match self {
            Value::String(id) | Value::Array { id, .. } => Some(id),
            _ => None,
        }
    }
}

/// "Only these are made objects" (01, Room). A string holds as many bytes as its maximum.
#[derive(Clone, Debug, PartialEq, Eq)]
pub enum Object {
    Array(Vec<Value>),
    String(Vec<u8>),
}

impl Object {
    /// "An array of n takes n + 1 cells, a string of maximum m takes 1 + m/8 cells, rounded up."
    pub fn cells(&self) -> usize {
        match self {
            Object::Array(elements) => elements.len() + 1,
            Object::String(bytes) => 1 + bytes.len().div_ceil(8),
        }
    }
}

/// A string's current bytes: those before the first zero (000, 6.8).
pub fn current(bytes: &[u8]) -> &[u8] {
    match bytes.iter().position(|&byte| byte == 0) {
        Some(end) => &bytes[..end],
        None => bytes,
    }
}
