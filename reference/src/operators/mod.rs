//! The operators (000, 6.2 to 6.10; R1; 02), a module for each section. A rule looks for its errors
//! in the order of 01, "Order within a step"; what the sizes decide is tested after it, in
//! `Change::fits`.

mod arithmetic;
mod array;
mod control;
mod conversion;
mod dictionary;
mod handler;
mod output;
mod relational;
mod stack;

use crate::change::Change;
use crate::error::Error;
use crate::machine::Machine;

pub type Rule = fn(&Machine, &mut Change) -> Result<(), Error>;

/// An operator is its place in the table. "Operators are equal if the same."
#[derive(Clone, Copy, Debug, PartialEq, Eq)]
pub struct Operator(usize);

const TABLE: &[(&str, Rule)] = &[
    // `[` is bound to it too (R2).
    ("mark", array::mark),
    ("dup", stack::dup),
    ("exch", stack::exch),
    ("pop", stack::pop),
    ("index", stack::index),
    ("copy", stack::copy),
    ("roll", stack::roll),
    ("add", arithmetic::add),
    ("sub", arithmetic::sub),
    ("mul", arithmetic::mul),
    ("idiv", arithmetic::idiv),
    ("mod", arithmetic::r#mod),
    ("abs", arithmetic::abs),
    ("neg", arithmetic::neg),
    ("bitshift", arithmetic::bitshift),
    ("not", arithmetic::not),
    ("and", arithmetic::and),
    ("or", arithmetic::or),
    ("xor", arithmetic::xor),
    ("eq", relational::eq),
    ("ne", relational::ne),
    ("lt", relational::lt),
    ("le", relational::le),
    ("gt", relational::gt),
    ("ge", relational::ge),
    ("def", dictionary::def),
    ("load", dictionary::load),
    ("bind", dictionary::bind),
    ("exec", control::exec),
    ("if", control::r#if),
    ("ifelse", control::ifelse),
    ("loop", control::r#loop),
    ("repeat", control::repeat),
    ("for", control::r#for),
    ("exit", control::exit),
    ("continue", control::r#continue),
    ("stop", control::stop),
    ("array", array::array),
    ("]", array::close_bracket),
    ("length", array::length),
    ("get", array::get),
    ("put", array::put),
    ("getinterval", array::getinterval),
    ("putinterval", array::putinterval),
    ("aload", array::aload),
    ("astore", array::astore),
    ("string", array::string),
    ("cvs", conversion::cvs),
    ("cvx", conversion::cvx),
    ("cvlit", conversion::cvlit),
    ("cvn", conversion::cvn),
    ("echo", output::echo),
    ("echostack", output::echostack),
    ("print", output::print),
    ("onerror", handler::onerror),
    ("errorname", handler::errorname),
    ("command", handler::command),
    ("ones", arithmetic::ones),
    ("lowpeg", arithmetic::lowpeg),
    ("highpeg", arithmetic::highpeg),
    ("readonly", array::readonly),
];

impl Operator {
    pub const MARK: Operator = Operator(0);

    pub fn name(self) -> &'static str {
        TABLE[self.0].0
    }

    pub fn rule(self) -> Rule {
        TABLE[self.0].1
    }
}

pub fn all() -> impl Iterator<Item = Operator> {
    (0..TABLE.len()).map(Operator)
}

/// "A negative count for repeat, index, copy or roll: rangecheck." Lengths and places too.
fn count(number: i32) -> Result<usize, Error> {
    usize::try_from(number).map_err(|_| Error::Rangecheck)
}
