//! Texts: echo, cvs, the outcome and its items (01, House rules and Outcome).

use crate::machine::Machine;
use crate::run::Ending;
use crate::token::{Kind, Reading, TokenAnswer};
use crate::value::Value;

/// Arrays at this nesting, the outermost being 1, are not opened.
const CLOSED_NESTING: usize = 5;

/// A text for the log. It may be cut off once it is longer than the log's rest: the step fails
/// then, and what an array shows can be far longer than any memory.
struct Text {
    bytes: Vec<u8>,
    rest: usize,
}

impl Text {
    fn new(machine: &Machine) -> Text {
        Text {
            bytes: Vec::new(),
            rest: machine.log_rest(),
        }
    }

    fn add(&mut self, text: impl AsRef<[u8]>) {
        self.bytes.extend_from_slice(text.as_ref());
    }

    fn is_too_long(&self) -> bool {
        self.bytes.len() > self.rest
    }
}

/// "echo writes one item and LF."
pub fn echo(machine: &Machine, value: Value) -> Vec<u8> {
    let mut text = Text::new(machine);
    show(machine, value, 1, &mut text);
    text.add("\n");
    text.bytes
}

/// "echostack all items with blanks between and LF."
pub fn echostack(machine: &Machine) -> Vec<u8> {
    let mut text = Text::new(machine);
    show_row(machine, &machine.stack, 1, &mut text);
    text.add("\n");
    text.bytes
}

fn show(machine: &Machine, value: Value, nesting: usize, text: &mut Text) {
    match value {
        Value::Integer(number) => text.add(number.to_string()),
        Value::Boolean(truth) => text.add(truth.to_string()),
        Value::Null => text.add("null"),
        Value::Mark => text.add("-mark-"),
        Value::Operator(operator) => text.add(format!("<operator:{}>", operator.name())),
        Value::Name { .. } => text.add(slashed_name(machine, value)),
        Value::String(id) => text.add(quoted(machine.current_bytes(id))),
        Value::Array { id, executable } => {
            let (open, close) = if executable { ("{", "}") } else { ("[", "]") };
            text.add(open);
            if nesting == CLOSED_NESTING {
                text.add("..");
            } else {
                show_row(machine, machine.elements(id), nesting + 1, text);
            }
            text.add(close);
        }
    }
}

fn show_row(machine: &Machine, values: &[Value], nesting: usize, text: &mut Text) {
    for (place, &value) in values.iter().enumerate() {
        if text.is_too_long() {
            return;
        }
        if place > 0 {
            text.add(" ");
        }
        show(machine, value, nesting, text);
    }
}

/// "`"` and byte 10 appear as `\"` and `\n`, other bytes outside 32 to 126, and backslash, as
/// three octal digits after a backslash."
fn quoted(bytes: &[u8]) -> Vec<u8> {
    let mut text = vec![b'"'];
    for &byte in bytes {
        match byte {
            b'"' => text.extend(b"\\\""),
            b'\n' => text.extend(b"\\n"),
            b'\\' => text.extend(octal(byte)),
            32..=126 => text.push(byte),
            _ => text.extend(octal(byte)),
        }
    }
    text.push(b'"');
    text
}

/// "Names escape bytes outside 33 to 126 and backslash in octal."
fn escaped_name(name: &[u8]) -> Vec<u8> {
    let mut text = Vec::new();
    for &byte in name {
        match byte {
            b'\\' => text.extend(octal(byte)),
            33..=126 => text.push(byte),
            _ => text.extend(octal(byte)),
        }
    }
    text
}

fn octal(byte: u8) -> Vec<u8> {
    format!("\\{byte:03o}").into_bytes()
}

/// A name as echo and items show it: "/x or x".
fn slashed_name(machine: &Machine, value: Value) -> Vec<u8> {
    let Value::Name { id, executable } = value else {
        unreachable!("only names are shown here");
    };
    let mut text = Vec::new();
    if !executable {
        text.push(b'/');
    }
    text.extend(escaped_name(&machine.dictionary[id].name));
    text
}

/// The text that cvs writes (000, 6.9).
pub fn cvs(machine: &Machine, value: Value) -> Vec<u8> {
    match value {
        Value::Integer(number) => number.to_string().into_bytes(),
        Value::Boolean(truth) => truth.to_string().into_bytes(),
        Value::String(id) => machine.current_bytes(id).to_vec(),
        Value::Name { id, .. } => machine.dictionary[id].name.clone(),
        _ => b"--nostringval--".to_vec(),
    }
}

/// The outcome's lines in their order (01, Outcome).
pub fn outcome(machine: &mut Machine, ending: &Ending) -> Vec<u8> {
    let place = match ending {
        Ending::Misread(fault) => fault.place(),
        _ => None,
    };
    let place = place.map_or(String::new(), |place| place.to_string());
    let (ending, error, command) = match ending {
        Ending::Finished => ("finished", "none", &[][..]),
        Ending::Stopped => ("stopped", "none", &[][..]),
        Ending::Error { error, command } => ("error", error.name(), &command[..]),
        Ending::Misread(fault) => ("error", fault.name(), &[][..]),
        Ending::Fuel => ("fuel", "none", &[][..]),
    };
    let mut text = format!("ending={ending}\nerror={error}\ncommand=").into_bytes();
    text.extend(escaped_name(command));
    let held = machine.held_cells();
    let numbers = format!(
        "\nat={}\nwhere={place}\nsteps={}\ndepth={}\nheld={}\nlog={}\n",
        machine.at,
        machine.steps,
        machine.stack.len(),
        held,
        machine.log.len()
    );
    text.extend(numbers.into_bytes());
    for &value in &machine.stack {
        text.extend(b"item=");
        text.extend(item(machine, value));
        text.push(b'\n');
    }
    text
}

fn item(machine: &Machine, value: Value) -> Vec<u8> {
    match value {
        Value::Integer(number) => format!("integer:{number}").into_bytes(),
        Value::Boolean(truth) => format!("boolean:{truth}").into_bytes(),
        Value::Null => b"null".to_vec(),
        Value::Mark => b"mark".to_vec(),
        Value::Operator(operator) => format!("operator:{}", operator.name()).into_bytes(),
        Value::Name { .. } => [&b"name:"[..], &slashed_name(machine, value)].concat(),
        Value::String(id) => {
            let (current, maximum) = (machine.current_bytes(id).len(), machine.bytes(id).len());
            format!("string:{current}/{maximum}").into_bytes()
        }
        Value::Array { id, executable } => {
            let kind = if executable { "procedure" } else { "array" };
            format!("{kind}:{}", machine.elements(id).len()).into_bytes()
        }
    }
}

/// The token reading in the form of the corpus: the part's bytes as they are.
pub fn token_line(reading: Reading) -> Vec<u8> {
    let mut line = match reading.answer {
        TokenAnswer::Refused(number) => format!("refused={number}").into_bytes(),
        TokenAnswer::Fault(fault) => match fault.place() {
            Some(place) => format!("{} {place}", fault.name()).into_bytes(),
            None => fault.name().as_bytes().to_vec(),
        },
        TokenAnswer::Kind(kind) => {
            let head = format!("kind={} next={} part=", kind_name(kind), reading.next);
            [head.as_bytes(), reading.part].concat()
        }
    };
    line.push(b'\n');
    line
}

fn kind_name(kind: Kind) -> &'static str {
    match kind {
        Kind::Integer => "integer",
        Kind::String => "string",
        Kind::LiteralName => "literalname",
        Kind::ExecutableName => "executablename",
        Kind::OpenBrace => "openbrace",
        Kind::CloseBrace => "closebrace",
        Kind::End => "end",
    }
}
