//! Notes that help to mend a script: of an error, the operands, the places of the operator in the script, names that look alike, and how Floo writes what is
//! written otherwise in PostScript.

use floo::{token, ErrorName, Kind, Report, NAMES};

use crate::source::Source;
use crate::verdict::{short, stack};

/// Names of PostScript, and what Floo has for them.
const POSTSCRIPT: [(&str, &str); 10] = [
    ("=", "echo"),
    ("==", "echo"),
    ("pstack", "echostack"),
    ("stack", "echostack"),
    ("div", "idiv"),
    ("begin", "one dictionary, and def"),
    ("dict", "one dictionary, and def"),
    ("quit", "stop"),
    ("stopped", "onerror"),
    ("errordict", "onerror"),
];

pub fn of_fuel(report: &Report) -> Option<String> {
    (report.steps() < floo::FUEL_MAX).then(|| "--fuel lends more".to_owned())
}

pub fn of_error(source: &Source, report: &Report, error: ErrorName) -> Vec<String> {
    let mut notes = vec![];
    if let Some(place) = report.place() {
        notes.push(of_token(&source.bytes, place, error).to_owned());
        return notes;
    }
    if let Some(command) = report.command() {
        if error == ErrorName::Undefined {
            notes.extend(of_name(&source.bytes, command));
        } else {
            let items: Vec<String> = report.items().map(|item| short(&item)).collect();
            notes.push(match items.is_empty() {
                true => "the stack is empty".to_owned(),
                false => format!("the stack: {}", stack(&items)),
            });
        }
        if (command, error) == ("onerror", ErrorName::RangeCheck) {
            notes.push(
                "onerror wants the name of an error as it is told here, /undefined or /VMerror"
                    .to_owned(),
            );
        }
        if error == ErrorName::InvalidAccess {
            notes.push(
                "what braces make is read only, and what readonly was given; getinterval makes a copy that is not"
                    .to_owned(),
            );
        }
        notes.extend(of_procedure(source, report, command));
    }
    notes.extend(of_room(report, error));
    notes
}

fn of_token(script: &[u8], place: usize, error: ErrorName) -> &'static str {
    match (error, script.get(place)) {
        (ErrorName::BadNumber, _) => {
            "a number is decimal, or 0x and hex digits, with nothing right after it; there are no reals"
        }
        (ErrorName::BadEscape, _) => {
            "a string knows \\n, \\\", \\NNN in octal up to \\377, and a backslash before a line break; a backslash itself is \\134"
        }
        (ErrorName::OpenString, _) => {
            "no quote closes it in its line; a backslash before the line break goes on in the next"
        }
        (ErrorName::BadBrace, Some(b'{')) => "nothing closes this brace",
        (ErrorName::BadBrace, _) => "no brace is open here",
        (_, _) if place > 0 && script[place - 1] == b'/' => {
            "a slash needs a name right after it, and a number is none"
        }
        _ => "no token begins with this byte",
    }
}

fn of_name(script: &[u8], name: &str) -> Option<String> {
    if name.starts_with('(') {
        return Some("a string is written \"so\"".to_owned());
    }
    if name.starts_with('%') {
        return Some("a comment begins with #".to_owned());
    }
    if let Some((_, other)) = POSTSCRIPT.iter().find(|(old, _)| *old == name) {
        return Some(format!("Floo has {other}"));
    }
    let known = NAMES.into_iter().map(str::to_owned);
    let own = names(script).filter(|(kind, _, _)| *kind == Kind::LiteralName);
    let own = own.map(|(_, _, text)| String::from_utf8_lossy(text).into_owned());
    // one letter in a name of two to four, and two in a longer one
    let reach = name.len().div_ceil(3).min(2).min(name.len() - 1);
    let far = |other: &String| distance(name, other);
    let mut near: Vec<String> = known
        .chain(own)
        .filter(|other| far(other) <= reach)
        .collect();
    near.sort_by_key(|other| (far(other), other.clone()));
    near.dedup();
    near.retain(|other| other != name);
    let nearest = near.first().map(far)?;
    near.retain(|other| far(other) == nearest);
    near.truncate(3);
    Some(format!("is it {}?", near.join(" or ")))
}

/// Where the operator or name stands, if it is not the token itself that was taken last: in a procedure, then.
fn of_procedure(source: &Source, report: &Report, command: &str) -> Option<String> {
    let taken = token(&source.bytes, report.at()).ok()?;
    if taken.kind != Kind::ExecutableName || taken.part == command.as_bytes() {
        return None;
    }
    let runs = String::from_utf8_lossy(taken.part).into_owned();
    let places: Vec<String> = names(&source.bytes)
        .filter(|(kind, _, text)| *kind == Kind::ExecutableName && *text == command.as_bytes())
        .map(|(_, offset, _)| source.line_and_column(offset))
        .collect();
    let stands = match &places[..] {
        [] => String::new(),
        [one] => format!(" and stands at {one}"),
        [most @ .., last] if most.len() < 4 => {
            format!(" and stands at {} and {last}", most.join(", "))
        }
        many => format!(" and stands in {} places", many.len()),
    };
    let steps = report.steps();
    let first = steps.saturating_sub(8);
    Some(format!(
        "{command} is run by {runs}{stands}; --steps {first}..{steps} shows the last steps"
    ))
}

fn of_room(report: &Report, error: ErrorName) -> Option<String> {
    let (held, depth) = (report.held(), report.depth());
    Some(match error {
        ErrorName::StackOverflow => {
            format!("{depth} items are on the stack; --stack lends more slots")
        }
        ErrorName::ExecStackOverflow => "--exec lends more slots".to_owned(),
        ErrorName::VmError => format!("{held} cells are held; --cells lends more"),
        ErrorName::IoError => "--log lends more bytes".to_owned(),
        _ => return None,
    })
}

/// The names in a script with their offsets, up to its first fault.
fn names(script: &[u8]) -> impl Iterator<Item = (Kind, usize, &[u8])> {
    let mut offset = 0;
    std::iter::from_fn(move || loop {
        let found = token(script, offset).ok()?;
        offset = found.next;
        match found.kind {
            Kind::End => return None,
            Kind::LiteralName | Kind::ExecutableName => {
                return Some((found.kind, found.next - found.part.len(), found.part));
            }
            _ => {}
        }
    })
}

/// Letters to be changed, put in, left out, or exchanged with the next (optimal string alignment).
fn distance(one: &str, other: &str) -> usize {
    let (one, other) = (one.as_bytes(), other.as_bytes());
    let mut rows = vec![vec![0; other.len() + 1]; one.len() + 1];
    for i in 0..=one.len() {
        for j in 0..=other.len() {
            rows[i][j] = if i == 0 || j == 0 {
                i + j
            } else {
                let same = usize::from(one[i - 1] != other[j - 1]);
                let mut least = (rows[i - 1][j - 1] + same)
                    .min(rows[i - 1][j] + 1)
                    .min(rows[i][j - 1] + 1);
                if i > 1 && j > 1 && one[i - 1] == other[j - 2] && one[i - 2] == other[j - 1] {
                    least = least.min(rows[i - 2][j - 2] + 1);
                }
                least
            };
        }
    }
    rows[one.len()][other.len()]
}
