//! `--tokens`: every token of a script, up to its end or its first fault. Nothing is run, and braces need not match.

use floo::{token, Kind, TokenError};

use crate::excerpt::printable;
use crate::message::Message;
use crate::screen::Screen;
use crate::source::Source;
use crate::{status, Answer};

/// A line for each: its line and column, its kind, and the token as it is written.
pub fn list(source: &Source, screen: &mut Screen) -> Answer {
    let script = &source.bytes;
    let mut lines = String::new();
    let mut offset = 0;
    let fault = loop {
        match token(script, offset) {
            Ok(found) if found.kind == Kind::End => break None,
            Ok(found) => {
                let start = found.next - width(found.kind, found.part.len());
                let place = source.line_and_column(start);
                let text = printable(&script[start..found.next]);
                lines += &format!("{place:<8} {:<16} {text}\n", found.kind.to_string());
                offset = found.next;
            }
            Err(fault) => break Some(fault),
        }
    };
    let Some(fault) = fault else {
        screen.print(lines.as_bytes())?;
        return Ok(status::FINISHED);
    };
    if let TokenError::Refused(refusal) = fault {
        return Err(Message::at(&source.name, refusal.to_string()).into());
    }
    screen.print(lines.as_bytes())?;
    // a limitcheck has no place of its own, and is shown where its token begins
    let place = fault.place().unwrap_or(source.skip_blank(offset));
    let name = fault.name().map(|name| name.to_string());
    screen.say(&source.message(place, name.unwrap_or_default()));
    Ok(status::ERROR)
}

/// Bytes of a token as it is written: a string has its quotes, a literal name its slash.
fn width(kind: Kind, part: usize) -> usize {
    part + match kind {
        Kind::String => 2,
        Kind::LiteralName => 1,
        _ => 0,
    }
}
