//! The ledger to and from the buying office (02, W11): the book of W3 written by RFC 4180, and read
//! back. L1 to L17 are the settled readings (W11.1 to W11.17 of ../docs/DECISIONS.md).

use std::collections::BTreeSet;

use crate::floor::{is_sound, room, Record, GREATEST, LONGEST_PLACE};

const HEADER: &[u8] = b"socket,place,time";
const LINE_BREAK: &[u8] = b"\r\n";

/// The refusals in the paper's order, of which the first and the last are of writing.
#[derive(Clone, Copy, Debug, PartialEq, Eq, PartialOrd, Ord)]
pub enum Refusal {
    BookMalformed,
    BadHeader,
    BadQuoting,
    FieldCount,
    BadNumber,
    BadPlace,
    SocketTwice,
    TooMany,
    TooShort,
}

pub const REFUSALS: [Refusal; 9] = [
    Refusal::BookMalformed,
    Refusal::BadHeader,
    Refusal::BadQuoting,
    Refusal::FieldCount,
    Refusal::BadNumber,
    Refusal::BadPlace,
    Refusal::SocketTwice,
    Refusal::TooMany,
    Refusal::TooShort,
];

impl Refusal {
    /// In the paper's words.
    pub fn words(self) -> &'static str {
        match self {
            Refusal::BookMalformed => "book malformed",
            Refusal::BadHeader => "bad header",
            Refusal::BadQuoting => "bad quoting",
            Refusal::FieldCount => "wrong field count",
            Refusal::BadNumber => "bad number",
            Refusal::BadPlace => "place not 1 to 31 bytes",
            Refusal::SocketTwice => "socket twice",
            Refusal::TooMany => "more records than room",
            Refusal::TooShort => "lent text too short",
        }
    }
}

/// Writes the first `count` records into the lent text; how many bytes were written. A refusal
/// writes nothing.
pub fn write(book: &[Record], count: usize, lent: &mut [u8]) -> Result<usize, Refusal> {
    if !is_sound(book, count) {
        return Err(Refusal::BookMalformed);
    }
    let text = text_of(&book[..count]);
    let room = lent.get_mut(..text.len()).ok_or(Refusal::TooShort)?;
    room.copy_from_slice(&text);
    Ok(text.len())
}

/// "with a header `socket,place,time` and CRLF after each line"
fn text_of(records: &[Record]) -> Vec<u8> {
    let mut text = [HEADER, LINE_BREAK].concat();
    for record in records {
        let place = quoted(&record.place[..record.length as usize]);
        text.extend(record.number.to_string().bytes());
        text.push(b',');
        text.extend(place);
        text.push(b',');
        text.extend(record.time.to_string().bytes());
        text.extend(LINE_BREAK);
    }
    text
}

/// "A place with a comma, a quote or a line break is quoted, quotes are doubled, no other field is."
fn quoted(place: &[u8]) -> Vec<u8> {
    if !place.iter().any(|byte| b",\"\r\n".contains(byte)) {
        return place.to_vec();
    }
    let mut field = vec![b'"'];
    for &byte in place {
        if byte == b'"' {
            field.push(b'"');
        }
        field.push(byte);
    }
    field.push(b'"');
    field
}

/// Reads a text, whose records replace the first of the book; how many there are. A refusal changes
/// nothing.
pub fn read(text: &[u8], book: &mut [Record]) -> Result<usize, Refusal> {
    let records = records_in(text, room(book))?;
    book[..records.len()].copy_from_slice(&records);
    Ok(records.len())
}

/// The records of a text. "each is looked for in the whole text before the next"
fn records_in(text: &[u8], room: usize) -> Result<Vec<Record>, Refusal> {
    let lines = split_lines(after_header(text)?)?;
    let rows: Vec<&[Vec<u8>; 3]> = lines
        .iter()
        .map(|fields| fields[..].try_into().map_err(|_| Refusal::FieldCount))
        .collect::<Result<_, _>>()?;
    let numbers: Vec<(u32, u32)> = rows
        .iter()
        .map(|[number, _, time]| Some((number_in(number)?, number_in(time)?)))
        .collect::<Option<_>>()
        .ok_or(Refusal::BadNumber)?;
    if rows
        .iter()
        .any(|[_, place, _]| !(1..=LONGEST_PLACE).contains(&place.len()))
    {
        return Err(Refusal::BadPlace);
    }
    let mut sockets = BTreeSet::new();
    if !numbers.iter().all(|&(number, _)| sockets.insert(number)) {
        return Err(Refusal::SocketTwice);
    }
    if rows.len() > room {
        return Err(Refusal::TooMany);
    }
    Ok(rows
        .iter()
        .zip(numbers)
        .map(|([_, place, _], (number, time))| {
            Record::new(number, place, time).expect("the place has 1 to 31 bytes")
        })
        .collect())
}

/// "bad header (not exactly those bytes, then CRLF or the end)"
fn after_header(text: &[u8]) -> Result<&[u8], Refusal> {
    let rest = text.strip_prefix(HEADER).ok_or(Refusal::BadHeader)?;
    if rest.is_empty() {
        return Ok(rest);
    }
    rest.strip_prefix(LINE_BREAK).ok_or(Refusal::BadHeader)
}

/// The fields of each line. A line ends at CRLF or at the end of the text, which begins no line.
fn split_lines(mut rest: &[u8]) -> Result<Vec<Vec<Vec<u8>>>, Refusal> {
    let mut lines = Vec::new();
    while !rest.is_empty() {
        let mut fields = Vec::new();
        loop {
            let (field, after) = field_of(rest)?;
            fields.push(field);
            if let Some(more) = after.strip_prefix(b",") {
                rest = more;
            } else if let Some(more) = after.strip_prefix(LINE_BREAK) {
                rest = more;
                break;
            } else if after.is_empty() {
                rest = after;
                break;
            } else {
                return Err(Refusal::BadQuoting);
            }
        }
        lines.push(fields);
    }
    Ok(lines)
}

/// The first field's bytes, without its quotes, and the text from where it ends.
fn field_of(text: &[u8]) -> Result<(Vec<u8>, &[u8]), Refusal> {
    let Some(mut rest) = text.strip_prefix(b"\"") else {
        let ends = |byte: &u8| b",\"\r\n".contains(byte);
        let end = text.iter().position(ends).unwrap_or(text.len());
        return Ok((text[..end].to_vec(), &text[end..]));
    };
    let mut field = Vec::new();
    loop {
        let quote = rest
            .iter()
            .position(|&byte| byte == b'"')
            .ok_or(Refusal::BadQuoting)?;
        field.extend(&rest[..quote]);
        rest = &rest[quote + 1..];
        match rest.strip_prefix(b"\"") {
            Some(more) => {
                field.push(b'"');
                rest = more;
            }
            None => return Ok((field, rest)),
        }
    }
}

/// "bad number (not one or more digits, or over 2147483647)": zeros may lead, as many as there are.
fn number_in(field: &[u8]) -> Option<u32> {
    if field.is_empty() || !field.iter().all(u8::is_ascii_digit) {
        return None;
    }
    let zeros = field.iter().take_while(|&&byte| byte == b'0').count();
    let digits = &field[zeros..];
    if digits.len() > 10 {
        return None;
    }
    let value = digits
        .iter()
        .fold(0, |value, byte| 10 * value + u64::from(byte - b'0'));
    u32::try_from(value)
        .ok()
        .filter(|&number| number <= GREATEST)
}

/// The answer to a writing, in the form of the corpus.
pub fn written_words(answer: Result<usize, Refusal>) -> String {
    match answer {
        Ok(_) => "written\n".to_owned(),
        Err(refusal) => format!("{}\n", refusal.words()),
    }
}

/// The answer to a reading, in the form of the corpus.
pub fn read_words(answer: Result<usize, Refusal>) -> String {
    match answer {
        Ok(records) => format!("records read: {records}\n"),
        Err(refusal) => format!("{}\n", refusal.words()),
    }
}
