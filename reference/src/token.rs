//! Tokens (01, Tokens), what can be wrong with them (02, W4) and the public token reading (01,
//! Setup).

use crate::setup;

pub const LONGEST_NAME: usize = 31;

/// What a token means to the runner.
#[derive(Debug, PartialEq, Eq)]
pub enum Content<'s> {
    Integer(i32),
    String(Vec<u8>),
    LiteralName(&'s [u8]),
    ExecutableName(&'s [u8]),
    OpenBrace,
    CloseBrace,
    End,
}

#[derive(Debug, PartialEq, Eq)]
pub struct Token<'s> {
    pub content: Content<'s>,
    /// The token's own bytes: a string's without quotes, a literal name's without its slash.
    pub part: &'s [u8],
    /// The offset after the token.
    pub next: usize,
}

/// What is wrong with a token: syntaxerror's five parts with "the offset of the first byte that
/// could not be accepted, limits aside", and limitcheck, which has none.
#[derive(Clone, Copy, Debug, PartialEq, Eq)]
pub enum Fault {
    Badnumber(usize),
    Badescape(usize),
    /// Its offset is the opening quote's.
    Openstring(usize),
    /// Its offset is that of the stray brace, or of the innermost open one.
    Badbrace(usize),
    Badbyte(usize),
    Limitcheck,
}

#[derive(Clone, Copy, Debug, PartialEq, Eq)]
pub enum Kind {
    Integer,
    String,
    LiteralName,
    ExecutableName,
    OpenBrace,
    CloseBrace,
    End,
}

#[derive(Clone, Copy, Debug, PartialEq, Eq)]
pub enum TokenAnswer {
    Kind(Kind),
    Refused(u8),
    Fault(Fault),
}

/// The answer of the public token reading.
#[derive(Clone, Copy, Debug, PartialEq, Eq)]
pub struct Reading<'s> {
    pub answer: TokenAnswer,
    pub next: usize,
    pub part: &'s [u8],
}

/// The next token of `script` at or after `offset`. Does not look for `#FLOO` nor at matching braces.
pub fn read_token(script: &[u8], offset: usize) -> Reading<'_> {
    let without_token = |answer| Reading {
        answer,
        next: offset,
        part: &[],
    };
    if script.len() > setup::LONGEST_SCRIPT {
        return without_token(TokenAnswer::Refused(1));
    }
    if offset > script.len() {
        return without_token(TokenAnswer::Refused(10));
    }
    match token_at(script, skip_space(script, offset)) {
        Err(fault) => without_token(TokenAnswer::Fault(fault)),
        Ok(token) => Reading {
            answer: TokenAnswer::Kind(token.content.kind()),
            next: token.next,
            part: token.part,
        },
    }
}

impl Fault {
    pub fn name(self) -> &'static str {
        match self {
            Fault::Badnumber(_) => "badnumber",
            Fault::Badescape(_) => "badescape",
            Fault::Openstring(_) => "openstring",
            Fault::Badbrace(_) => "badbrace",
            Fault::Badbyte(_) => "badbyte",
            Fault::Limitcheck => "limitcheck",
        }
    }

    pub fn place(self) -> Option<usize> {
        match self {
            Fault::Badnumber(place)
            | Fault::Badescape(place)
            | Fault::Openstring(place)
            | Fault::Badbrace(place)
            | Fault::Badbyte(place) => Some(place),
            Fault::Limitcheck => None,
        }
    }
}

impl Content<'_> {
    fn kind(&self) -> Kind {
        match self {
            Content::Integer(_) => Kind::Integer,
            Content::String(_) => Kind::String,
            Content::LiteralName(_) => Kind::LiteralName,
            Content::ExecutableName(_) => Kind::ExecutableName,
            Content::OpenBrace => Kind::OpenBrace,
            Content::CloseBrace => Kind::CloseBrace,
            Content::End => Kind::End,
        }
    }
}

/// The offset of the first byte at or after `offset` that is neither space nor comment.
pub fn skip_space(script: &[u8], mut offset: usize) -> usize {
    let mut in_comment = false;
    while let Some(&byte) = script.get(offset) {
        match byte {
            b'\n' | b'\r' => in_comment = false,
            b'#' => in_comment = true,
            b'\t' | b' ' => {}
            _ if in_comment => {}
            _ => break,
        }
        offset += 1;
    }
    offset
}

/// The token whose first byte is at `start`, where neither space nor comment begins.
pub fn token_at(script: &[u8], start: usize) -> Result<Token<'_>, Fault> {
    let Some(&first) = script.get(start) else {
        return Ok(Token {
            content: Content::End,
            part: &[],
            next: start,
        });
    };
    match first {
        b'{' => Ok(one_byte(script, start, |_| Content::OpenBrace)),
        b'}' => Ok(one_byte(script, start, |_| Content::CloseBrace)),
        b'[' | b']' => Ok(one_byte(script, start, Content::ExecutableName)),
        b'"' => string_at(script, start),
        b'/' => literal_name_at(script, start),
        _ if is_name_byte(first) => run_at(script, start),
        _ => Err(Fault::Badbyte(start)),
    }
}

fn one_byte<'s>(
    script: &'s [u8],
    start: usize,
    content: impl Fn(&'s [u8]) -> Content<'s>,
) -> Token<'s> {
    let part = &script[start..start + 1];
    Token {
        content: content(part),
        part,
        next: start + 1,
    }
}

fn is_name_byte(byte: u8) -> bool {
    matches!(byte, 33..=126) && !b"[]{}\"#/".contains(&byte)
}

/// The longest row of name bytes from `start`.
fn run_of_name_bytes(script: &[u8], start: usize) -> &[u8] {
    let rest = &script[start..];
    let length = rest.iter().take_while(|&&byte| is_name_byte(byte)).count();
    &rest[..length]
}

fn begins_number(run: &[u8]) -> bool {
    match run {
        [b'-', second, ..] => second.is_ascii_digit(),
        [first, ..] => first.is_ascii_digit(),
        [] => false,
    }
}

fn run_at(script: &[u8], start: usize) -> Result<Token<'_>, Fault> {
    let part = run_of_name_bytes(script, start);
    let content = if begins_number(part) {
        Content::Integer(number(part, start)?)
    } else {
        Content::ExecutableName(name(part)?)
    };
    Ok(Token {
        content,
        part,
        next: start + part.len(),
    })
}

/// "`/` needs a name byte next, not a number's beginning." `/-` is a name, so that in `/-5` the
/// digit is the first byte that could not be accepted.
fn literal_name_at(script: &[u8], start: usize) -> Result<Token<'_>, Fault> {
    let part = run_of_name_bytes(script, start + 1);
    if part.is_empty() || begins_number(part) {
        let accepted = usize::from(part.starts_with(b"-"));
        return Err(Fault::Badbyte(start + 1 + accepted));
    }
    Ok(Token {
        content: Content::LiteralName(name(part)?),
        part,
        next: start + 1 + part.len(),
    })
}

fn name(run: &[u8]) -> Result<&[u8], Fault> {
    if run.len() > LONGEST_NAME {
        return Err(Fault::Limitcheck);
    }
    Ok(run)
}

/// "Decimal, or `0x` and hex digits with no sign." The form is judged before the size (R22).
fn number(run: &[u8], start: usize) -> Result<i32, Fault> {
    if let Some(digits) = run.strip_prefix(b"0x") {
        let value = magnitude(digits, 16, start + 2)?;
        let value = u32::try_from(value).map_err(|_| Fault::Limitcheck)?;
        return Ok(value.cast_signed());
    }
    let value = match run.strip_prefix(b"-") {
        Some(digits) => -magnitude(digits, 10, start + 1)?,
        None => magnitude(run, 10, start)?,
    };
    i32::try_from(value).map_err(|_| Fault::Limitcheck)
}

/// The value of one or more digits, the first of them at `start`; it stays at the largest `i64`
/// where it would pass it.
fn magnitude(digits: &[u8], radix: u32, start: usize) -> Result<i64, Fault> {
    if digits.is_empty() {
        return Err(Fault::Badnumber(start));
    }
    let mut value: i64 = 0;
    for (place, &byte) in (start..).zip(digits) {
        let digit = char::from(byte)
            .to_digit(radix)
            .ok_or(Fault::Badnumber(place))?;
        value = value
            .saturating_mul(i64::from(radix))
            .saturating_add(i64::from(digit));
    }
    Ok(value)
}

/// A string from its opening quote at `start`.
fn string_at(script: &[u8], start: usize) -> Result<Token<'_>, Fault> {
    let mut bytes = Vec::new();
    let mut offset = start + 1;
    loop {
        match script.get(offset) {
            None | Some(b'\n' | b'\r') => return Err(Fault::Openstring(start)),
            Some(b'"') => break,
            Some(b'\\') => {
                let (meaning, length) = escape(script, offset + 1, start)?;
                bytes.extend(meaning);
                offset += 1 + length;
            }
            Some(&byte) => {
                bytes.push(byte);
                offset += 1;
            }
        }
    }
    Ok(Token {
        content: Content::String(bytes),
        part: &script[start + 1..offset],
        next: offset + 1,
    })
}

/// What follows a backslash, from `offset` on in the string that begins at `quote`: the byte it
/// stands for, none for a line break, and its length.
fn escape(script: &[u8], offset: usize, quote: usize) -> Result<(Option<u8>, usize), Fault> {
    match script[offset..] {
        [] => Err(Fault::Openstring(quote)),
        [b'n', ..] => Ok((Some(b'\n'), 1)),
        [b'"', ..] => Ok((Some(b'"'), 1)),
        [b'\r', b'\n', ..] => Ok((None, 2)),
        [b'\r' | b'\n', ..] => Ok((None, 1)),
        // no byte is 400 or more, so a first digit over 3 is the byte that could not be accepted
        [high @ b'0'..=b'3', ..] => {
            let middle = octal_digit(script, offset + 1, quote)?;
            let low = octal_digit(script, offset + 2, quote)?;
            Ok((Some((high - b'0') * 64 + middle * 8 + low), 3))
        }
        _ => Err(Fault::Badescape(offset)),
    }
}

/// The second or third digit of an octal escape. "A string cut short by a line break or the end,
/// in an escape too, is openstring at its quote."
fn octal_digit(script: &[u8], offset: usize, quote: usize) -> Result<u8, Fault> {
    match script.get(offset) {
        None | Some(b'\n' | b'\r') => Err(Fault::Openstring(quote)),
        Some(digit @ b'0'..=b'7') => Ok(digit - b'0'),
        Some(_) => Err(Fault::Badescape(offset)),
    }
}
