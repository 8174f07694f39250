use std::error::Error;
use std::fmt;

use crate::exported;
use crate::{ErrorName, Refusal};

/// The kinds of tokens.
///
/// ```
/// use floo::{token, Kind};
///
/// assert_eq!(token(b"0x1F", 0).unwrap().kind, Kind::Integer);
/// assert_eq!(token(b" # no more\n", 0).unwrap().kind, Kind::End);
/// assert_eq!(Kind::LiteralName.to_string(), "literal name");
/// ```
#[derive(Clone, Copy, Debug, PartialEq, Eq, Hash)]
#[non_exhaustive]
pub enum Kind {
    /// `-7` or `0x1F`.
    Integer = 1,
    /// `"rack B-7"`.
    String = 2,
    /// `/place`.
    LiteralName = 3,
    /// `place`, and each bracket.
    ExecutableName = 4,
    /// `{`.
    OpenBrace = 5,
    /// `}`.
    CloseBrace = 6,
    /// Nothing but space and comment is left.
    End = 7,
}

/// In the paper's words.
impl fmt::Display for Kind {
    fn fmt(&self, f: &mut fmt::Formatter<'_>) -> fmt::Result {
        f.write_str(match self {
            Kind::Integer => "integer",
            Kind::String => "string",
            Kind::LiteralName => "literal name",
            Kind::ExecutableName => "executable name",
            Kind::OpenBrace => "open brace",
            Kind::CloseBrace => "close brace",
            Kind::End => "end",
        })
    }
}

const KINDS: [Kind; 7] = [
    Kind::Integer,
    Kind::String,
    Kind::LiteralName,
    Kind::ExecutableName,
    Kind::OpenBrace,
    Kind::CloseBrace,
    Kind::End,
];

/// A token of a script.
///
/// ```
/// let string = floo::token(b"#FLOO\n\"shelf\\n\" print", 6).unwrap();
/// assert_eq!((string.part, string.next), (&b"shelf\\n"[..], 15));
/// ```
#[derive(Clone, Copy, Debug, PartialEq, Eq)]
pub struct Token<'a> {
    /// What it is.
    pub kind: Kind,
    /// The offset after it: the script's length at the end.
    pub next: usize,
    /// Its own bytes, a part of the script: a string's without quotes, escapes unread, and a literal name's without its slash. Empty at the end.
    pub part: &'a [u8],
}

/// Why there is no token. Where bytes are none, with the offset in the script of the first one that could not be accepted, or the script's length if it ended first:
/// [`position`](crate::position) gives its line and column.
///
/// ```
/// use floo::{token, TokenError};
///
/// let error = token(b"1.5", 0).unwrap_err();
/// assert_eq!(error, TokenError::BadNumber(1));
/// assert_eq!(error.to_string(), "badnumber at offset 1");
/// ```
#[derive(Clone, Copy, Debug, PartialEq, Eq)]
#[non_exhaustive]
pub enum TokenError {
    /// The script is too long, or the offset exceeds its length.
    Refused(Refusal),
    /// The bytes begin as a number and are none.
    BadNumber(usize),
    /// No escape goes on so: the offset is that of the 4 in `\400`.
    BadEscape(usize),
    /// A line break or the script's end cuts a string short: the offset is that of its quote.
    OpenString(usize),
    /// The byte begins no token, or is after a slash and no name begins with it.
    BadByte(usize),
    /// A number or a name is over its limit.
    LimitCheck,
}

impl TokenError {
    /// The name that an outcome has for it, if the script was not refused.
    ///
    /// ```
    /// use floo::{token, ErrorName};
    ///
    /// assert_eq!(token(b"1.5", 0).unwrap_err().name(), Some(ErrorName::BadNumber));
    /// assert_eq!(token(b"1.5", 4).unwrap_err().name(), None);
    /// ```
    pub fn name(self) -> Option<ErrorName> {
        match self {
            TokenError::Refused(_) => None,
            TokenError::BadNumber(_) => Some(ErrorName::BadNumber),
            TokenError::BadEscape(_) => Some(ErrorName::BadEscape),
            TokenError::OpenString(_) => Some(ErrorName::OpenString),
            TokenError::BadByte(_) => Some(ErrorName::BadByte),
            TokenError::LimitCheck => Some(ErrorName::LimitCheck),
        }
    }

    /// The offset of the first byte that could not be accepted, if there is one.
    ///
    /// ```
    /// assert_eq!(floo::token(b"12 \"shelf", 2).unwrap_err().place(), Some(3));
    /// assert_eq!(floo::token(b"9999999999", 0).unwrap_err().place(), None);
    /// ```
    pub fn place(self) -> Option<usize> {
        match self {
            TokenError::BadNumber(place) | TokenError::BadEscape(place) => Some(place),
            TokenError::OpenString(place) | TokenError::BadByte(place) => Some(place),
            TokenError::Refused(_) | TokenError::LimitCheck => None,
        }
    }
}

/// Reads the next token of a script from an offset on, past space and comment. Does not look for `#FLOO`, nor whether braces match.
///
/// ```
/// use floo::{token, Kind};
///
/// let script = b"#FLOO\n/two 2 def";
/// let mut offset = 0;
/// let mut kinds = vec![];
/// loop {
///     let token = token(script, offset).unwrap();
///     kinds.push(token.kind);
///     if token.kind == Kind::End {
///         break;
///     }
///     offset = token.next;
/// }
/// assert_eq!(kinds, [Kind::LiteralName, Kind::Integer, Kind::ExecutableName, Kind::End]);
/// ```
pub fn token(script: &[u8], offset: usize) -> Result<Token<'_>, TokenError> {
    let reply = exported::token(script, offset);
    let place = reply.place as usize;
    match (reply.refused, reply.fault) {
        (0, 0) => Ok(Token {
            kind: KINDS[reply.kind as usize - 1],
            next: reply.next,
            part: &script[reply.start..reply.start + reply.size],
        }),
        (0, 2) => Err(TokenError::LimitCheck),
        (0, 13) => Err(TokenError::BadNumber(place)),
        (0, 14) => Err(TokenError::BadEscape(place)),
        (0, 15) => Err(TokenError::OpenString(place)),
        (0, 17) => Err(TokenError::BadByte(place)),
        (0, fault) => unreachable!("a token has no fault {fault}"),
        (number, _) => {
            let refusal = Refusal::from_number(number).expect("refusals have the numbers 1 to 10");
            Err(TokenError::Refused(refusal))
        }
    }
}

/// In the paper's words, with the offset.
impl fmt::Display for TokenError {
    fn fmt(&self, f: &mut fmt::Formatter<'_>) -> fmt::Result {
        match self {
            TokenError::Refused(refusal) => refusal.fmt(f),
            TokenError::BadNumber(place) => write!(f, "badnumber at offset {place}"),
            TokenError::BadEscape(place) => write!(f, "badescape at offset {place}"),
            TokenError::OpenString(place) => write!(f, "openstring at offset {place}"),
            TokenError::BadByte(place) => write!(f, "badbyte at offset {place}"),
            TokenError::LimitCheck => f.write_str("limitcheck"),
        }
    }
}

impl Error for TokenError {}
