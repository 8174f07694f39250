use std::fmt;

/// A place in a script. Lines and columns count from 1.
///
/// ```
/// use floo::{position, Position};
///
/// let script = b"#FLOO\n3 frob";
/// assert_eq!(position(script, 8), Some(Position { line: 2, column: 3 }));
/// assert_eq!(position(script, 8).unwrap().to_string(), "line 2, column 3");
/// ```
#[derive(Clone, Copy, Debug, PartialEq, Eq, PartialOrd, Ord, Hash)]
pub struct Position {
    /// One more than the line breaks before it.
    pub line: usize,
    /// In bytes, whatever they are: a tab counts one.
    pub column: usize,
}

/// The line and the column of an offset in a script, as of [`TokenError::place`](crate::TokenError::place) and [`Report::place`](crate::Report::place). The script's
/// length has a place too, right after the last byte; a larger offset has none.
///
/// A line ends with CR LF, CR or LF, and these bytes are its last: the LF of a CR LF is one column past its CR.
///
/// ```
/// use floo::{position, token, TokenError};
///
/// let script = b"#FLOO\n/label {\n\t\"rack \\400\" print\n} def";
/// let error = token(script, 16).unwrap_err();
/// assert_eq!(error, TokenError::BadEscape(23));
/// assert_eq!(position(script, 23).unwrap().to_string(), "line 3, column 9");
/// ```
pub fn position(script: &[u8], offset: usize) -> Option<Position> {
    let mut line = 1;
    let mut start = 0;
    for (at, byte) in script.get(..offset)?.iter().enumerate() {
        let ends = match byte {
            b'\n' => true,
            b'\r' => script.get(at + 1) != Some(&b'\n'),
            _ => false,
        };
        if ends {
            line += 1;
            start = at + 1;
        }
    }
    Some(Position {
        line,
        column: offset - start + 1,
    })
}

impl fmt::Display for Position {
    fn fmt(&self, f: &mut fmt::Formatter<'_>) -> fmt::Result {
        write!(f, "line {}, column {}", self.line, self.column)
    }
}
