use std::error::Error;
use std::fmt;

/// How a run ended: the outcome's line `ending`.
///
/// ```
/// use floo::{Ending, Runner, Sizes};
///
/// let mut runner = Runner::new(Sizes::default());
/// assert_eq!(runner.run(b"#FLOO\n1 2 add", 4).unwrap().ending(), Ending::Finished);
/// assert_eq!(runner.run(b"#FLOO\n1 2 add", 3).unwrap().ending(), Ending::Fuel);
/// assert_eq!(runner.run(b"#FLOO\n1 stop 2", 9).unwrap().ending(), Ending::Stopped);
/// assert_eq!(runner.run(b"#FLOO\nadd", 9).unwrap().ending(), Ending::Error);
/// assert_eq!(Ending::Stopped.to_string(), "stopped");
/// ```
#[derive(Clone, Copy, Debug, PartialEq, Eq, Hash)]
#[non_exhaustive]
pub enum Ending {
    /// Nothing was left to be done.
    Finished,
    /// By stop, or by exit or continue with no loop around them.
    Stopped,
    /// By the error that [`Report::error`](crate::Report::error) names.
    Error,
    /// The fuel was spent.
    Fuel,
}

const ENDINGS: [Ending; 4] = [
    Ending::Finished,
    Ending::Stopped,
    Ending::Error,
    Ending::Fuel,
];

impl Ending {
    /// The word that an outcome has for it.
    ///
    /// ```
    /// assert_eq!(floo::Ending::Fuel.word(), "fuel");
    /// ```
    pub fn word(self) -> &'static str {
        match self {
            Ending::Finished => "finished",
            Ending::Stopped => "stopped",
            Ending::Error => "error",
            Ending::Fuel => "fuel",
        }
    }

    /// The ending with such a word.
    ///
    /// ```
    /// use floo::Ending;
    ///
    /// assert_eq!(Ending::from_word("finished"), Some(Ending::Finished));
    /// assert_eq!(Ending::from_word("done"), None);
    /// ```
    pub fn from_word(word: &str) -> Option<Self> {
        ENDINGS.into_iter().find(|ending| ending.word() == word)
    }
}

/// The word that an outcome has for it.
impl fmt::Display for Ending {
    fn fmt(&self, f: &mut fmt::Formatter<'_>) -> fmt::Result {
        f.write_str(self.word())
    }
}

/// The name of the error that ended a run: the outcome's line `error`. An error that the script handles, by onerror, ends none. The first five say what is wrong with a token; with them
/// [`Report::place`](crate::Report::place) is the byte that could not be accepted.
///
/// ```
/// use floo::{ErrorName, Runner, Sizes};
///
/// let mut runner = Runner::new(Sizes::default());
/// let report = runner.run(b"#FLOO\n\"shelf\" 3 9 getinterval", 100).unwrap();
/// assert_eq!(report.error(), Some(ErrorName::RangeCheck));
/// assert_eq!(report.command(), Some("getinterval"));
/// assert_eq!(ErrorName::RangeCheck.to_string(), "rangecheck");
/// assert_eq!(runner.run(b"#FLOO\n1 2 add", 100).unwrap().error(), None);
/// assert_eq!(runner.run(b"#FLOO\n/rangecheck null onerror \"shelf\" 3 9 getinterval", 100).unwrap().error(), None);
/// ```
#[derive(Clone, Copy, Debug, PartialEq, Eq, Hash)]
#[non_exhaustive]
pub enum ErrorName {
    /// The bytes begin as a number and are none.
    BadNumber,
    /// No escape goes on so.
    BadEscape,
    /// A line break or the script's end cuts a string short.
    OpenString,
    /// A brace is stray or not closed.
    BadBrace,
    /// The byte begins no token, or is after a slash and no name begins with it.
    BadByte,
    /// An executable name has no binding.
    Undefined,
    /// The stack has fewer items than are wanted.
    StackUnderflow,
    /// An operand has the wrong type.
    TypeCheck,
    /// What would be written to is read only.
    InvalidAccess,
    /// An operand has a value out of range.
    RangeCheck,
    /// A division by zero, or the place of a bit of 0.
    UndefinedResult,
    /// There is no mark on the stack.
    UnmatchedMark,
    /// A number, a name, a length, the depth of braces or the number of names is over its limit.
    LimitCheck,
    /// The execution stack has no slot left.
    ExecStackOverflow,
    /// The stack has no slot left.
    StackOverflow,
    /// There are not as many free cells as are wanted.
    VmError,
    /// The text is longer than what is left of the log.
    IoError,
}

const ERRORS: [ErrorName; 17] = [
    ErrorName::BadNumber,
    ErrorName::BadEscape,
    ErrorName::OpenString,
    ErrorName::BadBrace,
    ErrorName::BadByte,
    ErrorName::Undefined,
    ErrorName::StackUnderflow,
    ErrorName::TypeCheck,
    ErrorName::InvalidAccess,
    ErrorName::RangeCheck,
    ErrorName::UndefinedResult,
    ErrorName::UnmatchedMark,
    ErrorName::LimitCheck,
    ErrorName::ExecStackOverflow,
    ErrorName::StackOverflow,
    ErrorName::VmError,
    ErrorName::IoError,
];

impl ErrorName {
    /// The word that an outcome has for it.
    ///
    /// ```
    /// assert_eq!(floo::ErrorName::VmError.word(), "VMerror");
    /// ```
    pub fn word(self) -> &'static str {
        match self {
            ErrorName::BadNumber => "badnumber",
            ErrorName::BadEscape => "badescape",
            ErrorName::OpenString => "openstring",
            ErrorName::BadBrace => "badbrace",
            ErrorName::BadByte => "badbyte",
            ErrorName::Undefined => "undefined",
            ErrorName::StackUnderflow => "stackunderflow",
            ErrorName::TypeCheck => "typecheck",
            ErrorName::InvalidAccess => "invalidaccess",
            ErrorName::RangeCheck => "rangecheck",
            ErrorName::UndefinedResult => "undefinedresult",
            ErrorName::UnmatchedMark => "unmatchedmark",
            ErrorName::LimitCheck => "limitcheck",
            ErrorName::ExecStackOverflow => "execstackoverflow",
            ErrorName::StackOverflow => "stackoverflow",
            ErrorName::VmError => "VMerror",
            ErrorName::IoError => "ioerror",
        }
    }

    /// The error with such a word; `none` is no error.
    ///
    /// ```
    /// use floo::ErrorName;
    ///
    /// assert_eq!(ErrorName::from_word("badescape"), Some(ErrorName::BadEscape));
    /// assert_eq!(ErrorName::from_word("none"), None);
    /// ```
    pub fn from_word(word: &str) -> Option<Self> {
        ERRORS.into_iter().find(|error| error.word() == word)
    }
}

/// The word that an outcome has for it.
impl fmt::Display for ErrorName {
    fn fmt(&self, f: &mut fmt::Formatter<'_>) -> fmt::Result {
        f.write_str(self.word())
    }
}

impl Error for ErrorName {}
