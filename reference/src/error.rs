//! The twelve errors of a step that has read its token, if it takes one. What can be wrong with
//! a token itself is a `Fault` (token.rs).

#[derive(Clone, Copy, Debug, PartialEq, Eq)]
pub enum Error {
    Undefined,
    Stackunderflow,
    Typecheck,
    Invalidaccess,
    Rangecheck,
    Undefinedresult,
    Unmatchedmark,
    Limitcheck,
    Execstackoverflow,
    Stackoverflow,
    VMerror,
    Ioerror,
}

/// The names that `error=` can show: those of tokens' faults, then those of errors. A handler can be
/// set for each (02, W1), though "token faults still end the run".
pub const NAMES: [&str; 17] = [
    "badnumber",
    "badescape",
    "openstring",
    "badbrace",
    "badbyte",
    "limitcheck",
    "undefined",
    "stackunderflow",
    "typecheck",
    "invalidaccess",
    "rangecheck",
    "undefinedresult",
    "unmatchedmark",
    "execstackoverflow",
    "stackoverflow",
    "VMerror",
    "ioerror",
];

/// The place of an error's name in the list.
pub fn place_of(name: &[u8]) -> Option<usize> {
    NAMES.iter().position(|known| known.as_bytes() == name)
}

impl Error {
    /// The place of its name in the list.
    pub fn place(self) -> usize {
        place_of(self.name().as_bytes()).expect("the list has every error")
    }

    pub fn name(self) -> &'static str {
        match self {
            Error::Undefined => "undefined",
            Error::Stackunderflow => "stackunderflow",
            Error::Typecheck => "typecheck",
            Error::Invalidaccess => "invalidaccess",
            Error::Rangecheck => "rangecheck",
            Error::Undefinedresult => "undefinedresult",
            Error::Unmatchedmark => "unmatchedmark",
            Error::Limitcheck => "limitcheck",
            Error::Execstackoverflow => "execstackoverflow",
            Error::Stackoverflow => "stackoverflow",
            Error::VMerror => "VMerror",
            Error::Ioerror => "ioerror",
        }
    }
}
