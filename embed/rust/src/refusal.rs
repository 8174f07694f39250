use std::error::Error;
use std::fmt;

/// Why no run was made, or no token read. Refusals are looked for in this order, and the first that applies is given: by a run of 1 to 9, by the reading
/// of a token of 1 and 10.
///
/// ```
/// use floo::{Refusal, Runner, Sizes};
///
/// let mut runner = Runner::new(Sizes::default());
/// let refusal = runner.run(b"1 2 add", 100).unwrap_err();
/// assert_eq!(refusal, Refusal::NotAScript);
/// assert_eq!(refusal.to_string(), "refused=2: the script does not begin with #FLOO");
/// ```
#[derive(Clone, Copy, Debug, PartialEq, Eq)]
#[non_exhaustive]
pub enum Refusal {
    /// The script has over 32,768 bytes.
    ScriptTooLong = 1,
    /// It does not begin with `#FLOO`.
    NotAScript = 2,
    /// The fuel is over 1,000,000.
    TooMuchFuel = 3,
    /// The stack slots are not 8 to 256.
    StackSlots = 4,
    /// The execution slots are not 4 to 128.
    ExecutionSlots = 5,
    /// The dictionary slots are fewer than the predefined names, or over 512.
    DictionarySlots = 6,
    /// The arena cells are not 1 to 32,768.
    Cells = 7,
    /// The log has over 65,536 bytes.
    LogTooLong = 8,
    /// The outcome has under 256 + 136 × stack slots bytes.
    OutcomeTooShort = 9,
    /// The offset exceeds the script's length.
    OffsetPastEnd = 10,
}

const ALL: [Refusal; 10] = [
    Refusal::ScriptTooLong,
    Refusal::NotAScript,
    Refusal::TooMuchFuel,
    Refusal::StackSlots,
    Refusal::ExecutionSlots,
    Refusal::DictionarySlots,
    Refusal::Cells,
    Refusal::LogTooLong,
    Refusal::OutcomeTooShort,
    Refusal::OffsetPastEnd,
];

impl Refusal {
    /// Its number, 1 to 10.
    ///
    /// ```
    /// assert_eq!(floo::Refusal::Cells.number(), 7);
    /// ```
    pub fn number(self) -> u32 {
        self as u32
    }

    /// The refusal with a number.
    ///
    /// ```
    /// use floo::Refusal;
    ///
    /// assert_eq!(Refusal::from_number(7), Some(Refusal::Cells));
    /// assert_eq!(Refusal::from_number(0), None);
    /// ```
    pub fn from_number(number: u32) -> Option<Self> {
        ALL.into_iter().find(|refusal| refusal.number() == number)
    }
}

/// As the program prints it, and the reason.
impl fmt::Display for Refusal {
    fn fmt(&self, f: &mut fmt::Formatter<'_>) -> fmt::Result {
        let reason = match self {
            Refusal::ScriptTooLong => "the script is over 32768 bytes",
            Refusal::NotAScript => "the script does not begin with #FLOO",
            Refusal::TooMuchFuel => "the fuel is over 1000000",
            Refusal::StackSlots => "the stack slots are not 8 to 256",
            Refusal::ExecutionSlots => "the execution slots are not 4 to 128",
            Refusal::DictionarySlots => {
                "the dictionary slots are fewer than the predefined names, or over 512"
            }
            Refusal::Cells => "the cells are not 1 to 32768",
            Refusal::LogTooLong => "the log is over 65536 bytes",
            Refusal::OutcomeTooShort => "the outcome is under 256 + 136 x stack slots bytes",
            Refusal::OffsetPastEnd => "the offset exceeds the script's length",
        };
        write!(f, "refused={}: {reason}", self.number())
    }
}

impl Error for Refusal {}
