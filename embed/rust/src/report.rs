use std::fmt;
use std::str;

use crate::{Ending, ErrorName, Item};

/// What a run came to. It is read where the run wrote it, so it lasts until the runner is used again.
///
/// ```
/// use floo::{Ending, Item, Runner, Sizes};
///
/// let mut runner = Runner::new(Sizes::default());
/// let report = runner.run(b"#FLOO\n5 /two 2 def two add echo 7\n", 100).unwrap();
/// assert_eq!((report.ending(), report.steps(), report.log()), (Ending::Finished, 12, &b"7\n"[..]));
/// assert_eq!(report.items().collect::<Vec<_>>(), [Item::Integer(7)]);
/// ```
#[derive(Clone, Copy, Debug, PartialEq, Eq)]
pub struct Report<'a> {
    steps: u32,
    log: &'a [u8],
    outcome: &'a str,
}

impl<'a> Report<'a> {
    pub(crate) fn new(steps: u32, log: &'a [u8], outcome: &'a [u8]) -> Self {
        let outcome = str::from_utf8(outcome).expect("an outcome is ASCII");
        Report {
            steps,
            log,
            outcome,
        }
    }

    /// The steps made, at most the fuel.
    ///
    /// ```
    /// let mut runner = floo::Runner::new(floo::Sizes::default());
    /// assert_eq!(runner.run(b"#FLOO\n1 2 add", 100).unwrap().steps(), 4);
    /// ```
    pub fn steps(&self) -> u32 {
        self.steps
    }

    /// What the script wrote.
    ///
    /// ```
    /// let mut runner = floo::Runner::new(floo::Sizes::default());
    /// assert_eq!(runner.run(b"#FLOO\n\"shelf\" print 9 echo", 100).unwrap().log(), b"shelf9\n");
    /// ```
    pub fn log(&self) -> &'a [u8] {
        self.log
    }

    /// The whole outcome: lines of key=value, then one `item=` line for each stack item, bottom first.
    ///
    /// ```
    /// let mut runner = floo::Runner::new(floo::Sizes::default());
    /// let report = runner.run(b"#FLOO\n7", 100).unwrap();
    /// assert!(report.outcome().starts_with("ending=finished\nerror=none\n"));
    /// assert!(report.outcome().ends_with("log=0\nitem=integer:7\n"));
    /// ```
    pub fn outcome(&self) -> &'a str {
        self.outcome
    }

    /// The value of a line of the outcome: `ending`, `error`, `command`, `at`, `where`, `steps`, `depth`, `held` or `log`.
    ///
    /// ```
    /// let mut runner = floo::Runner::new(floo::Sizes::default());
    /// let report = runner.run(b"#FLOO\n3 frob", 100).unwrap();
    /// assert_eq!(report.value("error"), Some("undefined"));
    /// assert_eq!(report.value("colour"), None);
    /// ```
    pub fn value(&self, key: &str) -> Option<&'a str> {
        self.pairs()
            .find(|(found, _)| *found == key)
            .map(|(_, value)| value)
    }

    /// How the run ended.
    ///
    /// ```
    /// let mut runner = floo::Runner::new(floo::Sizes::default());
    /// assert_eq!(runner.run(b"#FLOO", 0).unwrap().ending(), floo::Ending::Finished);
    /// ```
    pub fn ending(&self) -> Ending {
        Ending::from_word(self.line("ending")).expect("an outcome has one of four endings")
    }

    /// The error that ended the run, if one did.
    ///
    /// ```
    /// let mut runner = floo::Runner::new(floo::Sizes::default());
    /// assert_eq!(runner.run(b"#FLOO\n1 0 idiv", 100).unwrap().error(), Some(floo::ErrorName::UndefinedResult));
    /// ```
    pub fn error(&self) -> Option<ErrorName> {
        match self.line("error") {
            "none" => None,
            word => Some(ErrorName::from_word(word).expect("an outcome has an error of Floo")),
        }
    }

    /// The operator or executable name whose execution failed, escaped as echo escapes names.
    ///
    /// ```
    /// let mut runner = floo::Runner::new(floo::Sizes::default());
    /// assert_eq!(runner.run(b"#FLOO\n3 frob", 100).unwrap().command(), Some("frob"));
    /// assert_eq!(runner.run(b"#FLOO\n3 }", 100).unwrap().command(), None);
    /// ```
    pub fn command(&self) -> Option<&'a str> {
        Some(self.line("command")).filter(|command| !command.is_empty())
    }

    /// The offset in the script of the token that was taken last, a brace group's that of its opening brace: 0 before the first, and the script's length at the end.
    /// [`position`](crate::position) gives its line and column.
    ///
    /// ```
    /// let mut runner = floo::Runner::new(floo::Sizes::default());
    /// let script = b"#FLOO\n3 frob";
    /// assert_eq!(runner.run(script, 100).unwrap().at(), 8);
    /// assert_eq!(floo::position(script, 8).unwrap().to_string(), "line 2, column 3");
    /// ```
    pub fn at(&self) -> usize {
        self.number("at")
    }

    /// The offset in the script of the first byte of a token that could not be accepted, where that ended the run: an open string's is its quote, an unclosed
    /// brace's its own. [`position`](crate::position) gives its line and column.
    ///
    /// ```
    /// let mut runner = floo::Runner::new(floo::Sizes::default());
    /// assert_eq!(runner.run(b"#FLOO\n{ 0x1G }", 100).unwrap().place(), Some(11));
    /// assert_eq!(runner.run(b"#FLOO\nadd", 100).unwrap().place(), None);
    /// ```
    pub fn place(&self) -> Option<usize> {
        self.value("where")?.parse().ok()
    }

    /// The items on the stack.
    ///
    /// ```
    /// let mut runner = floo::Runner::new(floo::Sizes::default());
    /// assert_eq!(runner.run(b"#FLOO\n1 2 3", 100).unwrap().depth(), 3);
    /// ```
    pub fn depth(&self) -> usize {
        self.number("depth")
    }

    /// The cells of the objects that are held after the last step.
    ///
    /// ```
    /// let mut runner = floo::Runner::new(floo::Sizes::default());
    /// assert_eq!(runner.run(b"#FLOO\n[ 1 2 3 ]", 100).unwrap().held(), 4);
    /// ```
    pub fn held(&self) -> usize {
        self.number("held")
    }

    /// The stack, bottom first.
    ///
    /// ```
    /// use floo::Item;
    ///
    /// let mut runner = floo::Runner::new(floo::Sizes::default());
    /// let report = runner.run(b"#FLOO\n\"ABCDE\" dup 2 0 put true", 100).unwrap();
    /// let stack: Vec<Item> = report.items().collect();
    /// assert_eq!(stack, [Item::String { current: 2, maximum: 5 }, Item::Boolean(true)]);
    /// ```
    pub fn items(&self) -> impl DoubleEndedIterator<Item = Item<'a>> {
        self.pairs()
            .filter(|(key, _)| *key == "item")
            .map(|(_, value)| Item::from_text(value).expect("an outcome's items are those of Floo"))
    }

    fn line(&self, key: &str) -> &'a str {
        self.value(key).expect("an outcome has each of its lines")
    }

    fn number(&self, key: &str) -> usize {
        let value = self.line(key);
        value.parse().expect("an outcome's numbers are decimal")
    }

    fn pairs(&self) -> impl DoubleEndedIterator<Item = (&'a str, &'a str)> {
        self.outcome.lines().filter_map(|line| line.split_once('='))
    }
}

/// The outcome's lines.
impl fmt::Display for Report<'_> {
    fn fmt(&self, f: &mut fmt::Formatter<'_>) -> fmt::Result {
        f.write_str(self.outcome)
    }
}
