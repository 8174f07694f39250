use std::fmt;

/// An item of the stack that a run left: an `item` line of the outcome. Lengths are shown there, contents are not.
///
/// ```
/// use floo::{Item, Runner, Sizes};
///
/// let mut runner = Runner::new(Sizes::default());
/// let report = runner.run(b"#FLOO\n417 \"rack B-7\" /place { dup }", 100).unwrap();
/// let items: Vec<Item> = report.items().collect();
/// let place = Item::Name { literal: true, text: "place" };
/// assert_eq!(items, [Item::Integer(417), Item::String { current: 8, maximum: 8 }, place, Item::Procedure(1)]);
/// assert_eq!(items[1].to_string(), "string:8/8");
/// ```
#[derive(Clone, Copy, Debug, PartialEq, Eq, Hash)]
#[non_exhaustive]
pub enum Item<'a> {
    /// `integer:7`.
    Integer(i32),
    /// `boolean:true`.
    Boolean(bool),
    /// `null`.
    Null,
    /// `mark`.
    Mark,
    /// `string:2/5`.
    String {
        /// Bytes before the first zero.
        current: usize,
        /// Bytes that it has room for.
        maximum: usize,
    },
    /// `name:/x` or `name:x`.
    Name {
        /// Whether a slash is before it. An executable name whose own first byte is a slash, which only cvn and cvx make, reads as a literal one: its text is the same.
        literal: bool,
        /// Its bytes; those outside 33 to 126, and the backslash, as a backslash and three octal digits.
        text: &'a str,
    },
    /// `operator:add`.
    Operator(&'a str),
    /// `array:3`, by its length.
    Array(usize),
    /// `procedure:3`, an executable array by its length.
    Procedure(usize),
}

impl<'a> Item<'a> {
    /// The item that an `item` line has after its `=`.
    ///
    /// ```
    /// use floo::Item;
    ///
    /// assert_eq!(Item::from_text("string:2/5"), Some(Item::String { current: 2, maximum: 5 }));
    /// assert_eq!(Item::from_text("integer:seven"), None);
    /// ```
    pub fn from_text(text: &'a str) -> Option<Self> {
        let Some((kind, value)) = text.split_once(':') else {
            return match text {
                "null" => Some(Item::Null),
                "mark" => Some(Item::Mark),
                _ => None,
            };
        };
        Some(match kind {
            "integer" => Item::Integer(value.parse().ok()?),
            "boolean" => Item::Boolean(value.parse().ok()?),
            "string" => {
                let (current, maximum) = value.split_once('/')?;
                Item::String {
                    current: current.parse().ok()?,
                    maximum: maximum.parse().ok()?,
                }
            }
            "name" => match value.strip_prefix('/') {
                Some(text) => Item::Name {
                    literal: true,
                    text,
                },
                None => Item::Name {
                    literal: false,
                    text: value,
                },
            },
            "operator" => Item::Operator(value),
            "array" => Item::Array(value.parse().ok()?),
            "procedure" => Item::Procedure(value.parse().ok()?),
            _ => return None,
        })
    }
}

/// As the outcome has it.
impl fmt::Display for Item<'_> {
    fn fmt(&self, f: &mut fmt::Formatter<'_>) -> fmt::Result {
        match self {
            Item::Integer(number) => write!(f, "integer:{number}"),
            Item::Boolean(truth) => write!(f, "boolean:{truth}"),
            Item::Null => f.write_str("null"),
            Item::Mark => f.write_str("mark"),
            Item::String { current, maximum } => write!(f, "string:{current}/{maximum}"),
            Item::Name {
                literal: true,
                text,
            } => write!(f, "name:/{text}"),
            Item::Name {
                literal: false,
                text,
            } => write!(f, "name:{text}"),
            Item::Operator(name) => write!(f, "operator:{name}"),
            Item::Array(length) => write!(f, "array:{length}"),
            Item::Procedure(length) => write!(f, "procedure:{length}"),
        }
    }
}
