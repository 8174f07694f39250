/// The names that every dictionary begins with, each in a slot of its own.
///
/// ```
/// use floo::{Sizes, PREDEFINED_NAMES};
///
/// let least = Sizes { dictionary: PREDEFINED_NAMES, ..Sizes::default() };
/// let mut runner = floo::Runner::new(least);
/// assert!(runner.run(b"#FLOO\n1 echo", 100).is_ok());
/// ```
pub const PREDEFINED_NAMES: usize = 65;

/// These names: the operators by family, `[`, true, false and null.
///
/// ```
/// assert!(floo::NAMES.contains(&"getinterval"));
/// assert!(!floo::NAMES.contains(&"begin"));
/// ```
#[rustfmt::skip]
pub const NAMES: [&str; PREDEFINED_NAMES] = [
    "dup", "exch", "pop", "index", "copy", "roll", // stack
    "add", "sub", "mul", "idiv", "mod", "abs", "neg", // arithmetic
    "bitshift", "ones", "lowpeg", "highpeg", "not", "and", "or", "xor", "eq", "ne", "lt", "le", "gt", "ge", // bits and comparison
    "def", "load", "bind", // dictionary
    "exec", "if", "ifelse", "loop", "repeat", "for", "exit", "continue", "stop", // control
    "array", "mark", "[", "]", "length", "get", "put", "getinterval", "putinterval", "aload", "astore", "string", "readonly", // objects
    "cvs", "cvx", "cvlit", "cvn", // conversion
    "echo", "echostack", "print", // output
    "onerror", "errorname", "command", // errors
    "true", "false", "null",
];
