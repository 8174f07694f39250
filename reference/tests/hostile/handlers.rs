//! Scripts that set handlers for errors and then fail, in every kind of step: as a script token, as a pending object, as an element of a procedure (after bind
//! operators are elements) and as a repetition. Where sizes are small more fails than is meant to.

use crate::random::Random;

/// Each error that a step can give once it has its token, with what gives it: some only where the stack, the dictionary, the cells or the log are small. `%` is
/// a small number.
const FAILING: &[(&str, &[&str])] = &[
    ("undefined", &["frob%", "/frob% pop frob%", "/frob% load", "/frob% cvx exec", "\"\" cvn cvx exec", "\"a b\" cvn cvx exec"]),
    ("stackunderflow", &["99 copy", "999 % roll", "300 index", "add", "999 array astore"]),
    ("typecheck", &["true neg", "null % add", "% % onerror", "\"a\" load", "[ ] [ ] lt"]),
    ("invalidaccess", &["{ 1 2 } 9 % put", "\"abc\" readonly % 65 put", "{ 1 2 } astore", "% \"abc\" readonly cvs", "[ 1 ] readonly -1 [ ] putinterval", "{ \"abc\" } 0 get 0 \"x\" putinterval"]),
    ("rangecheck", &["-1 array", "[ ] % 1 add get", "/syntaxerror % onerror", "\"abc\" 1 300 put", "true 1 string cvs"]),
    ("undefinedresult", &["5 0 idiv", "% 0 mod", "0 lowpeg", "0 highpeg"]),
    ("unmatchedmark", &["]", "% ]"]),
    ("limitcheck", &["40000 array", "32768 string", "/new%", "{ new% old% }", "\"new%\" cvn", "40 string dup 0 \"abcdefghijklmnopqrstuvwxyz0123456789abcd\" putinterval cvn"]),
    ("execstackoverflow", &["/f { f 1 } def f", "{ { { { { 1 } exec } exec } exec } exec } exec", "{ { { 2 { } repeat } exec } exec } exec", "/f { { f } loop } def f"]),
    ("stackoverflow", &["{ % } loop", "{ dup } bind loop", "1 1 40 { } for", "1 1 40 { dup } for", "9 -1 1 { 1 1 1 } for", "/x % def { x } loop", "1 2 3 4 5 6 7 8 9", "{ errorname command } bind loop"]),
    ("VMerror", &["999 array", "9 array", "\"abcdefghijklmnopqrstuvwxyz\"", "{ 1 { 2 \"abc\" } }", "{ [ 1 2 3 ] } loop", "[ 1 2 3 4 ]", "{ 900 string } bind loop"]),
    ("ioerror", &["{ 12345 echo } loop", "{ \"abc\" print } bind loop", "echostack", "-2147483648 echo", "{ echostack } bind loop"]),
];

const FAULTS: &[&str] = &["badnumber", "badescape", "openstring", "badbrace", "badbyte", "limitcheck"];

/// What handles errors: kinds of objects, handlers that fail, leave, set handlers, make and free room, and try again.
const HANDLERS: &[&str] = &[
    "null",
    "mark",
    "%",
    "\"abc\"",
    "[ 1 [ 2 ] ]",
    "/frob cvx",
    "/pop load",
    "/add load",
    "{ }",
    "{ errorname command }",
    "{ errorname echo command echo }",
    "{ pop }",
    "{ pop pop pop } bind",
    "{ exit }",
    "{ continue }",
    "{ stop }",
    "{ frob% }",
    "{ 1 0 idiv }",
    "{ add ] }",
    "{ true neg } bind",
    "{ 1 2 3 }",
    "{ [ 1 2 3 ] /x exch def }",
    "{ /x null def command cvx exec }",
    "{ /x null def 1 array pop }",
    "{ errorname null onerror }",
    "{ errorname { pop } onerror 1 }",
    "{ errorname [ 1 ] onerror stop }",
    "{ /undefined { pop } onerror frob% }",
    "{ { 1 exit } loop }",
];

/// What can be around `@`: nothing, a procedure, a bound one, loops, and more of them than there may be execution slots.
const AROUND: &[&str] = &[
    "@",
    "@",
    "{ @ } exec",
    "{ @ } bind exec",
    "{ @ } bind exec",
    "/g { @ } def g",
    "3 { @ } repeat",
    "{ @ exit } loop",
    "1 1 3 { @ } bind for",
    "{ { @ } exec 1 } exec",
    "{ { @ } bind exec } exec",
    "{ { { @ } bind exec } exec } exec",
    "{ { { { @ } bind exec } exec } exec } exec",
    "2 { { { @ } bind exec } exec } repeat",
    "{ { { { { @ } bind exec } exec } exec } exec } exec",
];

/// Handlers, and what they are for.
pub fn script(random: &mut Random) -> Vec<u8> {
    let mut script = String::from("#FLOO\n");
    match random.below(7) {
        6 => script += &lost_numbers(random),
        0 => script += "/x [ 1 2 3 4 5 6 ] def ",
        1..=2 => script += &names(random),
        _ => {}
    }
    for _ in 0..=random.below(4) {
        let (error, failing) = FAILING[random.below(FAILING.len())];
        if random.below(8) > 0 {
            script += &set(error, random);
        }
        if random.below(4) == 0 {
            script += &set(FAILING[random.below(FAILING.len())].0, random);
        }
        script += &filled(random.choose(AROUND).replace('@', random.choose(failing)), random);
    }
    script.into_bytes()
}

/// A `for` near an end of the integers whose handler leaves the stack full, so that its last numbers are lost.
fn lost_numbers(random: &mut Random) -> String {
    let handler = random.choose(&["{ }", "{ pop % }", "{ pop % } bind"]);
    let first = i32::MAX - 80 - random.below(20) as i32;
    let increment = 1 + random.below(3) as i32;
    let last = i32::MAX - random.below(2) as i32;
    let [first, increment, last] = match random.below(2) {
        0 => [first, increment, last],
        _ => [-1 - first, -increment, -1 - last],
    };
    let text = format!("/stackoverflow {handler} onerror {first} {increment} {last} {{ % dup }} for");
    filled(text, random)
}

/// Names for a small dictionary, literal ones and unbound ones. A literal one that finds no slot leaves null in its place.
fn names(random: &mut Random) -> String {
    let mut names = String::from("/limitcheck null onerror /undefined { command pop } onerror ");
    for k in 0..random.below(12) {
        names += &match random.below(3) {
            0 => format!("q{k} "),
            _ => format!("/n{k} pop "),
        };
    }
    names
}

/// Handlers for the faults of tokens, to stand before one: they are never run.
pub fn before_fault(random: &mut Random) -> String {
    FAULTS.iter().map(|fault| set(fault, random)).collect()
}

fn set(error: &str, random: &mut Random) -> String {
    let handler = match random.below(3) {
        0 => random.choose(&["{ pop pop }", "{ command pop }"]),
        _ => random.choose(HANDLERS),
    };
    filled(format!("/{error} {handler} onerror"), random)
}

/// Each `%` is a number of its own.
fn filled(text: String, random: &mut Random) -> String {
    let mut parts = text.split('%');
    let mut filled = parts.next().unwrap_or_default().to_owned();
    for part in parts {
        filled += &format!("{}{part}", random.below(9));
    }
    filled + " "
}
