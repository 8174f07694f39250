//! Scripts that mean no good: random bytes, random tokens, damaged programs, misspelt tokens, loops at the ends of the integers, rows of pegs, writes to what is read
//! only, and errors with handlers.

use crate::handlers;
use crate::random::Random;

/// Words that act: all operators, names that may be bound, braces.
const ACTIONS: &[&str] = &[
    "dup",
    "exch",
    "pop",
    "index",
    "copy",
    "roll",
    "add",
    "sub",
    "mul",
    "idiv",
    "mod",
    "abs",
    "neg",
    "bitshift",
    "not",
    "and",
    "or",
    "xor",
    "eq",
    "ne",
    "lt",
    "le",
    "gt",
    "ge",
    "def",
    "load",
    "bind",
    "exec",
    "if",
    "ifelse",
    "loop",
    "repeat",
    "for",
    "exit",
    "continue",
    "stop",
    "array",
    "mark",
    "[",
    "]",
    "length",
    "get",
    "put",
    "getinterval",
    "putinterval",
    "aload",
    "astore",
    "string",
    "print",
    "cvs",
    "cvx",
    "cvlit",
    "cvn",
    "echo",
    "echostack",
    "onerror",
    "errorname",
    "command",
    "ones",
    "lowpeg",
    "highpeg",
    "readonly",
    "a",
    "b",
    "c",
    "{",
    "}",
    "#x\n",
];

/// Words that push, so that random rows of words run for a while.
const OBJECTS: &[&str] = &[
    "0",
    "1",
    "2",
    "3",
    "5",
    "-1",
    "16",
    "0xFFFFFFFF",
    "2147483647",
    "-2147483648",
    "32767",
    "true",
    "false",
    "null",
    "/a",
    "/b",
    "/c",
    "\"\"",
    "\"abc\"",
    "\"a\\000b\\n\"",
    "[ 1 2 ]",
    "{ dup }",
    "{ 1 add }",
    "{ pop } bind",
    "[ 5 6 7 ] readonly",
    "\"xyz\" readonly",
    "{ exit }",
    "{ { 1 } /a \"x\" }",
    "1 1 9 { } for",
    "-2147483648 echo",
    "-2147483648 16 string cvs",
    "/a [ 7 ] def",
    "/b { 2 copy } def 1 2 b",
    "/c 1 array def c 0 c put c",
    "9 array 3 string",
    "3 { 4 string } repeat",
    "/undefined",
    "/stackunderflow { 1 } onerror",
    "/typecheck { pop } bind onerror",
    "/rangecheck [ 1 ] onerror",
];

const LOOP_BODIES: &[&str] = &["{ }", "{ pop }", "{ exit }", "{ dup pop continue }", "{ pop { exit } loop }", "pop"];

/// What is no token, or is none where the script or the line ends too early. Each is also met cut off at any byte.
const MISSPELT: &[&[u8]] = &[
    b"5a",
    b"-12,5",
    b"00x1",
    b"0x1FFg",
    b"0x",
    b"-0x10",
    b"99999999999a",
    b"99999999999",
    b"4294967296",
    b"-2147483649",
    b"0x1FFFFFFFF",
    b"\"ab\\q\"",
    b"\"a\\\\\"",
    b"\"a\\400\"",
    b"\"\\1018\\018\"",
    b"\"\\378\"",
    b"\"\\01\"",
    b"\"\\101\\n\\\"abc",
    b"\"ab\ncd\"",
    b"\"ab\\\n\rcd\"",
    b"\"a\\3\r\"",
    b"/ a",
    b"/5a",
    b"/-5",
    b"/nnnnnnnnnnnnnnnnnnnnnnnnnnnnnnnn",
    b"nnnnnnnnnnnnnnnnnnnnnnnnnnnnnnnn",
    b"\x00",
    b"\x7f",
    b"\xe4",
    b"} }",
    b"{ 1 { 2 } { 3",
    b"{ { { } }",
];

/// Programs that finish or end in an orderly way.
const PROGRAMS: &[&str] = &[
    "/f { dup 1 gt { dup 1 sub f mul } if } def 1 1 10 { f echo } for",
    "/a 1 array def a 0 a put /a 0 def [ 1 2 3 ] aload pop 3 array astore echo",
    "/x null def 200 { /x [ x ] def } repeat /x null def 40 string pop",
    "1 1 20 { string dup 0 65 put cvn } for echostack",
    "{ \"a\" dup 0 get 1 add 1 index exch 0 exch put } dup exec echo exec echo",
    "/p { 10 array dup 0 { p } put } def 5 { p /q exch def } repeat q echo",
    "[ 1 [ 2 [ 3 [ 4 [ 5 [ 6 ] ] ] ] ] ] dup echo 0 2 getinterval dup 0 3 -1 roll putinterval",
    "0 1 5 { dup 3 eq { exit } if dup 1 and 0 eq { continue } if pop } for echostack",
    "{ 1 { 2 { 3 \"s\" } exec } exec } bind exec 4 2 roll 3 copy 5 index echostack stop",
    "/s 12 string def -17 s cvs echo s 3 \"xyz\" putinterval s print s 0 12 getinterval length",
    "/loop load { exit } exch exec { { { continue } loop } loop } loop",
    "/t 1 array def t 0 t put t dup 1 array dup 0 3 index put 3 -1 roll pop pop pop",
    "/undefined { errorname command } onerror 1 frob { 2 grub 3 } exec echostack",
    "/VMerror { /x null def command cvx exec } onerror 40 { /x 900 array def } repeat x length",
    "/stackoverflow { exit } onerror /rangecheck { errorname null onerror } onerror { 1 } loop -1 array -1 string",
    "/row 0x80010106 def row ones { row lowpeg dup echo 1 exch bitshift row xor /row exch def } repeat row highpeg",
    "/invalidaccess { pop pop 0 1 getinterval dup 0 65 put } onerror /p { \"abc\" dup 0 65 put } def p echo p echo",
    "[ 1 \"ab\" readonly ] readonly dup 1 get 0 1 getinterval dup 0 48 put echo { add \"x\" } bind dup 0 get echo 1 9 put",
];

pub fn hostile(random: &mut Random) -> Vec<u8> {
    match random.below(19) {
        0 => random_bytes(random),
        1..=4 => random_words(random),
        5..=6 => border_loops(random),
        7..=8 => misspelt(random),
        9..=12 => handlers::script(random),
        13 => rows(random),
        14..=15 => writes(random),
        _ => damaged_program(random),
    }
}

fn random_bytes(random: &mut Random) -> Vec<u8> {
    let mut script = b"#FLOO\n".to_vec();
    let length = random.below(60);
    script.extend((0..length).map(|_| random.byte()));
    script
}

fn word(random: &mut Random) -> &'static str {
    match random.below(3) {
        0 => random.choose(ACTIONS),
        _ => random.choose(OBJECTS),
    }
}

fn random_words(random: &mut Random) -> Vec<u8> {
    let mut script = String::from("#FLOO\n");
    for _ in 0..random.below(60) {
        script += word(random);
        script += " ";
    }
    script.into_bytes()
}

/// `for` loops whose first and final numbers are near the ends of the integers or near 0, with increments of both signs and 0.
fn border_loops(random: &mut Random) -> Vec<u8> {
    let mut script = String::from("#FLOO\n");
    for _ in 0..=random.below(3) {
        let off = random.below(6) as i32;
        let step = 1 + random.below(4) as i32;
        let [first, increment, last] = match random.below(4) {
            0 => [i32::MAX - off, step, i32::MAX - random.below(3) as i32],
            1 => [i32::MIN + off, -step, i32::MIN + random.below(3) as i32],
            2 => [near_border(random), near_border(random), near_border(random)],
            _ => [near_border(random), 1 - off % 3, near_border(random)],
        };
        let body = random.choose(LOOP_BODIES);
        script += &format!("{first} {increment} {last} {body} for ");
    }
    script.into_bytes()
}

/// Pegs of rows, in decimal and in hexadecimal, with and without a handler for rows that have none.
fn rows(random: &mut Random) -> Vec<u8> {
    let mut script = String::from("#FLOO\n");
    if random.below(2) == 0 {
        script += "/undefinedresult { } onerror ";
    }
    for _ in 0..4 + random.below(12) {
        let (row, asked) = row(random);
        let written = match random.below(2) {
            0 => format!("{}", row.cast_signed()),
            _ => format!("{row:#x}"),
        };
        let then = random.choose(&["pop", "pop", "pop", "echo"]);
        script += &format!("{written} {asked} {then} ");
    }
    script.into_bytes()
}

/// Arrays and strings with and without the mark for read only, as literals in groups, by readonly and by getinterval, some by two names.
const TARGETS: &[&str] = &[
    "{ 1 2 3 }",
    "{ add pop x }",
    "{ }",
    "{ 1 2 3 } cvlit",
    "{ \"abc\" 5 } 0 get",
    "{ { \"ab\" } } 0 get 0 get",
    "{ { 1 2 } 5 } 0 get",
    "/p { \"abcdefghi\" } def p",
    "[ 1 2 3 ] readonly",
    "[ 1 2 ] cvx dup readonly pop",
    "\"abc\" readonly",
    "\"\" readonly readonly",
    "4 string dup readonly exch pop",
    "2 array readonly",
    "[ 1 2 3 ]",
    "[ 4 5 ] cvx",
    "\"abcd\"",
    "9 string",
    "{ 1 2 3 } 1 2 getinterval",
    "{ \"abcdefghi\" } 0 get 1 3 getinterval",
    "[ 1 2 3 ] readonly 0 2 getinterval",
];

/// What is done to the target, `@`: writes that are in range and out of it, that change nothing, and of the wrong type; and what the mark does not stop.
const WRITES: &[&str] = &[
    "@ 0 65 put",
    "@ % 66 put",
    "@ 0 true put",
    "@ -1 300 put",
    "@ dup length 0 put",
    "@ 0 1 index put",
    "@ 0 [ 7 ] putinterval",
    "@ 0 \"X\" putinterval",
    "@ % { 8 \"s\" } putinterval",
    "@ -1 [ ] putinterval",
    "@ dup 0 exch putinterval",
    "5 6 7 8 9 @ astore pop",
    "@ astore",
    "7 @ cvs echo",
    "/abc @ cvs pop",
    "@ dup cvs pop",
    "@ readonly dup readonly echo",
    "/x @ def x 0 67 put x echo",
    "@ 0 1 getinterval dup 0 68 put echo",
    "@ bind 0 get echo",
    "@ bind cvlit 0 1 getinterval echo",
    "[ 9 @ ] 0 1 put",
    "[ 9 @ ] 1 get 0 69 put",
];

/// Writes to such targets, with and without a handler for what is refused.
fn writes(random: &mut Random) -> Vec<u8> {
    let mut script = String::from("#FLOO\n");
    for error in ["invalidaccess", "typecheck", "rangecheck", "stackunderflow"] {
        if random.below(4) > 0 {
            script += &format!("/{error} {} onerror ", random.choose(&["{ }", "{ pop pop }", "{ command pop }"]));
        }
    }
    for _ in 0..=random.below(8) {
        let written = random.choose(WRITES).replace('@', random.choose(TARGETS));
        script += &match random.below(4) {
            0 => format!("{{ {written} }} bind exec "),
            1 => format!("2 {{ {written} }} repeat "),
            _ => format!("{written} "),
        }
        .replace('%', &random.below(4).to_string());
    }
    script.into_bytes()
}

/// A row and what is asked of it: of each number of pegs side by side, around the end too, how many; of a lowest and a highest one at each place, where; of a single
/// one and of none all three.
fn row(random: &mut Random) -> (u32, &'static str) {
    let any = random.below(1 << 32) as u32;
    let place = random.below(32) as u32;
    let first = (1_u64 << random.below(33)) as u32;
    match random.below(8) {
        0..=2 => (first.wrapping_sub(1).rotate_left(place), "ones"),
        3 => ((any | 1) << place, "lowpeg"),
        4 => ((any | 1 << 31) >> place, "highpeg"),
        5 => (1 << place, "dup ones exch dup lowpeg exch { highpeg } bind exec pop pop"),
        6 => (0, random.choose(&["ones", "lowpeg", "highpeg"])),
        _ => (any, random.choose(&["ones", "lowpeg", "highpeg"])),
    }
}

/// A token that is none, whole or cut off, in up to 17 braces or outside, with little before it that could fail.
fn misspelt(random: &mut Random) -> Vec<u8> {
    let mut script = b"#FLOO\n".to_vec();
    for _ in 0..random.below(3) {
        script.extend(random.choose(OBJECTS).bytes().chain(*b" "));
    }
    if random.below(2) == 0 {
        script.extend(handlers::before_fault(random).bytes());
    }
    let depth = match random.below(8) {
        0..=3 => 0,
        4 => 14 + random.below(4),
        _ => 1 + random.below(3),
    };
    for _ in 0..depth {
        script.extend(b"{ ");
        if random.below(2) == 0 {
            script.extend(random.choose(OBJECTS).bytes().chain(*b" "));
        }
    }
    let token = MISSPELT[random.below(MISSPELT.len())];
    let length = match random.below(2) {
        0 => token.len(),
        _ => random.below(token.len() + 1),
    };
    script.extend(&token[..length]);
    if random.below(2) == 0 {
        script.push(b" \t\r\n}/\"5"[random.below(8)]);
        script.extend(b" }".repeat(random.below(depth + 2)));
        script.extend(word(random).bytes());
    }
    script
}

fn near_border(random: &mut Random) -> i32 {
    let off = random.below(4) as i32;
    match random.below(4) {
        0 => i32::MIN + off,
        1 => i32::MAX - off,
        2 => 1_500_000_000 + off,
        _ => off - 2,
    }
}

/// A program with some bytes removed, changed or doubled and some words put in.
fn damaged_program(random: &mut Random) -> Vec<u8> {
    let mut script = random.choose(PROGRAMS).as_bytes().to_vec();
    for _ in 0..random.below(4) {
        let place = random.below(script.len());
        match random.below(5) {
            0 => {
                script.remove(place);
            }
            1 => script[place] = random.byte(),
            2 => script.insert(place, script[place]),
            _ => {
                let word = format!(" {} ", word(random));
                script.splice(place..place, word.into_bytes());
            }
        }
    }
    [&b"#FLOO\n"[..], &script].concat()
}
