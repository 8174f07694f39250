//! Echo lines read back (02, W14). Strings and integers, made in several ways, are echoed by the exported functions; what echo wrote is put into another script as it
//! stands there, and the step that takes it must push what was echoed. Strings echo alike exactly if their current bytes are equal. Each limit is tried at it and
//! one past it: the log, the cells, the stack and the script's length. Both scripts are run by the reference interpreter too.

use floo::floor::Record;
use floo_reference::floor::{self, LONGEST_PLACE};
use floo_reference::setup::{LONGEST_SCRIPT, PREDEFINED_NAMES};
use floo_reference::{Answer, Sizes};

use crate::lent::{Buffer, Lent};
use crate::random::Random;

/// What was read back.
#[derive(Default)]
pub struct Echoes {
    /// Strings, by the way they were made: as a token, by put, as the label of a scan.
    pub strings: [usize; 3],
    /// Of these, the ones with bytes after a zero.
    pub cut: usize,
    /// How often each byte was a current one.
    pub bytes: Vec<usize>,
    pub integers: usize,
    /// Pairs of strings with the same current bytes, and with others.
    pub pairs: [usize; 2],
    /// Runs whose log, cells and stack are just enough, and too little by one.
    pub log: [usize; 2],
    pub cells: [usize; 2],
    pub stack: [usize; 2],
    /// Scripts of 32,768 bytes that an echoed string ends.
    pub longest: usize,
}

impl Echoes {
    pub fn total(&self) -> usize {
        self.strings.iter().sum::<usize>() + self.integers
    }
}

/// Cases for each string that fills a script.
const LONG_EVERY: usize = 500;

/// How echo is executed: by its name, in a procedure, and as an operator that bind has put into one.
const FORMS: &[&str] = &[" echo", " { echo } exec", " { echo } bind exec", " /echo load exec"];

/// What an echoed string may stand before.
const AFTER_STRINGS: &[&str] = &["", " ", "7", "\"x\"", "/a", "[", "}", "a", "#", "\\", "\n1"];

/// What ends an echoed integer, and what may follow.
const AFTER_INTEGERS: &[&str] = &[" ", "\t", "\n", "\r", " 5", "\n5", "\t}", "\r\n", " \"", " #5"];

const GAPS: &[&str] = &["\n", " x\n\n", "\r", "\n \t# \"no\"\r\n  ", "\n#\n"];

/// The `n`-th case, or what went wrong.
pub fn compare(n: usize, random: &mut Random, tally: &mut Echoes) -> Result<(), String> {
    tally.bytes.resize(256, 0);
    match random.below(4) {
        0 => integer(random, tally)?,
        _ => strings(random, tally)?,
    }
    if n % LONG_EVERY == 0 {
        longest(random, tally)?;
    }
    Ok(())
}

// ---- runs

/// What one run has left, the reference interpreter agreeing.
struct Left {
    log: Vec<u8>,
    outcome: String,
    steps: u32,
}

impl Left {
    fn line(&self, key: &str) -> &str {
        let found = self.outcome.lines().find_map(|line| line.strip_prefix(key)?.strip_prefix('='));
        found.unwrap_or_default()
    }

    fn top(&self) -> &str {
        let last = self.outcome.lines().next_back();
        last.and_then(|line| line.strip_prefix("item=")).unwrap_or_default()
    }
}

fn run(script: &[u8], label: Option<&[u8]>, fuel: u32, sizes: &Sizes, random: &mut Random) -> Result<Left, String> {
    let mut lent = Lent::new(sizes, random);
    let (refused, steps, counts, expected) = match label {
        None => {
            let reply = lent.run(script, fuel);
            let expected = match floo_reference::run(script, fuel.into(), sizes) {
                Answer::Run(ran) => (ran.log, ran.outcome),
                Answer::Refused(number) => return Err(format!("the reference refuses with {number}")),
            };
            (reply.refused, reply.steps, [reply.log, reply.outcome], expected)
        }
        Some(label) => {
            let mut book = Buffer::new(0, || Record { number: 0, place: [0; LONGEST_PLACE], length: 0, time: 0 });
            let reply = lent.scan(script, fuel, label, &mut book, 0);
            let ran = floor::scan(script, fuel.into(), label, sizes, &mut [], 0).run;
            let ran = ran.ok_or("the reference makes no run")?;
            (reply.refused, reply.steps, [reply.log, reply.outcome], (ran.log, ran.outcome))
        }
    };
    if refused != 0 {
        return Err(format!("refused {refused}"));
    }
    let log = lent.log.lent()[..counts[0]].to_vec();
    let outcome = lent.outcome.lent()[..counts[1]].to_vec();
    if (&log, &outcome) != (&expected.0, &expected.1) {
        return Err("the reference differs".to_owned());
    }
    let outcome = String::from_utf8(outcome).map_err(|_| "the outcome is no text")?;
    Ok(Left { log, outcome, steps })
}

fn room() -> Sizes {
    Sizes {
        stack: 8,
        exec: 8,
        dictionary: PREDEFINED_NAMES + 8,
        cells: 64,
        log: 4_096,
        outcome: Sizes::least_outcome(8),
    }
}

fn told(script: &[u8], what: String) -> String {
    format!("{what}\n{}", script.escape_ascii())
}

/// Bytes or cells to lend, and whether they are enough: what is wanted, one less, or more.
fn limit(wanted: usize, least: usize, counts: &mut [usize; 2], random: &mut Random) -> (usize, bool) {
    match random.below(4) {
        0 => {
            counts[0] += 1;
            (wanted, true)
        }
        1 if wanted > least => {
            counts[1] += 1;
            (wanted - 1, false)
        }
        _ => (wanted + 40, true),
    }
}

// ---- strings

/// A string's bytes, as many as its maximum.
struct Made {
    bytes: Vec<u8>,
}

impl Made {
    fn new(random: &mut Random) -> Made {
        let length = match random.below(8) {
            0 => 0,
            1 => 1,
            2..=3 => random.below(5),
            _ => random.below(40),
        };
        Made {
            bytes: (0..length).map(|_| byte(random)).collect(),
        }
    }

    /// The bytes before the first zero.
    fn current(&self) -> &[u8] {
        let end = self.bytes.iter().position(|&b| b == 0).unwrap_or(self.bytes.len());
        &self.bytes[..end]
    }

    /// The same current bytes and others after a zero, or one current byte more, less or other.
    fn neighbour(&self, random: &mut Random) -> Made {
        let mut bytes = self.current().to_vec();
        match random.below(5) {
            0 if !bytes.is_empty() => bytes.truncate(bytes.len() - 1),
            1 => bytes.push(byte(random)),
            2 if !bytes.is_empty() => {
                let at = random.below(bytes.len());
                bytes[at] = byte(random);
            }
            _ => {}
        }
        if random.below(2) == 0 {
            bytes.push(0);
            bytes.extend((0..random.below(4)).map(|_| byte(random)));
        }
        Made { bytes }
    }

    /// What leaves it on the stack, and the label if it is lent.
    fn written(&self, way: usize, random: &mut Random) -> (Vec<u8>, Option<&[u8]>) {
        match way {
            0 => (token(&self.bytes, random), None),
            1 => {
                let puts = self.bytes.iter().enumerate().map(|(i, b)| format!(" dup {i} {b} put"));
                (format!("{} string{}", self.bytes.len(), puts.collect::<String>()).into_bytes(), None)
            }
            _ => (b"label".to_vec(), Some(&self.bytes)),
        }
    }
}

/// Bytes that echo and tokens treat as no other come often.
fn byte(random: &mut Random) -> u8 {
    match random.below(3) {
        0 => *random.choose(&[&0, &9, &10, &13, &31, &32, &34, &48, &55, &92, &110, &126, &127, &128, &255]),
        _ => random.byte(),
    }
}

/// A token of these bytes, each written in one of the ways that 01 has, with backslashes before line breaks between them.
fn token(bytes: &[u8], random: &mut Random) -> Vec<u8> {
    let mut text = b"\"".to_vec();
    for &b in bytes {
        match (b, random.below(3)) {
            (b'\n', 0) => text.extend(b"\\n"),
            (b'"', 0) => text.extend(b"\\\""),
            (b'"' | b'\\' | b'\n' | b'\r', _) | (_, 1) => text.extend(format!("\\{b:03o}").bytes()),
            _ => text.push(b),
        }
        if random.below(12) == 0 {
            text.extend(random.choose(&["\\\n", "\\\r\n", "\\\r"]).bytes());
        }
    }
    text.push(b'"');
    text
}

/// Two strings, each echoed and read back, and their lines compared.
fn strings(random: &mut Random, tally: &mut Echoes) -> Result<(), String> {
    let first = Made::new(random);
    let second = first.neighbour(random);
    let one = string(&first, random, tally)?;
    let other = string(&second, random, tally)?;
    let (Some(one), Some(other)) = (one, other) else {
        return Ok(());
    };
    let equal = first.current() == second.current();
    tally.pairs[usize::from(!equal)] += 1;
    if (one == other) != equal {
        return Err(format!("{:?} and {:?} echo {} and {}", first.bytes, second.bytes, one.escape_ascii(), other.escape_ascii()));
    }
    Ok(())
}

/// The line that echo wrote of a string; none where the log was too short for it.
fn string(made: &Made, random: &mut Random, tally: &mut Echoes) -> Result<Option<Vec<u8>>, String> {
    let way = random.below(3);
    let current = made.current();
    tally.strings[way] += 1;
    tally.cut += usize::from(current.len() < made.bytes.len());
    for &b in current {
        tally.bytes[usize::from(b)] += 1;
    }
    let (producer, label) = made.written(way, random);
    let script = [b"#FLOO\n", &producer[..], random.choose(FORMS).as_bytes()].concat();
    let expected = line(current);
    let (log, fits) = limit(expected.len(), 0, &mut tally.log, random);
    let left = run(&script, label, 3_000, &Sizes { log, ..room() }, random).map_err(|what| told(&script, what))?;
    if !fits {
        return match (left.line("error"), &left.log[..]) {
            ("ioerror", []) => Ok(None),
            (error, log) => Err(told(&script, format!("{error} and {} where the line does not fit", log.escape_ascii()))),
        };
    }
    if left.log != expected {
        return Err(told(&script, format!("echo wrote {}", left.log.escape_ascii())));
    }
    string_back(&left.log, current, random, tally)?;
    Ok(Some(left.log))
}

/// The text of a line as the token of a step.
fn string_back(line: &[u8], current: &[u8], random: &mut Random, tally: &mut Echoes) -> Result<(), String> {
    let text = &line[..line.len() - 1];
    let size = format!("string:{0}/{0}", current.len());
    let (cells, has_cells) = limit(1 + current.len().div_ceil(8), 1, &mut tally.cells, random);
    // items before it, where 8 slots are lent
    let below = *random.choose(&[&0, &0, &7, &8]);
    let has_slot = below < 8;
    if below > 0 {
        tally.stack[usize::from(!has_slot)] += 1;
    }
    let front = [b"#FLOO", random.choose(GAPS).as_bytes(), " 1".repeat(below).as_bytes(), b" "].concat();
    let script = [&front, text, random.choose(AFTER_STRINGS).as_bytes()].concat();
    let left = run(&script, None, below as u32 + 1, &Sizes { cells, ..room() }, random).map_err(|what| told(&script, what))?;
    let expected = match (has_slot, has_cells) {
        (true, true) => ("none", below + 1, &size[..]),
        (true, false) => ("VMerror", below, if below == 0 { "" } else { "integer:1" }),
        (false, _) => ("stackoverflow", below, "integer:1"),
    };
    let got = (left.line("error"), left.line("depth"), left.top());
    let at = if left.line("ending") == "finished" { script.len() } else { front.len() };
    if got != (expected.0, &expected.1.to_string()[..], expected.2) || left.steps as usize != below + 1 || left.line("at") != at.to_string() {
        return Err(told(&script, format!("{got:?} and not {expected:?}, at {}", left.line("at"))));
    }
    // the bytes themselves, and the line once more
    let script = [b"#FLOO\n", text, b" dup print echo"].concat();
    let left = run(&script, None, 100, &room(), random).map_err(|what| told(&script, what))?;
    if left.log != [current, line].concat() {
        return Err(told(&script, format!("{} from the pushed string", left.log.escape_ascii())));
    }
    Ok(())
}

/// What echo writes, by 01: `\"` and `\n`; bytes outside 32 to 126, and backslash, in octal.
fn line(current: &[u8]) -> Vec<u8> {
    let mut text = String::from("\"");
    for &b in current {
        match b {
            b'"' => text.push_str("\\\""),
            b'\n' => text.push_str("\\n"),
            b'\\' | 0..=31 | 127..=255 => text.push_str(&format!("\\{b:03o}")),
            _ => text.push(b.into()),
        }
    }
    text.push_str("\"\n");
    text.into_bytes()
}

/// A string whose text, with what is before it, is as long as a script may be.
fn longest(random: &mut Random, tally: &mut Echoes) -> Result<(), String> {
    let count = 10_800 + random.below(400);
    let step = 1 + 2 * random.below(128);
    let made: Vec<u8> = (0..count).map(|i| (i * step % 256 | 1) as u8).collect();
    let script = format!("#FLOO\n/s {count} string def 0 1 {} {{ s exch dup {step} mul 255 and 1 or put }} for s echo", count - 1);
    let sizes = Sizes {
        cells: 32_768,
        log: 65_536,
        ..room()
    };
    let left = run(script.as_bytes(), None, 1_000_000, &sizes, random)?;
    if left.log != line(&made) {
        return Err(format!("another line of {count} bytes"));
    }
    let text = &left.log[..left.log.len() - 1];
    let front = b"#FLOO\n";
    let blanks = LONGEST_SCRIPT - front.len() - text.len();
    let mut taken = [front, " ".repeat(blanks).as_bytes(), text].concat();
    tally.longest += 1;
    let left = run(&taken, None, 1, &sizes, random)?;
    if (left.line("ending"), left.top()) != ("finished", &format!("string:{count}/{count}")[..]) {
        return Err(format!("a script of {} bytes: {}", taken.len(), left.outcome));
    }
    taken.insert(front.len(), b' ');
    match Lent::new(&sizes, random).run(&taken, 1).refused {
        1 => Ok(()),
        refused => Err(format!("a script of {} bytes: refused {refused}", taken.len())),
    }
}

// ---- integers

/// An integer, made by a token or by arithmetic that may wrap, echoed and read back before a space.
fn integer(random: &mut Random, tally: &mut Echoes) -> Result<(), String> {
    tally.integers += 1;
    let number = match random.below(4) {
        0 => *random.choose(&[&i32::MIN, &(i32::MIN + 1), &-10, &-9, &-1, &0, &9, &10, &(i32::MAX - 1), &i32::MAX]),
        1 => random.below(2_000) as i32 - 1_000,
        _ => random.below(usize::MAX) as i32,
    };
    let other = random.below(usize::MAX) as i32;
    let producer = match random.below(3) {
        0 => number.to_string(),
        1 => format!("0x{number:X}"),
        _ => format!("{} {other} add", number.wrapping_sub(other)),
    };
    let script = [b"#FLOO\n", producer.as_bytes(), random.choose(FORMS).as_bytes()].concat();
    let line = format!("{number}\n");
    let (log, fits) = limit(line.len(), 0, &mut tally.log, random);
    let left = run(&script, None, 100, &Sizes { log, ..room() }, random).map_err(|what| told(&script, what))?;
    let (error, wrote) = if fits { ("none", &line[..]) } else { ("ioerror", "") };
    if (left.line("error"), &left.log[..]) != (error, wrote.as_bytes()) {
        return Err(told(&script, format!("{} and {}", left.line("error"), left.log.escape_ascii())));
    }
    if !fits {
        return Ok(());
    }
    let text = &left.log[..left.log.len() - 1];
    let front = [b"#FLOO", random.choose(GAPS).as_bytes()].concat();
    let script = [&front, text, random.choose(AFTER_INTEGERS).as_bytes()].concat();
    let left = run(&script, None, 1, &room(), random).map_err(|what| told(&script, what))?;
    if (left.steps, left.line("depth"), left.top()) != (1, "1", &format!("integer:{number}")[..]) {
        return Err(told(&script, left.outcome));
    }
    Ok(())
}
