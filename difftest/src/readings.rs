//! The token reading at every offset of a script, by the exported function and by the reference interpreter: the refusal, the fault with its place or the kind,
//! the offset after, and the part, which is the script's own bytes at one place.

use floo::{token, token_reply, TokenError, TokenReply};
use floo_reference::{read_token, Fault, Kind, Reading, TokenAnswer};

use crate::random::Random;

/// Bytes that begin or end a token, or are met within one.
const TELLING: &[u8] = b"\"\"\"\"\\\\\\//{}[]#\r\n\r\n \t---00123789xxabcdefAFXgnz!~.";

const NUMBERS: &[&str] = &[
    "2147483647",
    "2147483648",
    "-2147483648",
    "-2147483649",
    "0xFFFFFFFF",
    "0x100000000",
    "0x7fffffff",
    "00000000000000000000000000000000001",
];

const ESCAPES: &[&str] = &[
    "\\n", "\\\"", "\\101", "\\377", "\\400", "\\7", "\\3", "\\38", "\\01", "\\018", "\\\r\n", "\\\r", "\\\n", "\\\\", "\\q",
];

/// How often each answer was given, by both.
#[derive(Clone, Copy, Default)]
pub struct Readings {
    /// By the number of the kind, less 1.
    pub kinds: [usize; 7],
    /// By the number of the fault, less 13: badnumber, badescape, openstring, badbrace, which is the runner's alone, and badbyte.
    pub faults: [usize; 5],
    /// Of these, the ones whose place is the script's length: it ended first.
    pub faults_at_end: usize,
    pub limitchecks: usize,
    pub too_long: usize,
    pub past_end: usize,
}

impl Readings {
    pub fn total(&self) -> usize {
        let tokens: usize = self.kinds.iter().sum();
        let faults: usize = self.faults.iter().sum();
        tokens + faults + self.limitchecks + self.too_long + self.past_end
    }
}

/// All offsets of the script, one past its length, and one far off.
pub fn compare(script: &[u8], tally: &mut Readings) -> Result<(), String> {
    for offset in (0..=script.len() + 1).chain([usize::MAX]) {
        compare_at(script, offset, tally)?;
    }
    Ok(())
}

/// A script around the longest length, at some of its offsets.
pub fn compare_long(random: &mut Random, tally: &mut Readings) -> Result<(), String> {
    let length = 32_766 + random.below(5);
    let part = row(random);
    let script: Vec<u8> = part.iter().chain(b" ").copied().cycle().take(length).collect();
    for offset in (length - 2..length + 2).chain([0, usize::MAX]) {
        compare_at(&script, offset, tally)?;
    }
    for _ in 0..10 {
        compare_at(&script, random.below(length), tally)?;
    }
    Ok(())
}

/// Random bytes, most of them telling ones.
pub fn row(random: &mut Random) -> Vec<u8> {
    let mut row = Vec::new();
    for _ in 0..random.below(40) {
        match random.below(24) {
            0 => row.extend(name(random)),
            1 => row.extend(random.choose(NUMBERS).bytes()),
            2..=4 => row.extend(random.choose(ESCAPES).bytes()),
            5 => row.push(127 + random.below(129) as u8),
            6 => row.push(random.below(33) as u8),
            7 => row.push(random.byte()),
            _ => row.push(TELLING[random.below(TELLING.len())]),
        }
    }
    row
}

/// A name of about the longest length, or what begins like a number.
fn name(random: &mut Random) -> Vec<u8> {
    let first = *random.choose(&[&b'n', &b'/', &b'-', &b'7']);
    let mut name = vec![first];
    name.resize(30 + random.below(4), b'n');
    name
}

fn compare_at(script: &[u8], offset: usize, tally: &mut Readings) -> Result<(), String> {
    let expected = read_token(script, offset);
    let reply = token_reply(script, offset);
    if !agrees(script, offset, &expected, &reply) {
        return Err(format!("token at {offset}: {reply:?} for {expected:?}\n{}", script.escape_ascii()));
    }
    match expected.answer {
        TokenAnswer::Kind(_) => tally.kinds[reply.kind as usize - 1] += 1,
        TokenAnswer::Fault(fault) => match place_of(fault) {
            None => tally.limitchecks += 1,
            Some((number, place)) => {
                tally.faults[number as usize - FIRST_PLACED as usize] += 1;
                tally.faults_at_end += usize::from(place == script.len());
            }
        },
        TokenAnswer::Refused(1) => tally.too_long += 1,
        TokenAnswer::Refused(_) => tally.past_end += 1,
    }
    Ok(())
}

/// The numbers, the place, the offset after and the part, and the same by the Rust crate's own function.
fn agrees(script: &[u8], offset: usize, expected: &Reading<'_>, reply: &TokenReply) -> bool {
    // the refusal, the fault, the kind and the place
    let numbers = match expected.answer {
        TokenAnswer::Refused(number) => (number.into(), 0, 0, 0),
        TokenAnswer::Fault(fault) => match place_of(fault) {
            None => (0, LIMITCHECK, 0, 0),
            Some((number, place)) => (0, number, 0, place),
        },
        TokenAnswer::Kind(kind) => (0, 0, number(kind), 0),
    };
    let own = match token(script, offset) {
        Ok(read) => {
            read.next == expected.next && is_part(read.part, expected.part) && numbers == (0, 0, read.kind as u32, 0)
        }
        Err(TokenError::Refused(refusal)) => numbers == (refusal.number(), 0, 0, 0),
        Err(error) => expected.answer == TokenAnswer::Fault(to_reference(error)),
    };
    let part = script.get(reply.start..).and_then(|rest| rest.get(..reply.size));
    own && numbers == (reply.refused, reply.fault, reply.kind, reply.place as usize)
        && reply.next == expected.next
        && part.is_some_and(|part| is_part(part, expected.part))
}

const LIMITCHECK: u32 = 2;

/// The faults that have a place are numbered from here on.
const FIRST_PLACED: u32 = 13;

/// The number of a fault and its place, but for limitcheck.
fn place_of(fault: Fault) -> Option<(u32, usize)> {
    match fault {
        Fault::Badnumber(place) => Some((FIRST_PLACED, place)),
        Fault::Badescape(place) => Some((FIRST_PLACED + 1, place)),
        Fault::Openstring(place) => Some((FIRST_PLACED + 2, place)),
        Fault::Badbrace(place) => Some((FIRST_PLACED + 3, place)),
        Fault::Badbyte(place) => Some((FIRST_PLACED + 4, place)),
        Fault::Limitcheck => None,
    }
}

/// The fault that the Rust crate tells.
fn to_reference(error: TokenError) -> Fault {
    match error {
        TokenError::BadNumber(place) => Fault::Badnumber(place),
        TokenError::BadEscape(place) => Fault::Badescape(place),
        TokenError::OpenString(place) => Fault::Openstring(place),
        TokenError::BadByte(place) => Fault::Badbyte(place),
        TokenError::LimitCheck => Fault::Limitcheck,
        other => unreachable!("{other} is no fault"),
    }
}

/// The same bytes of the script, not equal ones. An empty part is anywhere.
fn is_part(part: &[u8], expected: &[u8]) -> bool {
    part.is_empty() && expected.is_empty() || std::ptr::eq(part, expected)
}

fn number(kind: Kind) -> u32 {
    match kind {
        Kind::Integer => 1,
        Kind::String => 2,
        Kind::LiteralName => 3,
        Kind::ExecutableName => 4,
        Kind::OpenBrace => 5,
        Kind::CloseBrace => 6,
        Kind::End => 7,
    }
}
