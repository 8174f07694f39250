//! Random Forf scripts, fuel, room and memory, run by the exported runner and by the reference interpreter: the answer, the outcome, the memory, and every lent
//! word and byte around what may change. And their tokens, read by both at every offset.

use floo::{forf_lent, forf_token_reply};
use floo_reference::forf::{read_token, run, Ending, Kind, Reading, Refusal, Room, ERRORS, MEMORY_SLOTS};

use crate::random::Random;

/// What was compared.
#[derive(Default)]
pub struct Forfs {
    pub scripts: usize,
    pub steps: u64,
    /// By 1, 3, 4, 5, 9, and a memory of other than 32 slots.
    pub refused: [usize; 6],
    pub finished: usize,
    pub spent: usize,
    /// By the error, in the paper's order.
    pub failed: [usize; ERRORS.len()],
    /// Runs that left another memory than they found, and those of them that failed.
    pub stored: usize,
    pub stored_then_failed: usize,
    /// Tokens by their kind, faults and refusals.
    pub tokens: [usize; 5],
    pub faults: usize,
    pub past_end: usize,
}

const WORDS: [&str; 27] = [
    "~", "!", "abs", "+", "-", "*", "/", "%", "&", "|", "^", "<<", ">>", ">", ">=", "<", "<=", "=", "<>", "if", "ifelse", "pop", "dup", "exch", "mset", "mget", "frob",
];

const NUMBERS: [&str; 24] = [
    "0", "1", "-1", "2", "5", "-7", "31", "32", "33", "-31", "-32", "2147483647", "-2147483648", "2147483646", "0x7fffffff", "-0x80000000", "010", "-017", "00", "0xA", "65536", "3", "4", "8",
];

const BAD: [&str; 14] =
    ["08", "0x", "0X1", "2147483648", "-2147483649", "0xFFFFFFFF", "5+", "1-2", ")", "}", "(", "{", "aaaaaaaaaabbbbbbbbbbccccccccccde", "{{{{{{{{{{{{{{{{{}}}}}}}}}}}}}}}}}"];

/// A space, a comment, or nothing where a brace stands beside.
fn gap(random: &mut Random, script: &mut Vec<u8>) {
    let gap = ["", " ", " ", " ", "\n", "\t", " (a comment { ) ", "(x)", "\r\n"][random.below(9)];
    let glued = gap.is_empty() && !matches!(script.last(), None | Some(b'{' | b'}' | b' '));
    script.extend(if glued { b" " } else { gap.as_bytes() });
}

fn items(random: &mut Random, script: &mut Vec<u8>, depth: usize, count: usize) {
    for _ in 0..count {
        gap(random, script);
        match random.below(100) {
            0..=49 => script.extend(NUMBERS[random.below(NUMBERS.len())].bytes()),
            50..=74 => script.extend(WORDS[random.below(WORDS.len())].bytes()),
            75..=76 => script.extend(["58 31 mset", "3 mget exch", "9 0 mset"][random.below(3)].bytes()),
            77 => script.extend(BAD[random.below(BAD.len())].bytes()),
            78 => script.extend([random.byte(), random.byte()]),
            79..=84 => script.extend(["1 { 7 } if", "0 { 8 } if", "1 { 2 } { 3 } ifelse", "dup { pop } if", "{ dup 1 exch if } dup 1 exch if", "{ { 0 mget 1 + 0 mset } dup dup 1 exch if 1 exch if 1 exch if } dup dup 1 exch if 1 exch if 1 exch if"][random.below(6)].bytes()),
            _ if depth > 0 => {
                script.push(b'{');
                let inner = random.below(5);
                items(random, script, depth - 1, inner);
                gap(random, script);
                script.push(b'}');
            }
            _ => script.extend(b"1"),
        }
    }
}

pub fn script(random: &mut Random) -> Vec<u8> {
    let mut script = Vec::new();
    let depth = [1, 2, 3, 4, 17][random.below(5)];
    let count = random.below(40);
    if random.below(4) > 0 {
        script.extend(b"5 -7 3 2147483647 9 4 { 1 } 2 31 -32 8 ");
    }
    items(random, &mut script, depth, count);
    if random.below(200) == 0 {
        script.resize(32_760 + random.below(20), b' ');
    }
    script
}

fn room(random: &mut Random) -> Room {
    let odd = |random: &mut Random, usual: usize| match random.below(20) {
        0 => random.below(2 * usual + 8),
        _ => usual,
    };
    let stack = [16, 17, 20, 64, 512][random.below(5)];
    let execution = [32, 39, 40, 80, 1024][random.below(5)];
    let stack_words = odd(random, stack);
    let memory_words = if random.below(25) == 0 { random.below(40) } else { MEMORY_SLOTS };
    let least = Room::least_outcome(stack_words / 2);
    let outcome_bytes = if random.below(25) == 0 { least.saturating_sub(random.below(3)) } else { least + random.below(3) };
    Room { stack_words, execution_words: odd(random, execution), memory_words, outcome_bytes }
}

/// A buffer between two margins.
struct Lent<T> {
    all: Vec<T>,
    size: usize,
}

const MARGIN: usize = 3;

impl<T: Copy + PartialEq> Lent<T> {
    fn new(size: usize, mut any: impl FnMut() -> T) -> Lent<T> {
        Lent { all: (0..size + 2 * MARGIN).map(|_| any()).collect(), size }
    }

    fn lend(&mut self) -> &mut [T] {
        &mut self.all[MARGIN..MARGIN + self.size]
    }

    /// Whether all is as before from so many elements on, and before the first.
    fn kept_from(&self, count: usize, before: &[T]) -> bool {
        self.all[..MARGIN] == before[..MARGIN] && self.all[MARGIN + count..] == before[MARGIN + count..]
    }
}

fn word(random: &mut Random) -> u32 {
    u32::from_be_bytes([random.byte(), random.byte(), random.byte(), random.byte()])
}

pub fn compare(random: &mut Random, tally: &mut Forfs) -> Result<(), String> {
    let script = script(random);
    let fuel = match random.below(20) {
        0 => 1_000_000 + word(random) % 3,
        1..=6 => word(random) % 60,
        _ => 2_000,
    };
    let room = room(random);
    let mut stack = Lent::new(room.stack_words, || word(random));
    let mut execution = Lent::new(room.execution_words, || word(random));
    let mut memory = Lent::new(room.memory_words, || word(random) % 5);
    let mut outcome = Lent::new(room.outcome_bytes, || random.byte());
    let before = (stack.all.clone(), execution.all.clone(), memory.all.clone(), outcome.all.clone());
    let reply = forf_lent(&script, fuel, stack.lend(), execution.lend(), memory.lend(), outcome.lend());
    let mut start = [0; MEMORY_SLOTS];
    for (slot, &w) in start.iter_mut().zip(&before.2[MARGIN..MARGIN + room.memory_words]) {
        *slot = i32::from_ne_bytes(w.to_ne_bytes());
    }
    let told = |what: &str| Err(format!("{what}\nfuel {fuel} {room:?}\n{}", script.escape_ascii()));
    tally.scripts += 1;
    match run(&script, fuel.into(), &room, start) {
        Err(refusal) => {
            let (number, named, place) = match refusal {
                Refusal::Number(n) => (n, 0, [1, 3, 4, 5, 9].iter().position(|&k| k == n).unwrap_or(0)),
                Refusal::MemorySlots => (0, 1, 5),
            };
            tally.refused[place] += 1;
            if (reply.refused, reply.memory, reply.steps, reply.outcome) != (number, named, 0, 0) {
                return told(&format!("{reply:?} and not {refusal:?}"));
            }
            if (stack.all, execution.all, memory.all, outcome.all) != before {
                return told("a refusal changed a lent word or byte");
            }
        }
        Ok(ran) => {
            if (reply.refused, reply.memory) != (0, 0) || u64::from(reply.steps) != ran.steps {
                return told(&format!("{reply:?} and not {} steps", ran.steps));
            }
            tally.steps += ran.steps;
            if outcome.lend()[..reply.outcome] != ran.outcome {
                let got = outcome.lend()[..reply.outcome].escape_ascii().to_string();
                return told(&format!("{got}\nand not\n{}", ran.outcome.escape_ascii()));
            }
            let left: Vec<u32> = ran.memory.iter().map(|n| u32::from_ne_bytes(n.to_ne_bytes())).collect();
            if memory.lend() != &left[..] {
                return told("another memory");
            }
            let whole = [room.stack_words / 2 * 2, room.execution_words / 8 * 8];
            if !stack.kept_from(whole[0], &before.0) || !execution.kept_from(whole[1], &before.1) || !memory.kept_from(MEMORY_SLOTS, &before.2) || !outcome.kept_from(reply.outcome, &before.3) {
                return told("a word or byte changed that may not");
            }
            let stored = ran.memory != start;
            tally.stored += usize::from(stored);
            match ran.ending {
                Ending::Finished => tally.finished += 1,
                Ending::Fuel => tally.spent += 1,
                Ending::Failed(error, _) => {
                    tally.failed[error as usize] += 1;
                    tally.stored_then_failed += usize::from(stored);
                }
            }
        }
    }
    compare_tokens(&script, tally)
}

fn compare_tokens(script: &[u8], tally: &mut Forfs) -> Result<(), String> {
    let long = script.len() > 1_000;
    for offset in (0..=script.len() + 1).filter(|&offset| !long || offset % 4_099 == 0 || offset > script.len() - 10) {
        let reply = forf_token_reply(script, offset);
        let got = (reply.refused, reply.fault, reply.kind, reply.next, reply.start, reply.size);
        let expected = match read_token(script, offset) {
            Reading::Refused(number) => {
                tally.past_end += usize::from(number == 10);
                (number, 0, 0, offset, 0, 0)
            }
            Reading::Faulty => {
                tally.faults += 1;
                (0, 1, 0, offset, 0, 0)
            }
            Reading::Token { kind, next, start, size } => {
                let kinds = [Kind::Integer, Kind::Word, Kind::OpenBrace, Kind::CloseBrace, Kind::End];
                let place = kinds.iter().position(|&k| k == kind).unwrap_or(0);
                tally.tokens[place] += 1;
                (0, 0, place as u32 + 1, next, start, size)
            }
        };
        if got != expected {
            return Err(format!("token {got:?} and not {expected:?} at {offset}\n{}", script.escape_ascii()));
        }
    }
    Ok(())
}

/// So many cases from a seed, or how the two differ.
pub fn compare_all(count: usize, seed: u64) -> Result<Forfs, String> {
    let mut random = Random::new(seed | 1);
    let mut tally = Forfs::default();
    for _ in 0..count {
        compare(&mut random, &mut tally)?;
    }
    Ok(tally)
}
