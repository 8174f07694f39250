//! Forf for the shelf displays (02, W10): a small interpreter of its own, written from the language's document ("002") and the settled readings (W10.1 to W10.32 of
//! ../docs/DECISIONS.md). A substack is read into a tree once and shared; nothing of Floo's machine is used.

use std::rc::Rc;

pub const MEMORY_SLOTS: usize = 32;

const LONGEST_SCRIPT: usize = 32_768;
const MOST_FUEL: u64 = 1_000_000;
const LONGEST_WORD: usize = 31;
const DEEPEST: usize = 16;

/// The lent room in words of 32 bits, and in bytes.
#[derive(Clone, Copy, Debug)]
pub struct Room {
    pub stack_words: usize,
    pub execution_words: usize,
    pub memory_words: usize,
    pub outcome_bytes: usize,
}

impl Room {
    pub fn stack_slots(&self) -> usize {
        self.stack_words / 2
    }

    pub fn execution_slots(&self) -> usize {
        self.execution_words / 8
    }

    pub fn least_outcome(stack_slots: usize) -> usize {
        256 + 136 * stack_slots
    }
}

impl Default for Room {
    fn default() -> Self {
        Room {
            stack_words: 512,
            execution_words: 1024,
            memory_words: MEMORY_SLOTS,
            outcome_bytes: Room::least_outcome(256),
        }
    }
}

#[derive(Clone, Copy, Debug, PartialEq, Eq)]
pub enum Refusal {
    Number(u32),
    MemorySlots,
}

impl Refusal {
    /// "refused=" and the number, or the paper's words.
    pub fn line(self) -> String {
        match self {
            Refusal::Number(number) => format!("refused={number}\n"),
            Refusal::MemorySlots => "refused=memory not 32 slots\n".to_string(),
        }
    }
}

#[derive(Clone, Copy, Debug, PartialEq, Eq, PartialOrd, Ord)]
pub enum Error {
    Syntax,
    Undefined,
    StackUnderflow,
    Type,
    Range,
    UndefinedResult,
    ExecStackOverflow,
    StackOverflow,
}

pub const ERRORS: [Error; 8] = [
    Error::Syntax,
    Error::Undefined,
    Error::StackUnderflow,
    Error::Type,
    Error::Range,
    Error::UndefinedResult,
    Error::ExecStackOverflow,
    Error::StackOverflow,
];

impl Error {
    pub fn name(self) -> &'static str {
        match self {
            Error::Syntax => "syntaxerror",
            Error::Undefined => "undefined",
            Error::StackUnderflow => "stackunderflow",
            Error::Type => "typecheck",
            Error::Range => "rangecheck",
            Error::UndefinedResult => "undefinedresult",
            Error::ExecStackOverflow => "execstackoverflow",
            Error::StackOverflow => "stackoverflow",
        }
    }
}

#[derive(Clone, Copy, Debug, PartialEq, Eq)]
pub enum Kind {
    Integer,
    Word,
    OpenBrace,
    CloseBrace,
    End,
}

/// What the public reading of a token answers.
#[derive(Clone, Copy, Debug, PartialEq, Eq)]
pub enum Reading {
    Refused(u32),
    Faulty,
    Token { kind: Kind, next: usize, start: usize, size: usize },
}

pub enum Ending {
    Finished,
    Fuel,
    Failed(Error, Vec<u8>),
}

/// What a run leaves.
pub struct Ran {
    pub ending: Ending,
    pub steps: u64,
    pub at: usize,
    pub outcome: Vec<u8>,
    pub memory: [i32; MEMORY_SLOTS],
}

// ---- tokens

enum Lexeme {
    Integer(i32),
    Word(Vec<u8>),
    Open,
    Close,
    End,
}

fn is_space(byte: u8) -> bool {
    matches!(byte, b'\t' | b'\n' | b'\r' | b' ')
}

fn ends_token(byte: u8) -> bool {
    is_space(byte) || matches!(byte, b'{' | b'}' | b'(' | b')')
}

/// Past space and whole comments; a parenthesis that is never closed is no comment (W10.4).
fn skip(script: &[u8], mut at: usize) -> usize {
    while let Some(&byte) = script.get(at) {
        if is_space(byte) {
            at += 1;
        } else if byte == b'(' {
            match script[at..].iter().position(|&b| b == b')') {
                Some(length) => at += length + 1,
                None => return at,
            }
        } else {
            return at;
        }
    }
    at
}

/// The token at an offset that is neither space nor comment, and the offset after it.
fn lex(script: &[u8], start: usize) -> Result<(Lexeme, usize), Error> {
    match script.get(start) {
        None => Ok((Lexeme::End, start)),
        Some(b'{') => Ok((Lexeme::Open, start + 1)),
        Some(b'}') => Ok((Lexeme::Close, start + 1)),
        Some(b'(' | b')') => Err(Error::Syntax),
        Some(_) => {
            let size = script[start..].iter().take_while(|&&b| !ends_token(b)).count();
            let run = &script[start..start + size];
            Ok((run_token(run)?, start + size))
        }
    }
}

fn run_token(run: &[u8]) -> Result<Lexeme, Error> {
    let begins = run[0].is_ascii_digit() || (run[0] == b'-' && run.get(1).is_some_and(u8::is_ascii_digit));
    if begins {
        return integer(run).map(Lexeme::Integer).ok_or(Error::Syntax);
    }
    match run.len() <= LONGEST_WORD {
        true => Ok(Lexeme::Word(run.to_vec())),
        false => Err(Error::Syntax),
    }
}

/// Decimal, octal after `0` or hexadecimal after `0x`, with or without a sign (W10.5).
fn integer(run: &[u8]) -> Option<i32> {
    let (negative, digits) = match run.strip_prefix(b"-") {
        Some(rest) => (true, rest),
        None => (false, run),
    };
    let (base, digits) = match digits {
        [b'0', b'x', rest @ ..] => (16, rest),
        [b'0', rest @ ..] if !rest.is_empty() => (8, rest),
        _ => (10, digits),
    };
    if digits.is_empty() {
        return None;
    }
    let mut value: i64 = 0;
    for &byte in digits {
        let digit = char::from(byte).to_digit(base)?;
        value = (value * i64::from(base) + i64::from(digit)).min(1 << 40);
    }
    i32::try_from(if negative { -value } else { value }).ok()
}

/// The public token reading: refusals 1 and 10, a syntaxerror, or the token (W10.32).
pub fn read_token(script: &[u8], offset: usize) -> Reading {
    if script.len() > LONGEST_SCRIPT {
        return Reading::Refused(1);
    }
    if offset > script.len() {
        return Reading::Refused(10);
    }
    let start = skip(script, offset);
    match lex(script, start) {
        Err(_) => Reading::Faulty,
        Ok((lexeme, next)) => {
            let kind = match lexeme {
                Lexeme::Integer(_) => Kind::Integer,
                Lexeme::Word(_) => Kind::Word,
                Lexeme::Open => Kind::OpenBrace,
                Lexeme::Close => Kind::CloseBrace,
                Lexeme::End => Kind::End,
            };
            Reading::Token { kind, next, start, size: next - start }
        }
    }
}

// ---- items

#[derive(Clone)]
enum Item {
    Integer(i32),
    Word(Vec<u8>),
    Substack(Rc<Vec<Item>>),
}

/// The items of a group whose brace is passed, with `open` braces open; and the offset after it.
fn read_group(script: &[u8], mut at: usize, open: usize) -> Result<(Vec<Item>, usize), Error> {
    let mut items = Vec::new();
    loop {
        let (lexeme, next) = lex(script, skip(script, at))?;
        at = next;
        match lexeme {
            Lexeme::Integer(n) => items.push(Item::Integer(n)),
            Lexeme::Word(word) => items.push(Item::Word(word)),
            Lexeme::Open if open == DEEPEST => return Err(Error::Syntax),
            Lexeme::Open => {
                let (inner, next) = read_group(script, at, open + 1)?;
                items.push(Item::Substack(Rc::new(inner)));
                at = next;
            }
            Lexeme::Close => return Ok((items, at)),
            Lexeme::End => return Err(Error::Syntax),
        }
    }
}

/// The item of the script's token at `start`.
fn take(script: &[u8], start: usize) -> Result<(Item, usize), Error> {
    match lex(script, start)? {
        (Lexeme::Integer(n), next) => Ok((Item::Integer(n), next)),
        (Lexeme::Word(word), next) => Ok((Item::Word(word), next)),
        (Lexeme::Open, next) => {
            let (items, next) = read_group(script, next, 1)?;
            Ok((Item::Substack(Rc::new(items)), next))
        }
        (Lexeme::Close | Lexeme::End, _) => Err(Error::Syntax),
    }
}

// ---- the machine

#[derive(Clone)]
enum Value {
    Integer(i32),
    Substack(Rc<Vec<Item>>),
}

#[derive(Clone)]
enum Frame {
    Pending(Rc<Vec<Item>>),
    Running(Rc<Vec<Item>>, usize),
}

#[derive(Clone)]
struct Machine {
    stack: Vec<Value>,
    frames: Vec<Frame>,
    memory: [i32; MEMORY_SLOTS],
}

impl Machine {
    /// The topmost N items, the lowest first, taken off.
    fn pop<const N: usize>(&mut self) -> Result<[Value; N], Error> {
        let rest = self.stack.len().checked_sub(N).ok_or(Error::StackUnderflow)?;
        let items: Vec<Value> = self.stack.split_off(rest);
        Ok(items.try_into().unwrap_or_else(|_| unreachable!("N items")))
    }

    fn push(&mut self, n: i32) {
        self.stack.push(Value::Integer(n));
    }

    fn perform(&mut self, word: &[u8]) -> Result<(), Error> {
        match word {
            b"~" | b"!" | b"abs" => {
                let [x] = self.pop()?;
                let x = int(&x)?;
                self.push(match word {
                    b"~" => !x,
                    b"!" => i32::from(x == 0),
                    _ => x.wrapping_abs(),
                });
            }
            b"+" | b"-" | b"*" | b"/" | b"%" | b"&" | b"|" | b"^" | b"<<" | b">>" | b">" | b">=" | b"<" | b"<=" | b"=" | b"<>" => {
                let [y, x] = self.pop()?;
                let (y, x) = (int(&y)?, int(&x)?);
                let result = calculate(word, y, x)?;
                self.push(result);
            }
            b"if" => {
                let [x, body] = self.pop()?;
                let (x, body) = (int(&x)?, substack(&body)?);
                if x != 0 {
                    self.frames.push(Frame::Pending(body));
                }
            }
            b"ifelse" => {
                let [x, yes, no] = self.pop()?;
                let (x, yes, no) = (int(&x)?, substack(&yes)?, substack(&no)?);
                self.frames.push(Frame::Pending(if x != 0 { yes } else { no }));
            }
            b"pop" => {
                let [_] = self.pop()?;
            }
            b"dup" => {
                let [x] = self.pop()?;
                self.stack.extend([x.clone(), x]);
            }
            b"exch" => {
                let [y, x] = self.pop()?;
                self.stack.extend([x, y]);
            }
            b"mset" => {
                let [y, x] = self.pop()?;
                let (y, x) = (int(&y)?, int(&x)?);
                self.memory[slot(x)?] = y;
            }
            b"mget" => {
                let [x] = self.pop()?;
                let found = self.memory[slot(int(&x)?)?];
                self.push(found);
            }
            _ => return Err(Error::Undefined),
        }
        Ok(())
    }

    fn act(&mut self, item: &Item) -> Result<(), Error> {
        match item {
            Item::Integer(n) => self.push(*n),
            Item::Substack(items) => self.stack.push(Value::Substack(items.clone())),
            Item::Word(word) => self.perform(word)?,
        }
        Ok(())
    }
}

fn int(value: &Value) -> Result<i32, Error> {
    match value {
        Value::Integer(n) => Ok(*n),
        Value::Substack(_) => Err(Error::Type),
    }
}

fn substack(value: &Value) -> Result<Rc<Vec<Item>>, Error> {
    match value {
        Value::Integer(_) => Err(Error::Type),
        Value::Substack(items) => Ok(items.clone()),
    }
}

fn slot(x: i32) -> Result<usize, Error> {
    usize::try_from(x).ok().filter(|&x| x < MEMORY_SLOTS).ok_or(Error::Range)
}

fn calculate(word: &[u8], y: i32, x: i32) -> Result<i32, Error> {
    let shift = u32::try_from(x).ok().filter(|&x| x < 32);
    Ok(match word {
        b"+" => y.wrapping_add(x),
        b"-" => y.wrapping_sub(x),
        b"*" => y.wrapping_mul(x),
        b"/" | b"%" if x == 0 => return Err(Error::UndefinedResult),
        b"/" => y.wrapping_div(x),
        b"%" => y.wrapping_rem(x),
        b"&" => y & x,
        b"|" => y | x,
        b"^" => y ^ x,
        b"<<" => shift.map_or(0, |x| y << x),
        b">>" => y >> shift.unwrap_or(31),
        b">" => i32::from(y > x),
        b">=" => i32::from(y >= x),
        b"<" => i32::from(y < x),
        b"<=" => i32::from(y <= x),
        b"=" => i32::from(y == x),
        _ => i32::from(y != x),
    })
}

// ---- the run

/// The first refusal that applies, in the paper's order (W10.28).
pub fn refusal(script: &[u8], fuel: u64, room: &Room) -> Option<Refusal> {
    let number = |number| Some(Refusal::Number(number));
    if script.len() > LONGEST_SCRIPT {
        number(1)
    } else if fuel > MOST_FUEL {
        number(3)
    } else if !(8..=256).contains(&room.stack_slots()) {
        number(4)
    } else if !(4..=128).contains(&room.execution_slots()) {
        number(5)
    } else if room.outcome_bytes < Room::least_outcome(room.stack_slots()) {
        number(9)
    } else if room.memory_words != MEMORY_SLOTS {
        Some(Refusal::MemorySlots)
    } else {
        None
    }
}

/// The run of a script in room that setup accepts, from a memory.
pub fn run(script: &[u8], fuel: u64, room: &Room, memory: [i32; MEMORY_SLOTS]) -> Result<Ran, Refusal> {
    if let Some(refusal) = refusal(script, fuel, room) {
        return Err(refusal);
    }
    let mut machine = Machine { stack: Vec::new(), frames: Vec::new(), memory };
    let (mut next, mut at, mut steps) = (0, 0, 0);
    let ending = loop {
        if machine.frames.is_empty() && skip(script, next) == script.len() {
            at = script.len();
            break Ending::Finished;
        }
        if steps == fuel {
            break Ending::Fuel;
        }
        steps += 1;
        let before = machine.clone();
        let mut command = Vec::new();
        let taken = match machine.frames.pop() {
            None => {
                at = skip(script, next);
                match take(script, at) {
                    Err(error) => break Ending::Failed(error, command),
                    Ok((item, after)) => {
                        next = after;
                        Some(item)
                    }
                }
            }
            Some(Frame::Pending(items)) => {
                machine.frames.push(Frame::Running(items, 0));
                None
            }
            Some(Frame::Running(items, place)) => items.get(place).cloned().inspect(|_| {
                machine.frames.push(Frame::Running(items.clone(), place + 1));
            }),
        };
        let mut done = Ok(());
        if let Some(item) = taken {
            if let Item::Word(word) = &item {
                command = escaped(word);
            }
            done = machine.act(&item);
        }
        let fits = done.and_then(|()| match () {
            () if machine.frames.len() > room.execution_slots() => Err(Error::ExecStackOverflow),
            () if machine.stack.len() > room.stack_slots() => Err(Error::StackOverflow),
            () => Ok(()),
        });
        if let Err(error) = fits {
            machine = before;
            break Ending::Failed(error, command);
        }
    };
    let outcome = outcome(&ending, at, steps, &machine.stack);
    Ok(Ran { ending, steps, at, outcome, memory: machine.memory })
}

/// Bytes outside 33 to 126 and the backslash in octal.
fn escaped(word: &[u8]) -> Vec<u8> {
    let mut text = Vec::new();
    for &byte in word {
        match byte {
            b'\\' | 0..=32 | 127.. => text.extend(format!("\\{byte:03o}").into_bytes()),
            _ => text.push(byte),
        }
    }
    text
}

fn outcome(ending: &Ending, at: usize, steps: u64, stack: &[Value]) -> Vec<u8> {
    let (how, error, command) = match ending {
        Ending::Finished => ("finished", "none", &[][..]),
        Ending::Fuel => ("fuel", "none", &[][..]),
        Ending::Failed(error, command) => ("error", error.name(), &command[..]),
    };
    let mut text = format!("ending={how}\nerror={error}\ncommand=").into_bytes();
    text.extend(command);
    text.extend(format!("\nat={at}\nsteps={steps}\ndepth={}\n", stack.len()).into_bytes());
    for value in stack {
        let item = match value {
            Value::Integer(n) => format!("item=integer:{n}\n"),
            Value::Substack(items) => format!("item=substack:{}\n", items.len()),
        };
        text.extend(item.into_bytes());
    }
    text
}
