//! The Forf scripts of ../corpus/forf: rows of a script and what it leaves, and whole cases.

use std::path::Path;

use super::{cases_of, repository, texts, Lines};
use crate::forf::{Room, MEMORY_SLOTS};

/// What a case must give.
#[derive(Clone)]
pub enum ForfGives {
    /// The whole outcome, or the refusal's line.
    Text(Vec<u8>),
    /// The error and the command, if it fails; and the items, as the outcome has them.
    Left { error: Option<(String, String)>, items: Vec<String> },
}

#[derive(Clone)]
pub struct ForfCase {
    pub title: String,
    pub script: Vec<u8>,
    pub fuel: u64,
    pub room: Room,
    pub memory: [i32; MEMORY_SLOTS],
    pub gives: ForfGives,
    pub after: [i32; MEMORY_SLOTS],
}

/// All cases of all files, in the order of the files' names, or what is malformed.
pub fn read_forf() -> Result<Vec<ForfCase>, String> {
    let folder = repository().join("corpus/forf");
    let mut cases = Vec::new();
    for (file, text) in texts(&folder, "txt")? {
        cases.extend(cases_of(&file, &text, read_case)?);
    }
    for (file, text) in texts(&folder, "rows")? {
        for (index, row) in String::from_utf8_lossy(&text).lines().enumerate() {
            if !row.is_empty() && !row.starts_with("--") {
                cases.push(read_row(row).ok_or_else(|| malformed(&file, index))?);
            }
        }
    }
    Ok(cases)
}

fn malformed(file: &Path, index: usize) -> String {
    format!("{}:{}: expected `SCRIPT => ITEMS` or `SCRIPT => !ERROR COMMAND: ITEMS`", file.display(), index + 1)
}

fn read_row(row: &str) -> Option<ForfCase> {
    let (script, left) = row.split_once(" =>")?;
    let (error, items) = match left.trim_start().strip_prefix('!') {
        None => (None, left),
        Some(rest) => {
            let (error, items) = rest.split_once(':')?;
            let (error, command) = error.split_once(' ').unwrap_or((error, ""));
            (Some((error.to_string(), command.to_string())), items)
        }
    };
    let item = |word: &str| match word.strip_prefix('{') {
        Some(count) => format!("substack:{}", count.trim_end_matches('}')),
        None => format!("integer:{word}"),
    };
    let zeros = [0; MEMORY_SLOTS];
    Some(ForfCase {
        title: row.to_string(),
        script: script.as_bytes().to_vec(),
        fuel: 1_000_000,
        room: Room::default(),
        memory: zeros,
        gives: ForfGives::Left { error, items: items.split_whitespace().map(item).collect() },
        after: zeros,
    })
}

fn read_case(title: String, lines: &mut Lines) -> Result<ForfCase, String> {
    let (mut fuel, mut room, mut outcome) = (1_000_000, Room::default(), None);
    for word in lines.keyword("with ").unwrap_or_default().split_whitespace() {
        let (key, number) = word.split_once('=').ok_or_else(|| lines.bad_with())?;
        let number: usize = number.parse().map_err(|_| lines.bad_with())?;
        match key {
            "fuel" => fuel = number as u64,
            "stack" => room.stack_words = 2 * number,
            "execution" => room.execution_words = 8 * number,
            "memory" => room.memory_words = number,
            "outcome" => outcome = Some(number),
            _ => return Err(lines.bad_with()),
        }
    }
    room.outcome_bytes = outcome.unwrap_or(Room::least_outcome(room.stack_slots()));
    let memory = slots(lines, "memory ", [0; MEMORY_SLOTS])?;
    let script = lines.block("script")?;
    let gives = ForfGives::Text(lines.block("gives")?);
    let after = slots(lines, "after ", memory)?;
    Ok(ForfCase { title, script, fuel, room, memory, gives, after })
}

/// `SLOT=N ..` over a memory.
fn slots(lines: &mut Lines, word: &str, mut memory: [i32; MEMORY_SLOTS]) -> Result<[i32; MEMORY_SLOTS], String> {
    for pair in lines.keyword(word).unwrap_or_default().split_whitespace() {
        let found = pair.split_once('=').and_then(|(slot, n)| Some((slot.parse::<usize>().ok()?, n.parse().ok()?)));
        match found {
            Some((slot, n)) if slot < MEMORY_SLOTS => memory[slot] = n,
            _ => return Err(lines.malformed("expected `SLOT=N ..`")),
        }
    }
    Ok(memory)
}

impl ForfCase {
    /// Whether an outcome, or a refusal's line, is what the case must give.
    pub fn agrees(&self, text: &[u8]) -> bool {
        match &self.gives {
            ForfGives::Text(expected) => text == expected,
            ForfGives::Left { error, items } => {
                let text = String::from_utf8_lossy(text);
                let mut lines = text.lines();
                let (ending, name, command) = match error {
                    None => ("finished", "none", ""),
                    Some((error, command)) => ("error", error.as_str(), command.as_str()),
                };
                let head = [format!("ending={ending}"), format!("error={name}"), format!("command={command}")];
                head.iter().all(|line| lines.next() == Some(line))
                    && lines.filter_map(|line| line.strip_prefix("item=")).eq(items.iter().map(String::as_str))
            }
        }
    }
}
