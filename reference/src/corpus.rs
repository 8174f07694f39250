//! Reads the corpus, in the format of ../corpus/README.md.

mod forf;
mod ledgers;
mod pages;
mod scans;

use std::fs;
use std::path::{Path, PathBuf};

use crate::Sizes;
pub use forf::{read_forf, ForfCase, ForfGives};
pub use ledgers::{read_ledgers, LedgerCase, LedgerQuestion};
pub use pages::{read_pages, read_scripts, spans, Page, Row, Shown};
pub use scans::{read_scans, ScanCase};

/// What a case asks for.
pub enum Question {
    Run { fuel: u64, sizes: Sizes },
    Token { offset: usize },
}

pub struct Case {
    pub file: PathBuf,
    pub title: String,
    pub question: Question,
    pub script: Vec<u8>,
    pub gives: Vec<u8>,
}

/// The lines of a file that are still to be read.
struct Lines<'t> {
    file: &'t Path,
    lines: Vec<&'t [u8]>,
    next: usize,
}

/// The repository that this package stands in.
pub fn repository() -> PathBuf {
    Path::new(env!("CARGO_MANIFEST_DIR")).join("..")
}

/// All cases of all files, in the order of the files' names, or what is malformed.
pub fn read_all() -> Result<Vec<Case>, String> {
    let mut cases = Vec::new();
    for (file, text) in texts(&repository().join("corpus"), "txt")? {
        cases.extend(read_cases(&file, &text)?);
    }
    Ok(cases)
}

/// The files of a folder with this extension, in the order of their names.
fn texts(folder: &Path, extension: &str) -> Result<Vec<(PathBuf, Vec<u8>)>, String> {
    let unread = |error: std::io::Error| format!("the corpus cannot be read: {error}");
    let mut texts = Vec::new();
    for entry in fs::read_dir(folder).map_err(unread)? {
        let path = entry.map_err(unread)?.path();
        if path.extension().is_some_and(|found| found == extension) {
            let text = fs::read(&path).map_err(unread)?;
            texts.push((path, text));
        }
    }
    texts.sort();
    Ok(texts)
}

/// All cases of a file, or what is malformed: `file:line: what`.
pub fn read_cases(file: &Path, text: &[u8]) -> Result<Vec<Case>, String> {
    cases_of(file, text, read_case)
}

/// A title and what `read` makes of the lines after it, one after another to the file's end.
fn cases_of<T>(
    file: &Path,
    text: &[u8],
    read: fn(String, &mut Lines) -> Result<T, String>,
) -> Result<Vec<T>, String> {
    let body = text.strip_suffix(b"\n").unwrap_or(text);
    let mut lines = Lines {
        file,
        lines: body.split(|&byte| byte == b'\n').collect(),
        next: 0,
    };
    let mut titles = Vec::new();
    let mut cases = Vec::new();
    while let Some(line) = lines.peek() {
        if line.is_empty() || line.starts_with(b"--") {
            lines.next += 1;
            continue;
        }
        let title = match lines.keyword("case ") {
            Some(title) if !title.is_empty() => title,
            _ => return Err(lines.malformed("expected `case TITLE`")),
        };
        cases.push(read(title.clone(), &mut lines)?);
        if titles.contains(&title) {
            return Err(lines.malformed(&format!("the title {title:?} stands twice")));
        }
        titles.push(title);
    }
    Ok(cases)
}

fn read_case(title: String, lines: &mut Lines) -> Result<Case, String> {
    let question = if let Some(offset) = lines.keyword("token ") {
        let offset = offset
            .parse()
            .map_err(|_| lines.malformed("expected `token OFFSET`"))?;
        Question::Token { offset }
    } else {
        let words = lines.keyword("with ").unwrap_or_default();
        let (fuel, sizes) = sizes_of(words.split(' ')).ok_or_else(|| lines.bad_with())?;
        Question::Run { fuel, sizes }
    };
    Ok(Case {
        file: lines.file.to_path_buf(),
        title,
        question,
        script: lines.block("script")?,
        gives: lines.block("gives")?,
    })
}

/// Fuel and sizes from `KEY=N ..`; "what is not named is as in the program".
fn sizes_of<'w>(words: impl Iterator<Item = &'w str>) -> Option<(u64, Sizes)> {
    let (mut fuel, mut sizes, mut outcome) = (1_000_000, Sizes::default(), None);
    for word in words.filter(|word| !word.is_empty()) {
        let (key, number) = word.split_once('=')?;
        match key {
            "fuel" => fuel = number.parse().ok()?,
            "outcome" => outcome = Some(number.parse().ok()?),
            name => sizes.set(name, number)?,
        }
    }
    sizes.outcome = outcome.unwrap_or(Sizes::least_outcome(sizes.stack));
    Some((fuel, sizes))
}

impl<'t> Lines<'t> {
    fn peek(&self) -> Option<&'t [u8]> {
        self.lines.get(self.next).copied()
    }

    fn malformed(&self, what: &str) -> String {
        format!("{}:{}: {what}", self.file.display(), self.next + 1)
    }

    fn bad_with(&self) -> String {
        self.malformed("expected `with KEY=N ..`")
    }

    /// The rest of the next line, if it begins with `word`.
    fn keyword(&mut self, word: &str) -> Option<String> {
        let rest = self.peek()?.strip_prefix(word.as_bytes())?;
        let rest = String::from_utf8(rest.to_vec()).ok()?;
        self.next += 1;
        Some(rest)
    }

    /// A block headed by `word`, `word-` or `word%`, of lines that end with a line feed.
    fn block(&mut self, word: &str) -> Result<Vec<u8>, String> {
        self.block_of(word, b"\n")
    }

    /// The same of lines that end with other bytes.
    fn block_of(&mut self, word: &str, line_break: &[u8]) -> Result<Vec<u8>, String> {
        let header = self.peek().unwrap_or_default();
        let form = match header.strip_prefix(word.as_bytes()) {
            Some(form @ (b"" | b"-" | b"%")) => form,
            _ => return Err(self.malformed(&format!("expected `{word}`, `{word}-` or `{word}%`"))),
        };
        self.next += 1;
        let rows = self.rows();
        let mut bytes = rows.join(line_break);
        if form == b"" && !rows.is_empty() {
            bytes.extend(line_break);
        }
        if form == b"%" {
            return expand(&bytes).ok_or_else(|| self.malformed("bad `%` in the block above"));
        }
        Ok(bytes)
    }

    /// The next lines that are indented, without their four blanks.
    fn rows(&mut self) -> Vec<&'t [u8]> {
        let mut rows = Vec::new();
        while let Some(row) = self.peek().and_then(|line| line.strip_prefix(b"    ")) {
            rows.push(row);
            self.next += 1;
        }
        rows
    }
}

/// `%XX` is the byte of that number and `%(N:TEXT)` is TEXT repeated N times.
fn expand(mut text: &[u8]) -> Option<Vec<u8>> {
    let mut bytes = Vec::new();
    while let Some((&first, rest)) = text.split_first() {
        if first != b'%' {
            bytes.push(first);
            text = rest;
        } else if let Some(repetition) = rest.strip_prefix(b"(") {
            let end = repetition.iter().position(|&byte| byte == b')')?;
            let colon = repetition[..end].iter().position(|&byte| byte == b':')?;
            let times: usize = std::str::from_utf8(&repetition[..colon])
                .ok()?
                .parse()
                .ok()?;
            bytes.extend(expand(&repetition[colon + 1..end])?.repeat(times));
            text = &repetition[end + 1..];
        } else {
            let digits = std::str::from_utf8(rest.get(..2)?).ok()?;
            bytes.push(u8::from_str_radix(digits, 16).ok()?);
            text = &rest[2..];
        }
    }
    Some(bytes)
}

#[test]
fn blocks_follow_their_forms() {
    let text = b"-- a remark\ncase one\ntoken 3\nscript%\n    a%41\n    %(2:b%0A)\ngives-\n    x\n     y\n";
    let cases = read_cases(Path::new("f"), text).unwrap();
    assert_eq!(cases.len(), 1);
    assert_eq!(cases[0].script, b"aA\nb\nb\n");
    assert_eq!(cases[0].gives, b"x\n y");
}

#[test]
fn malformed_files_are_told_by_file_and_line() {
    for (text, told) in [
        ("case a\nscript\n    x\nno\n", "f:4: expected `gives`"),
        ("case a\nwith fuel=x\n", "f:3: expected `with KEY=N ..`"),
        ("stray\n", "f:1: expected `case TITLE`"),
        ("case a\nscript%\n    %4\ngives\n", "f:4: bad `%`"),
        (
            "case a\nscript\ngives\ncase a\nscript\ngives\n",
            "f:7: the title",
        ),
    ] {
        let error = read_cases(Path::new("f"), text.as_bytes()).err().unwrap();
        assert!(error.starts_with(told), "{error}");
    }
}
