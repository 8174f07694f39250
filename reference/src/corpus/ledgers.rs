//! The ledgers of ../corpus/ledger.

use std::path::Path;

use super::scans::{records, UNNAMED};
use super::{cases_of, repository, texts, Lines};
use crate::floor::{Record, MOST_RECORDS};

/// What a case asks for, with what it must leave.
pub enum LedgerQuestion {
    /// The book's first `count` records are written where `lent` bytes are lent, and this is their text;
    /// it is empty where they are refused.
    Write {
        count: usize,
        lent: usize,
        text: Vec<u8>,
    },
    /// The text is read, and this is the book after it.
    Read { text: Vec<u8>, after: Vec<Record> },
}

pub struct LedgerCase {
    pub title: String,
    /// The lent records.
    pub book: Vec<Record>,
    pub question: LedgerQuestion,
    pub gives: String,
}

/// Bytes that are lent for a text, where a case does not say how many.
const ROOMY: usize = 8192;

/// All ledgers of all files, in the order of the files' names, or what is malformed.
pub fn read_ledgers() -> Result<Vec<LedgerCase>, String> {
    let mut cases = Vec::new();
    for (file, text) in texts(&repository().join("corpus/ledger"), "txt")? {
        cases.extend(read_file(&file, &text)?);
    }
    Ok(cases)
}

fn read_file(file: &Path, text: &[u8]) -> Result<Vec<LedgerCase>, String> {
    cases_of(file, text, read_case)
}

fn read_case(title: String, lines: &mut Lines) -> Result<LedgerCase, String> {
    let (writes, words) = match (lines.keyword("write"), lines.keyword("read")) {
        (Some(words), None) => (true, words),
        (None, Some(words)) => (false, words),
        _ => return Err(lines.malformed("expected `write KEY=N ..` or `read KEY=N ..`")),
    };
    let mut sizes = Sizes::of(&words).ok_or_else(|| lines.malformed("bad `KEY=N` above"))?;
    let text = match writes {
        true => None,
        false => Some(lines.block_of("text", b"\r\n")?),
    };
    let mut book = records(lines, "book")?;
    let count = sizes.count.take().unwrap_or(book.len());
    if book.len() > sizes.records {
        return Err(lines.malformed("more records than are lent"));
    }
    book.resize(sizes.records, UNNAMED);
    let gives = String::from_utf8_lossy(&lines.block("gives")?).into_owned();
    let question = match text {
        None => LedgerQuestion::Write {
            count,
            lent: sizes.text,
            text: match lines.peek() {
                Some(line) if line.starts_with(b"text") => lines.block_of("text", b"\r\n")?,
                _ => Vec::new(),
            },
        },
        Some(text) => {
            let named = records(lines, "after")?;
            let mut after = book.clone();
            match after.get_mut(..named.len()) {
                Some(first) => first.copy_from_slice(&named),
                None => return Err(lines.malformed("more records than are lent")),
            }
            LedgerQuestion::Read { text, after }
        }
    };
    Ok(LedgerCase {
        title,
        book,
        question,
        gives,
    })
}

/// How many records and how many bytes of text are lent, and how many records count.
struct Sizes {
    records: usize,
    text: usize,
    count: Option<usize>,
}

impl Sizes {
    fn of(words: &str) -> Option<Sizes> {
        let mut sizes = Sizes {
            records: MOST_RECORDS,
            text: ROOMY,
            count: None,
        };
        for word in words.split(' ').filter(|word| !word.is_empty()) {
            let (key, number) = word.split_once('=')?;
            let number = number.parse().ok()?;
            match key {
                "records" => sizes.records = number,
                "text" => sizes.text = number,
                "count" => sizes.count = Some(number),
                _ => return None,
            }
        }
        Some(sizes)
    }
}

#[test]
fn lines_of_a_text_end_with_crlf() {
    let text = "case one\nread records=2\ntext-\n    a\n    b\nbook\n    5 1:a 2\ngives\n    records read: 1\nafter\n    6 1:b 3\ncase two\nwrite count=1 text=9\nbook\n    5 1:a 2\ngives\n    written\ntext%\n    a%0A\n    %(2:b)\n";
    let cases = read_file(Path::new("f"), text.as_bytes()).unwrap();
    let six = Record::new(6, b"b", 3).unwrap();
    assert!(matches!(
        &cases[0].question,
        LedgerQuestion::Read { text, after } if text == b"a\r\nb" && after[..] == [six, UNNAMED]
    ));
    assert_eq!(cases[0].gives, "records read: 1\n");
    assert_eq!((cases[0].book.len(), cases[1].book.len()), (2, 64));
    assert!(matches!(
        &cases[1].question,
        LedgerQuestion::Write { count: 1, lent: 9, text } if text == b"a\n\r\nbb"
    ));
}
