//! The scans of ../corpus/floor.

use std::path::Path;

use super::{cases_of, expand, repository, sizes_of, texts, Lines};
use crate::floor::{Record, LONGEST_PLACE, MOST_RECORDS};
use crate::Sizes;

pub struct ScanCase {
    pub title: String,
    pub script: Vec<u8>,
    pub fuel: u64,
    pub label: Vec<u8>,
    pub sizes: Sizes,
    /// The lent records before and after, and how many of them count before.
    pub book: Vec<Record>,
    pub after: Vec<Record>,
    pub count: usize,
    pub gives: Vec<u8>,
}

/// A record that no case names.
pub(super) const UNNAMED: Record = Record {
    number: u32::MAX,
    place: [u8::MAX; LONGEST_PLACE],
    length: u32::MAX,
    time: u32::MAX,
};

/// All scans of all files, in the order of the files' names, or what is malformed.
pub fn read_scans() -> Result<Vec<ScanCase>, String> {
    let mut cases = Vec::new();
    for (file, text) in texts(&repository().join("corpus/floor"), "txt")? {
        cases.extend(read_file(&file, &text)?);
    }
    Ok(cases)
}

fn read_file(file: &Path, text: &[u8]) -> Result<Vec<ScanCase>, String> {
    cases_of(file, text, read_case)
}

fn read_case(title: String, lines: &mut Lines) -> Result<ScanCase, String> {
    let words = lines.keyword("with ").unwrap_or_default();
    let (own, others): (Vec<&str>, _) = words.split(' ').partition(|word| is_own(word));
    let (fuel, sizes) = sizes_of(others.into_iter()).ok_or_else(|| lines.bad_with())?;
    let label = lines.block("label")?;
    let script = lines.block("script")?;
    let mut book = records(lines, "book")?;
    let mut count = book.len();
    let mut lent = MOST_RECORDS;
    for word in own {
        let number = word.split_once('=').and_then(|(_, n)| n.parse().ok());
        let number = number.ok_or_else(|| lines.bad_with())?;
        match word.starts_with("count=") {
            true => count = number,
            false => lent = number,
        }
    }
    if book.len() > lent {
        return Err(lines.malformed("more records than are lent"));
    }
    book.resize(lent, UNNAMED);
    let gives = lines.block("gives")?;
    let named = records(lines, "after")?;
    let mut after = book.clone();
    if named.len() > lent {
        return Err(lines.malformed("more records than are lent"));
    }
    after[..named.len()].copy_from_slice(&named);
    Ok(ScanCase {
        title,
        script,
        fuel,
        label,
        sizes,
        book,
        after,
        count,
        gives,
    })
}

/// What `with` says of the book.
fn is_own(word: &str) -> bool {
    word.starts_with("count=") || word.starts_with("records=")
}

/// The records under a heading, and none where it is not there.
pub(super) fn records(lines: &mut Lines, heading: &str) -> Result<Vec<Record>, String> {
    let mut records = Vec::new();
    if lines.peek() == Some(heading.as_bytes()) {
        lines.next += 1;
        for row in lines.rows() {
            let read = record_row(row)
                .ok_or_else(|| lines.malformed("expected `NUMBER LENGTH:PLACE TIME` above"))?;
            records.extend(read);
        }
    }
    Ok(records)
}

/// `NUMBER LENGTH:PLACE TIME`, or `FIRST..LAST LENGTH:PLACE TIME` for a record of each number.
fn record_row(row: &[u8]) -> Option<Vec<Record>> {
    let first = row.iter().position(|&byte| byte == b' ')?;
    let last = row.iter().rposition(|&byte| byte == b' ')?;
    let (length, bytes) = row.get(first + 1..last).and_then(|middle| {
        let colon = middle.iter().position(|&byte| byte == b':')?;
        Some((&middle[..colon], expand(&middle[colon + 1..])?))
    })?;
    let number = |text: &str| text.parse::<u32>().ok();
    let text = |part| std::str::from_utf8(part).ok();
    let numbers = text(&row[..first])?;
    let (from, to) = match numbers.split_once("..") {
        Some((from, to)) => (number(from)?, number(to)?),
        None => (number(numbers)?, number(numbers)?),
    };
    let mut place = [0; LONGEST_PLACE];
    place.get_mut(..bytes.len())?.copy_from_slice(&bytes);
    let (length, time) = (number(text(length)?)?, number(text(&row[last + 1..])?)?);
    let record = |number| Record {
        number,
        place,
        length,
        time,
    };
    Some((from..=to).map(record).collect())
}

#[test]
fn rows_are_records() {
    let rows = record_row(b"7..8 4:a: b%FF 12").unwrap();
    let mut place = [0; LONGEST_PLACE];
    place[..5].copy_from_slice(b"a: b\xFF");
    let expected = [7, 8].map(|number| Record {
        number,
        place,
        length: 4,
        time: 12,
    });
    assert_eq!(rows, expected);
    for bad in [
        "7",
        "7 a 1",
        "7 1:a",
        "x 1:a 1",
        "7 1:12345678901234567890123456789012 1",
    ] {
        assert!(record_row(bad.as_bytes()).is_none(), "{bad}");
    }
}

#[test]
fn a_case_names_the_first_records() {
    let text = "case one\nwith count=1 cells=9 records=3\nlabel-\n    x\nscript\nbook\n    5 1:a 2\ngives\nafter\n    5 1:b 3\n    6 1:c 4\n";
    let case = read_file(Path::new("f"), text.as_bytes())
        .unwrap()
        .remove(0);
    assert_eq!(
        (case.label, case.count, case.sizes.cells),
        (b"x".to_vec(), 1, 9)
    );
    assert_eq!(case.book[1..], [UNNAMED; 2]);
    let named = [
        Record::new(5, b"b", 3).unwrap(),
        Record::new(6, b"c", 4).unwrap(),
    ];
    assert_eq!(case.after, [named[0], named[1], UNNAMED]);
}
