//! Files of other programs: what Python's csv module and LibreOffice write is read, and what is written is read by both. Not in the gate, and a program that is not
//! there is skipped: `cargo test --test office -- --ignored --nocapture`.

use std::fs;
use std::io::Write;
use std::path::{Path, PathBuf};
use std::process::{Command, Stdio};

use floo::floor::{Book, LedgerError, Record, NUMBER_MAX};

/// Places of every kind that quoting asks about. A cell of a spreadsheet has text, so all are UTF-8, and none has a control byte but LF: LibreOffice drops a tab.
const PLACES: [&str; 21] = [
    "rack B-7",
    "row 2, rack A-1, shelf 9",
    "the \"blue\" drawer",
    "\"\"",
    "\"",
    ",",
    ",,\"\",,",
    "two\nlines",
    "a\n\nb",
    " blanks ",
    "it's; here",
    "007",
    "1e3",
    "=1+1",
    "TRUE",
    "2026-11-17",
    "#N/A",
    "caf\u{e9} \u{2013} Regal",
    "\u{540}\u{20ac}",
    "0123456789012345678901234567890",
    "\"\"\"\"\"\"\"\"\"\"\"\"\"\"\"\"\"\"\"\"\"\"\"\"\"\"\"\"\"\"\"",
];

fn records(places: &[&str]) -> Vec<Record> {
    let numbers = (0..).step_by(97_612_893);
    let record = |(place, number): (&&str, u32)| {
        Record::new(number, place.as_bytes(), NUMBER_MAX - number).expect("the fields are in range")
    };
    places.iter().zip(numbers).map(record).collect()
}

fn ledger(records: &[Record]) -> Vec<u8> {
    let book = Book::from_records(records).expect("at most 64 records");
    book.to_ledger().expect("the book is sound")
}

fn read(text: &[u8]) -> Result<Vec<Record>, LedgerError> {
    let mut book = Book::new();
    book.read_ledger(text)?;
    Ok(book.records().to_vec())
}

/// Whether a program is there.
fn is_there(program: &str) -> bool {
    let found = Command::new(program)
        .arg("--version")
        .stdout(Stdio::null())
        .stderr(Stdio::null())
        .status();
    let there = found.is_ok_and(|status| status.success());
    if !there {
        println!("skipped: {program} is not there");
    }
    there
}

/// What a Python script writes for an input. Bytes are taken as characters of the same number.
fn python(script: &str, input: &[u8]) -> Vec<u8> {
    let mut child = Command::new("python3")
        .args(["-c", script])
        .stdin(Stdio::piped())
        .stdout(Stdio::piped())
        .spawn()
        .expect("python3 starts");
    child
        .stdin
        .take()
        .expect("it has an input")
        .write_all(input)
        .expect("it reads");
    let output = child.wait_with_output().expect("it ends");
    assert!(output.status.success(), "the script fails");
    output.stdout
}

/// A line of hexadecimal digits for each field, three for a record.
fn listed(records: &[Record]) -> Vec<u8> {
    let hex = |bytes: &[u8]| {
        bytes
            .iter()
            .map(|byte| format!("{byte:02x}"))
            .collect::<String>()
    };
    let line = |record: &Record| {
        let (number, time) = (record.number.to_string(), record.time.to_string());
        [number.as_bytes(), record.place_bytes(), time.as_bytes()]
            .map(hex)
            .join("\n")
            + "\n"
    };
    records.iter().map(line).collect::<String>().into_bytes()
}

/// Every byte that Python's csv module takes, beside the places above.
fn all_bytes() -> Vec<Record> {
    let mut all = records(&PLACES);
    let bytes: Vec<u8> = (1..=255).collect();
    for (place, number) in bytes.chunks(31).zip(3_000_000..) {
        all.push(Record::new(number, place, 0).expect("the fields are in range"));
    }
    all
}

const READS: &str = "
import csv, io, sys
text = sys.stdin.buffer.read().decode('latin-1')
rows = list(csv.reader(io.StringIO(text, newline=''), strict=True))
assert rows[0] == ['socket', 'place', 'time'], rows[0]
for row in rows[1:]:
    assert len(row) == 3, row
    for field in row:
        print(field.encode('latin-1').hex())
";

const WRITES: &str = "
import csv, io, sys
fields = [bytes.fromhex(line).decode('latin-1') for line in sys.stdin.read().split()]
out = io.StringIO(newline='')
csv.writer(out).writerow(['socket', 'place', 'time'])
csv.writer(out, quoting=csv.QUOTE_MINIMAL).writerows(fields[i:i + 3] for i in range(0, len(fields), 3))
sys.stdout.buffer.write(out.getvalue().encode('latin-1'))
";

#[test]
#[ignore = "needs python3"]
fn python_reads_what_is_written_and_writes_what_is_read() {
    if !is_there("python3") {
        return;
    }
    let all = all_bytes();
    assert_eq!(
        String::from_utf8_lossy(&python(READS, &ledger(&all))),
        String::from_utf8_lossy(&listed(&all))
    );
    for quoting in ["QUOTE_MINIMAL", "QUOTE_ALL", "QUOTE_NONNUMERIC"] {
        let script = WRITES.replace("QUOTE_MINIMAL", quoting);
        let text = python(&script, &listed(&all));
        assert_eq!(
            read(&text).as_ref(),
            Ok(&all),
            "{quoting}: {}",
            text.escape_ascii()
        );
        assert_eq!(
            ledger(&all) == text,
            quoting == "QUOTE_MINIMAL",
            "{quoting}"
        );
    }
    println!("Python's csv: {} records both ways", all.len());
}

/// Converts a file by LibreOffice, in a folder of its own.
fn convert(folder: &Path, file: &str, to: &str, more: &[&str]) -> Vec<u8> {
    let profile = format!(
        "-env:UserInstallation=file://{}",
        folder.join("profile").display()
    );
    let status = Command::new("soffice")
        .args([&profile, "--headless", "--convert-to", to, "--outdir"])
        .arg(folder.join("out"))
        .args(more)
        .arg(folder.join(file))
        .stdout(Stdio::null())
        .stderr(Stdio::null())
        .status();
    assert!(
        status.is_ok_and(|status| status.success()),
        "LibreOffice converts {file} to {to}"
    );
    let extension = to
        .split(':')
        .next()
        .expect("a filter begins with an extension");
    let name = PathBuf::from(file).with_extension(extension);
    fs::read(folder.join("out").join(name)).expect("the converted file is there")
}

/// Comma, quote, UTF-8, from the first line on; the second column is text.
const IMPORT: &str = "--infilter=Text - txt - csv (StarCalc):44,34,76,1,1/1/2/2/3/1";
const EXPORT: &str = "csv:Text - txt - csv (StarCalc):44,34,76,1,,0,false,true,false";

/// A line feed outside quotes becomes CRLF: LibreOffice ends lines as the system does.
fn with_crlf(text: &[u8]) -> Vec<u8> {
    let mut quoted = false;
    let mut lines = Vec::new();
    for &byte in text {
        quoted ^= byte == b'"';
        if byte == b'\n' && !quoted && lines.last() != Some(&b'\r') {
            lines.push(b'\r');
        }
        lines.push(byte);
    }
    lines
}

#[test]
#[ignore = "needs LibreOffice"]
fn libreoffice_reads_what_is_written_and_writes_what_is_read() {
    if !is_there("soffice") {
        return;
    }
    let folder = std::env::temp_dir().join(format!("floo-office-{}", std::process::id()));
    fs::create_dir_all(folder.join("out")).expect("a folder can be made");
    let all = records(&PLACES);
    fs::write(folder.join("ledger.csv"), ledger(&all)).expect("a file can be written");
    let sheet = convert(&folder, "ledger.csv", "ods", &[IMPORT]);
    fs::write(folder.join("sheet.ods"), sheet).expect("a file can be written");
    let text = convert(&folder, "sheet.ods", EXPORT, &[]);
    fs::remove_dir_all(&folder).expect("the folder goes");
    let ends = match text.starts_with(b"socket,place,time\r\n") {
        true => "CRLF",
        false => {
            assert_eq!(read(&text), Err(LedgerError::BadHeader));
            "LF, which is a bad header; read with CRLF"
        }
    };
    let got = read(&with_crlf(&text));
    assert_eq!(got.as_ref(), Ok(&all), "{}", text.escape_ascii());
    println!(
        "LibreOffice: {} records both ways; its lines end with {ends}",
        all.len()
    );
}
