//! The ledger both ways, and each of its refusals.

use floo::floor::{ledger_bytes, Book, LedgerError, Record, NUMBER_MAX, RECORDS_MAX};
use floo::{read_ledger_lent, write_ledger_lent, LedgerReply};

fn record(number: u32, place: &[u8], time: u32) -> Record {
    Record::new(number, place, time).expect("the fields are in range")
}

fn book(records: &[Record]) -> Book {
    Book::from_records(records).expect("at most 64 records")
}

/// Places of every kind that quoting asks about, and bytes of every value.
fn places() -> Vec<Vec<u8>> {
    let mut places: Vec<Vec<u8>> = (0..=255).map(|byte| vec![byte]).collect();
    places.extend((0..=255).map(|byte| vec![b'a', byte]));
    for place in [
        "a,b",
        "\"a\"",
        "\r\n",
        "\n\r",
        "\"\"",
        ",",
        " a ",
        "1,\"b\"\r\n2",
    ] {
        places.push(place.as_bytes().to_vec());
    }
    places.extend([vec![b'"'; 31], vec![b','; 31], vec![b'p'; 31], vec![0; 31]]);
    places
}

#[test]
fn what_is_written_is_read_back() {
    for places in places().chunks(RECORDS_MAX) {
        let records: Vec<Record> = places
            .iter()
            .zip((0..).step_by(33_554_432))
            .map(|(place, number)| record(number, place, NUMBER_MAX - number))
            .collect();
        let written = book(&records).to_ledger().unwrap();
        assert!(written.len() <= ledger_bytes(records.len()));
        let mut read = book(&[record(9, b"z", 9)]);
        read.read_ledger(&written).unwrap();
        assert_eq!(read.records(), records);
    }
}

#[test]
fn an_empty_book_is_the_header() {
    let ledger = Book::new().to_ledger().unwrap();
    assert_eq!(ledger, b"socket,place,time\r\n");
    let mut read = book(&[record(9, b"z", 9)]);
    read.read_ledger(&ledger).unwrap();
    assert_eq!(read, Book::new());
}

#[test]
fn a_malformed_book_is_not_written() {
    let twice = book(&[record(1, b"a", 2), record(1, b"b", 3)]);
    assert_eq!(twice.to_ledger(), Err(LedgerError::BookMalformed));
    let mut empty = record(1, b"a", 2);
    empty.length = 0;
    assert_eq!(book(&[empty]).to_ledger(), Err(LedgerError::BookMalformed));
}

#[test]
fn a_refusal_leaves_the_book() {
    let many: String = (0..65).map(|number| format!("{number},a,2\r\n")).collect();
    for (rows, error) in [
        ("1,\"a", LedgerError::BadQuoting),
        ("1,a", LedgerError::FieldCount),
        ("1,a,2147483648", LedgerError::BadNumber),
        ("1,,2", LedgerError::BadPlace),
        ("7,a,2\r\n007,b,2", LedgerError::SocketTwice),
        (&many, LedgerError::TooMany),
    ] {
        let before = book(&[record(9, b"z", 9)]);
        let mut after = before;
        let text = format!("socket,place,time\r\n{rows}");
        assert_eq!(after.read_ledger(text.as_bytes()), Err(error), "{rows}");
        assert_eq!(after, before);
        assert_eq!(
            after.read_ledger(rows.as_bytes()),
            Err(LedgerError::BadHeader)
        );
        assert_eq!(after, before);
    }
}

#[test]
fn a_text_of_any_length_is_lent() {
    let records = [record(1, b"a", 2)];
    let line = b"socket,place,time\r\n1,a,2\r\n";
    let mut text = [7; 30];
    for lent in 0..=text.len() {
        let reply = write_ledger_lent(&records, 1, &mut text[..lent]);
        if lent < line.len() {
            assert_eq!(
                (reply, text),
                (
                    LedgerReply {
                        answer: 9,
                        count: 0
                    },
                    [7; 30]
                )
            );
        } else {
            assert_eq!(
                reply,
                LedgerReply {
                    answer: 10,
                    count: 26
                }
            );
            assert_eq!(text[..26], line[..]);
            assert_eq!(text[26..], [7; 4]);
            text = [7; 30];
        }
    }
}

#[test]
fn lent_records_past_the_count_stay() {
    let mut lent = [record(9, b"z", 9); 70];
    let reply = read_ledger_lent(b"socket,place,time\r\n1,a,2\r\n", &mut lent);
    assert_eq!(
        reply,
        LedgerReply {
            answer: 10,
            count: 1
        }
    );
    assert_eq!(lent[0], record(1, b"a", 2));
    assert_eq!(lent[1..], [record(9, b"z", 9); 69]);
}

#[test]
fn errors_have_the_numbers_of_the_header() {
    for number in 1..=9 {
        let error = LedgerError::from_number(number).unwrap();
        assert_eq!(error.number(), number);
        let named: &dyn std::error::Error = &error;
        assert!(!named.to_string().is_empty());
    }
    assert_eq!(LedgerError::from_number(0), None);
    assert_eq!(LedgerError::from_number(10), None);
}
