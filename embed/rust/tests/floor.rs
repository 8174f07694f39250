//! Each answer of the floor rule, as the change request has them, and the book after it.

use floo::floor::{Book, Record, Scan, LABEL_BYTES_MAX, NUMBER_MAX, RECORDS_MAX};
use floo::{Refusal, Runner, Sizes, FUEL_MAX, PREDEFINED_NAMES};

fn runner() -> Runner {
    Runner::new(Sizes::default())
}

/// The text as the lines after `#FLOO`, with an empty label.
fn scan<'a>(runner: &'a mut Runner, text: &str, book: &mut Book) -> Scan<'a> {
    let script = format!("#FLOO\n{text}");
    runner.scan(script.as_bytes(), b"", FUEL_MAX, book)
}

fn record(number: u32, place: &str, time: u32) -> Record {
    Record::new(number, place.as_bytes(), time).expect("the fields are in range")
}

/// Sockets 1, 2, .. on shelf A at time 10.
fn book(count: u32) -> Book {
    let records: Vec<Record> = (1..=count)
        .map(|number| record(number, "shelf A", 10))
        .collect();
    Book::from_records(&records).expect("at most 64 records")
}

#[test]
fn a_record_is_laid_out_as_in_c() {
    assert_eq!(std::mem::size_of::<Record>(), 44);
    assert_eq!(std::mem::offset_of!(Record, place), 4);
    assert_eq!(std::mem::offset_of!(Record, length), 36);
    assert_eq!(std::mem::offset_of!(Record, time), 40);
}

#[test]
fn records_are_in_range() {
    assert!(Record::new(0, b"a", 0).is_some());
    assert!(Record::new(NUMBER_MAX, &[0; 31], NUMBER_MAX).is_some());
    assert!(Record::new(NUMBER_MAX + 1, b"a", 0).is_none());
    assert!(Record::new(0, b"a", NUMBER_MAX + 1).is_none());
    assert!(Record::new(0, b"", 0).is_none());
    assert!(Record::new(0, &[b'a'; 32], 0).is_none());
    assert_eq!(record(1, "rack", 2).place_bytes(), b"rack");
}

#[test]
fn a_book_has_at_most_64_records() {
    let records = [record(1, "a", 2); RECORDS_MAX + 1];
    assert!(Book::from_records(&records).is_none());
    assert_eq!(
        Book::from_records(&records[..64]).unwrap().records().len(),
        64
    );
    assert_eq!(Book::new(), Book::from_records(&[]).unwrap());
    assert!(Book::new().records().is_empty());
}

#[test]
fn added() {
    let mut book = Book::new();
    let mut runner = runner();
    for (at, text) in ["417 \"rack B-7\" 10", "388 \"drawer\" 5", "0 \"a\" 0"]
        .into_iter()
        .enumerate()
    {
        let answer = scan(&mut runner, text, &mut book);
        assert!(
            matches!(answer, Scan::Added(place, _) if place == at),
            "{answer:?}"
        );
        assert!(answer.is_accepted());
    }
    let expected = [
        record(417, "rack B-7", 10),
        record(388, "drawer", 5),
        record(0, "a", 0),
    ];
    assert_eq!(book.records(), expected);
    assert_eq!(book.find(388), Some(&expected[1]));
    assert_eq!(book.find(1), None);
}

#[test]
fn replaced() {
    let mut book = book(RECORDS_MAX as u32);
    let mut runner = runner();
    let answer = scan(&mut runner, "64 \"tester\" 11", &mut book);
    assert!(matches!(answer, Scan::Replaced(63, _)), "{answer:?}");
    let report = answer.report().unwrap();
    assert_eq!((report.steps(), report.value("depth")), (3, Some("3")));
    assert_eq!(book.records()[63], record(64, "tester", 11));
    assert_eq!(book.records()[..63], self::book(63).records()[..]);
}

/// A refusal of each kind leaves the book as it was.
fn refuses(runner: &mut Runner, text: &str, given: Book) -> String {
    let mut book = given;
    let answer = scan(runner, text, &mut book);
    assert!(!answer.is_accepted(), "{answer:?}");
    assert_eq!(book, given);
    answer.to_string()
}

#[test]
fn late() {
    let mut runner = runner();
    for time in [0, 9, 10] {
        let mut book = book(5);
        let answer = scan(&mut runner, &format!("3 \"tester\" {time}"), &mut book);
        assert!(matches!(answer, Scan::Late(_)), "{answer:?}");
        assert_eq!(book, self::book(5));
    }
}

#[test]
fn no_room() {
    assert_eq!(
        refuses(&mut runner(), "65 \"tester\" 11", book(64)),
        "no room for a new socket"
    );
    let mut runner = runner();
    let mut book = book(64);
    assert!(matches!(
        scan(&mut runner, "65 \"a\" 1", &mut book),
        Scan::NoRoom(_)
    ));
}

#[test]
fn bad_stack() {
    for text in [
        "",
        "1 \"a\"",
        "1 \"a\" 2 3",
        "-1 \"a\" 2",
        "1 /a 2",
        "1 \"\" 2",
        "1 \"a\" -2",
    ] {
        let mut runner = runner();
        let mut book = book(2);
        let answer = scan(&mut runner, text, &mut book);
        assert!(matches!(answer, Scan::BadStack(_)), "{text}: {answer:?}");
        assert_eq!(answer.report().unwrap().value("ending"), Some("finished"));
        assert_eq!(book, self::book(2));
    }
}

#[test]
fn not_finished() {
    for (text, ending) in [
        ("9 \"a\" 99 stop", "stopped"),
        ("9 \"a\" 99 pop pop pop pop", "error"),
        ("{ } loop", "fuel"),
    ] {
        let mut runner = runner();
        let mut book = book(2);
        let answer = scan(&mut runner, text, &mut book);
        assert!(matches!(answer, Scan::NotFinished(_)), "{text}: {answer:?}");
        assert_eq!(answer.report().unwrap().value("ending"), Some(ending));
        assert_eq!(book, self::book(2));
    }
}

#[test]
fn no_cells_for_the_label() {
    let mut runner = Runner::new(Sizes {
        cells: 2,
        ..Sizes::default()
    });
    let script = b"#FLOO\n1 label 2";
    let mut book = Book::new();
    assert_eq!(
        runner.scan(script, b"rack B-77", 10, &mut book),
        Scan::NoCells
    );
    assert_eq!(book, Book::new());
    assert!(matches!(
        runner.scan(script, b"rack B-7", 10, &mut book),
        Scan::Added(0, _)
    ));
}

#[test]
fn no_slot_for_the_label() {
    let with = |dictionary| {
        Runner::new(Sizes {
            dictionary,
            ..Sizes::default()
        })
    };
    let text = "1 \"a\" 2";
    let mut book = Book::new();
    assert_eq!(
        scan(&mut with(PREDEFINED_NAMES), text, &mut book),
        Scan::NoSlot
    );
    assert!(matches!(
        scan(&mut with(PREDEFINED_NAMES + 1), text, &mut book),
        Scan::Added(0, _)
    ));
}

#[test]
fn a_label_over_512_bytes() {
    let script = b"#FLOO\nlabel 31 0 put 1 label 2";
    let mut runner = runner();
    let mut book = Book::new();
    let label = [b'x'; LABEL_BYTES_MAX + 1];
    assert_eq!(
        runner.scan(script, &label, 99, &mut book),
        Scan::LabelTooLong
    );
    assert!(matches!(
        runner.scan(script, &label[1..], 99, &mut book),
        Scan::Added(0, _)
    ));
    assert_eq!(book.records()[0].place_bytes(), [b'x'; 31]);
}

#[test]
fn a_malformed_book() {
    let mut records = [record(1, "a", 2), record(2, "b", 3), record(1, "c", 4)];
    let twice = Book::from_records(&records).unwrap();
    assert_eq!(refuses(&mut runner(), "9 \"a\" 9", twice), "book malformed");
    type Set = fn(&mut Record);
    let sets: [Set; 5] = [
        |record| record.number = NUMBER_MAX + 1,
        |record| record.time = NUMBER_MAX + 1,
        |record| record.length = 0,
        |record| record.length = 32,
        |record| record.length = u32::MAX,
    ];
    for set in sets {
        records[2] = record(3, "c", 4);
        set(&mut records[2]);
        let mut book = Book::from_records(&records).unwrap();
        assert_eq!(
            scan(&mut runner(), "9 \"a\" 9", &mut book),
            Scan::BookMalformed
        );
        assert!(book.records()[2].place_bytes().len() <= 31);
    }
}

#[test]
fn refused_by_setup() {
    let mut book = book(3);
    let none = Sizes {
        cells: 0,
        ..Sizes::default()
    };
    let mut runner = Runner::new(none);
    assert_eq!(
        scan(&mut runner, "9 \"a\" 9", &mut book),
        Scan::Refused(Refusal::Cells)
    );
    let mut runner = self::runner();
    let script = b"#FLOO\n9 \"a\" 9";
    let refused = runner.scan(script, b"", FUEL_MAX + 1, &mut book);
    assert_eq!(refused, Scan::Refused(Refusal::TooMuchFuel));
    assert_eq!(refused.report(), None);
    assert_eq!(
        runner.scan(b"9", b"", 1, &mut book),
        Scan::Refused(Refusal::NotAScript)
    );
    assert_eq!(book, self::book(3));
}

#[test]
fn the_log_is_the_runs() {
    let mut runner = runner();
    let script = b"#FLOO\nlabel print 1 label 2";
    let mut book = Book::new();
    let answer = runner.scan(script, b"rack", 99, &mut book);
    assert_eq!(answer.report().unwrap().log(), b"rack");
}

/// The script of `examples/`: an offline scan that syncs late leaves the socket on the tester.
#[test]
fn the_example() {
    let script = include_bytes!("../../../examples/scan.floo");
    let mut runner = runner();
    let mut book = Book::new();
    let mut said = |label: &str| {
        runner
            .scan(script, label.as_bytes(), FUEL_MAX, &mut book)
            .to_string()
    };
    assert_eq!(
        said("0417:rack B-7:1731690000"),
        "goes after the last, at 0"
    );
    assert_eq!(said("0417:tester 3:1731693600"), "replaces the record at 0");
    assert_eq!(said("0417:shelf A-2:1731691800"), "late");
    assert_eq!(said("0417"), "run not finished");
    assert_eq!(book.records(), [record(417, "tester 3", 1731693600)]);
}

/// "Two scans of different sockets, both accepted and with room for both, leave the same place and time for each in either order."
#[test]
fn either_order() {
    let (one, other) = ("3 \"tester\" 11", "99 \"drawer\" 5");
    let both = |texts: [&str; 2]| {
        let mut book = book(5);
        for text in texts {
            assert!(scan(&mut runner(), text, &mut book).is_accepted());
        }
        book
    };
    let (first, second) = (both([one, other]), both([other, one]));
    for number in 0..100 {
        assert_eq!(first.find(number), second.find(number));
    }
}
