//! The floor rule at each limit and one past it (02, W3).

use floo_reference::floor::{scan, Answer, Record, Scan};
use floo_reference::setup::PREDEFINED_NAMES;
use floo_reference::value::{Object, Value};
use floo_reference::{Ending, Sizes};

/// A scan to be made: what the tests do not change is roomy and sound.
#[derive(Clone)]
struct Asked {
    script: Vec<u8>,
    fuel: u64,
    label: Vec<u8>,
    sizes: Sizes,
    book: Vec<Record>,
    count: usize,
}

const FUEL: u64 = 1_000_000;

fn asked(script: &str) -> Asked {
    Asked {
        script: format!("#FLOO\n{script}").into_bytes(),
        fuel: FUEL,
        label: b"rack B-7".to_vec(),
        sizes: Sizes::default(),
        book: vec![record(u32::MAX, u32::MAX); 64],
        count: 0,
    }
}

fn record(number: u32, time: u32) -> Record {
    Record::new(number, b"a", time).expect("a place of one byte")
}

impl Asked {
    /// So many records lent, the first of them sockets 0, 1, .. at time 10, and the count.
    fn with_book(mut self, lent: u32, count: usize) -> Asked {
        self.book = (0..lent).map(|number| record(number, 10)).collect();
        self.count = count;
        self
    }

    fn with_label(mut self, length: usize) -> Asked {
        self.label = vec![b'x'; length];
        self
    }

    /// The scan; the book is that after it.
    fn scan(&mut self) -> Scan {
        scan(
            &self.script,
            self.fuel,
            &self.label,
            &self.sizes,
            &mut self.book,
            self.count,
        )
    }

    fn answer(mut self) -> Answer {
        let before = self.book.clone();
        let scan = self.scan();
        let changed: Vec<usize> = (0..before.len())
            .filter(|&at| self.book[at] != before[at])
            .collect();
        let (expected, added) = match scan.answer {
            Answer::Replaced(at) => (vec![at], 0),
            Answer::Added(at) => (vec![at], 1),
            _ => (vec![], 0),
        };
        assert_eq!(changed, expected, "{:?}", scan.answer);
        assert_eq!(scan.count, self.count + added);
        scan.answer
    }
}

#[test]
fn the_start_has_the_label_made_and_bound() {
    let mut asked = asked("");
    asked.fuel = 0;
    let run = asked.scan().run.expect("the run is made");
    let machine = run.machine;
    assert_eq!(machine.store, [Object::String(b"rack B-7".to_vec())]);
    assert_eq!(machine.dictionary.len(), PREDEFINED_NAMES + 1);
    let last = machine.dictionary.last().expect("the label's slot");
    assert_eq!(last.name, b"label");
    assert_eq!(last.binding, Some(Value::String(0)));
    assert_eq!((machine.steps, machine.at), (0, 6));
    assert!(run.outcome.ends_with(b"held=2\nlog=0\n"));
}

#[test]
fn a_label_has_at_most_512_bytes() {
    for (length, answer) in [
        (0, Answer::Added(0)),
        (1, Answer::Added(0)),
        (512, Answer::Added(0)),
        (513, Answer::LabelTooLong),
        (40_000, Answer::LabelTooLong),
    ] {
        assert_eq!(asked("1 \"a\" 2").with_label(length).answer(), answer);
    }
}

#[test]
fn the_label_takes_one_slot() {
    for (more, answer) in [(0, Answer::NoSlot), (1, Answer::Added(0))] {
        let mut asked = asked("1 label 2");
        asked.sizes.dictionary = PREDEFINED_NAMES + more;
        assert_eq!(asked.answer(), answer);
    }
}

#[test]
fn the_label_takes_its_cells() {
    for (length, cells) in [(1, 2), (8, 2), (9, 3), (512, 65)] {
        let mut asked = asked("1 2 3").with_label(length);
        asked.sizes.cells = cells;
        assert_eq!(asked.clone().answer(), Answer::BadStack);
        let run = asked.scan().run.expect("the run is made");
        assert_eq!(*run.machine.store, [Object::String(vec![b'x'; length])]);
        asked.sizes.cells = cells - 1;
        assert_eq!(asked.answer(), Answer::NoCells);
    }
    let mut empty = asked("1 2 3").with_label(0);
    empty.sizes.cells = 1;
    assert_eq!(empty.answer(), Answer::BadStack);
}

#[test]
fn the_count_is_at_most_the_room() {
    let new = |lent, count| asked("999 \"a\" 2").with_book(lent, count).answer();
    assert_eq!(new(0, 0), Answer::NoRoom);
    assert_eq!(new(0, 1), Answer::BookMalformed);
    assert_eq!(new(2, 1), Answer::Added(1));
    assert_eq!(new(2, 2), Answer::NoRoom);
    assert_eq!(new(2, 3), Answer::BookMalformed);
    for lent in [64, 65, 100] {
        assert_eq!(new(lent, 63), Answer::Added(63));
        assert_eq!(new(lent, 64), Answer::NoRoom);
        assert_eq!(new(lent, 65), Answer::BookMalformed);
        assert_eq!(new(lent, usize::MAX), Answer::BookMalformed);
    }
}

#[test]
fn fields_have_their_ranges() {
    type Set = fn(&mut Record, u32);
    let fields: [(Set, u32, u32); 3] = [
        (|record, n| record.number = n, 1_000, 2_147_483_647),
        (|record, n| record.time = n, 0, 2_147_483_647),
        (|record, n| record.length = n, 1, 31),
    ];
    for (set, least, most) in fields {
        for at in [0, 4, 9] {
            let with = |n: u32| {
                let mut asked = asked("999 \"a\" 2").with_book(64, 10);
                set(&mut asked.book[at], n);
                asked.answer()
            };
            assert_eq!(
                (with(least), with(most)),
                (Answer::Added(10), Answer::Added(10))
            );
            assert_eq!(with(most + 1), Answer::BookMalformed);
            assert_eq!(with(u32::MAX), Answer::BookMalformed);
        }
    }
    let mut empty = asked("999 \"a\" 2").with_book(64, 10);
    empty.book[9].length = 0;
    assert_eq!(empty.clone().answer(), Answer::BookMalformed);
    empty.count = 9;
    assert_eq!(empty.answer(), Answer::Added(9));
}

#[test]
fn a_socket_stands_once() {
    let twice = |count: usize, one: usize, other: usize| {
        let mut asked = asked("999 \"a\" 2").with_book(100, count);
        asked.book[other].number = asked.book[one].number;
        asked.answer()
    };
    assert_eq!(twice(64, 0, 1), Answer::BookMalformed);
    assert_eq!(twice(64, 0, 63), Answer::BookMalformed);
    assert_eq!(twice(64, 62, 63), Answer::BookMalformed);
    assert_eq!(twice(63, 0, 63), Answer::Added(63));
    assert_eq!(twice(64, 0, 64), Answer::NoRoom);
}

#[test]
fn a_place_has_1_to_31_current_bytes() {
    let place = |text: &str| asked(&format!("1 \"{text}\" 2")).answer();
    assert_eq!(place(""), Answer::BadStack);
    assert_eq!(place("\\000a"), Answer::BadStack);
    assert_eq!(place("a"), Answer::Added(0));
    assert_eq!(place(&"x".repeat(31)), Answer::Added(0));
    assert_eq!(place(&"x".repeat(32)), Answer::BadStack);
    assert_eq!(place(&("x".repeat(31) + "\\000y")), Answer::Added(0));
    assert_eq!(place(&("x".repeat(32) + "\\000")), Answer::BadStack);
}

#[test]
fn a_record_has_zeros_past_its_place() {
    let mut asked = asked("1 label 12");
    asked.label = b"ab\0cd".to_vec();
    asked.book[0] = Record {
        place: [b'z'; 31],
        length: 31,
        ..record(1, 11)
    };
    asked.count = 1;
    assert_eq!(asked.scan().answer, Answer::Replaced(0));
    let written = asked.book[0];
    assert_eq!((written.number, written.length, written.time), (1, 2, 12));
    assert_eq!(written.place[..2], *b"ab");
    assert_eq!(written.place[2..], [0; 29]);
}

#[test]
fn numbers_and_times_are_from_0() {
    for (number, time, answer) in [
        ("0", "0", Answer::Added(0)),
        ("2147483647", "2147483647", Answer::Added(0)),
        ("-1", "0", Answer::BadStack),
        ("0", "-1", Answer::BadStack),
        ("-2147483648", "0", Answer::BadStack),
        ("0", "-2147483648", Answer::BadStack),
        ("true", "0", Answer::BadStack),
        ("0", "null", Answer::BadStack),
        ("\"1\"", "0", Answer::BadStack),
        ("0", "/add load", Answer::BadStack),
        ("2147483648", "0", Answer::NotFinished),
    ] {
        let script = format!("{number} \"a\" {time}");
        assert_eq!(asked(&script).answer(), answer, "{script}");
    }
}

#[test]
fn the_stack_has_exactly_three_items() {
    for script in [
        "",
        "1",
        "1 \"a\"",
        "0 1 \"a\" 2",
        "1 \"a\" 2 3",
        "1 \"a\" 2 mark",
    ] {
        assert_eq!(asked(script).answer(), Answer::BadStack, "{script}");
    }
    assert_eq!(asked("1 \"a\" 2").answer(), Answer::Added(0));
}

#[test]
fn the_place_is_a_string() {
    for place in ["1", "/a", "/a cvx", "[ 97 ]", "{ }", "null", "mark", "true"] {
        let script = format!("1 {place} 2");
        assert_eq!(asked(&script).answer(), Answer::BadStack, "{script}");
    }
}

#[test]
fn only_a_later_scan_replaces() {
    for count in [8, 64] {
        let scan = |time: u32| {
            asked(&format!("5 \"b\" {time}"))
                .with_book(64, count)
                .answer()
        };
        assert_eq!(scan(0), Answer::Late);
        assert_eq!(scan(9), Answer::Late);
        assert_eq!(scan(10), Answer::Late);
        assert_eq!(scan(11), Answer::Replaced(5));
        assert_eq!(scan(2_147_483_647), Answer::Replaced(5));
    }
}

#[test]
fn a_full_book_has_room_for_known_sockets_only() {
    for lent in [64, 65, 100] {
        let scan = |script: &str| asked(script).with_book(lent, 64).answer();
        assert_eq!(scan("63 \"b\" 11"), Answer::Replaced(63));
        assert_eq!(scan("63 \"b\" 10"), Answer::Late);
        assert_eq!(scan("64 \"b\" 11"), Answer::NoRoom);
        assert_eq!(scan("99 \"b\" 11"), Answer::NoRoom);
    }
}

#[test]
fn a_label_rebound_is_held_no_more() {
    let mut asked = asked("/label 0 def 1 \"a\" 2");
    asked.sizes.cells = 2;
    let run = asked.scan().run.expect("the run is made");
    assert_eq!(run.ending, Ending::Finished);
    assert!(run.outcome.windows(7).any(|line| line == b"held=2\n"));
}

#[test]
fn the_label_counts_for_vmerror() {
    let answer = |cells| {
        let mut asked = asked("1 \"a\" 2");
        asked.sizes.cells = cells;
        asked.answer()
    };
    assert_eq!(answer(4), Answer::Added(0));
    assert_eq!(answer(3), Answer::NotFinished);
    assert_eq!(answer(1), Answer::NoCells);
}

#[test]
fn a_stopped_run_is_not_finished() {
    for end in ["stop", "exit", "continue", "frob", "}", "pop pop pop pop"] {
        let script = format!("1 \"a\" 2 {end}");
        assert_eq!(asked(&script).answer(), Answer::NotFinished, "{script}");
    }
}

#[test]
fn fuel_may_end_exactly() {
    let with_fuel = |fuel| {
        let mut asked = asked("1 label 2");
        asked.fuel = fuel;
        asked.answer()
    };
    assert_eq!(with_fuel(4), Answer::Added(0));
    assert_eq!(with_fuel(3), Answer::NotFinished);
    assert_eq!(with_fuel(0), Answer::NotFinished);
    assert_eq!(with_fuel(FUEL), Answer::Added(0));
    assert_eq!(with_fuel(FUEL + 1), Answer::Refused(3));
}

/// The example's script: a label that it can not take apart leaves the book as it is.
#[test]
fn the_example_takes_labels_apart() {
    let mut handheld = asked("");
    handheld.script = include_bytes!("../../examples/scan.floo").to_vec();
    for (label, answer) in [
        ("0417:rack B-7:1731690000", Answer::Added(0)),
        ("0388:drawer 12:1731690412", Answer::Added(1)),
        ("0417:tester 3:1731693600", Answer::Replaced(0)),
        ("0417:shelf A-2:1731691800", Answer::Late),
        ("0388:drawer 12:1731690412", Answer::Late),
        ("0417", Answer::NotFinished),
        ("", Answer::NotFinished),
        ("04x7:rack:9", Answer::NotFinished),
        ("0417:rack:-9", Answer::NotFinished),
        ("0502::1731694000", Answer::BadStack),
        ("0502:rack C-1:1731694000", Answer::Added(2)),
    ] {
        handheld.label = label.as_bytes().to_vec();
        let scan = handheld.scan();
        assert_eq!(scan.answer, answer, "{label}");
        handheld.count = scan.count;
    }
    let known = [
        (417, &b"tester 3"[..], 1_731_693_600),
        (388, b"drawer 12", 1_731_690_412),
        (502, b"rack C-1", 1_731_694_000),
    ];
    let records = known.map(|(number, place, time)| Record::new(number, place, time).unwrap());
    assert_eq!(handheld.book[..handheld.count], records);
}

/// Each refusal before the run is given as soon as those before it do not apply, whatever follows.
#[test]
fn refusals_come_in_the_papers_order() {
    let mut asked = asked("1 \"a\" 2 stop").with_label(513).with_book(64, 65);
    asked.sizes.dictionary = PREDEFINED_NAMES;
    asked.sizes.cells = 0;
    assert_eq!(asked.clone().answer(), Answer::Refused(7));
    asked.sizes.cells = 1;
    assert_eq!(asked.clone().answer(), Answer::BookMalformed);
    asked.count = 64;
    assert_eq!(asked.clone().answer(), Answer::LabelTooLong);
    asked.label.truncate(512);
    assert_eq!(asked.clone().answer(), Answer::NoSlot);
    asked.sizes.dictionary += 1;
    assert_eq!(asked.clone().answer(), Answer::NoCells);
    asked.sizes.cells = 100;
    assert_eq!(asked.clone().answer(), Answer::NotFinished);
    asked.script = b"#FLOO\n1 \"a\" 2 3".to_vec();
    assert_eq!(asked.clone().answer(), Answer::BadStack);
    asked.script = b"#FLOO\n1 \"a\" 2".to_vec();
    assert_eq!(asked.clone().answer(), Answer::Late);
    asked.script = b"#FLOO\n999 \"a\" 2".to_vec();
    assert_eq!(asked.answer(), Answer::NoRoom);
}

/// "Two scans of different sockets, both accepted and with room for both, leave the same place and
/// time for each in either order."
#[test]
fn either_order_says_the_same() {
    let scripts = [
        "3 \"x\" 11",
        "70 \"y\" 5",
        "4 \"z\" 2147483647",
        "71 \"w\" 0",
    ];
    for (i, first) in scripts.iter().enumerate() {
        for second in &scripts[i + 1..] {
            let said = |one: &str, other: &str| {
                let mut both = asked(one).with_book(64, 62);
                both.count = both.scan().count;
                both.script = asked(other).script;
                both.count = both.scan().count;
                let mut records = both.book[..both.count].to_vec();
                records.sort_by_key(|record| record.number);
                records
            };
            assert_eq!(said(first, second), said(second, first));
        }
    }
}
