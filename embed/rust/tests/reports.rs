//! A report's values as enums: each ending, each error and each kind of item is reached by a run, and is written as the outcome has it.

use std::collections::BTreeSet;

use floo::{Ending, ErrorName, Item, Runner, Sizes};

/// A script for each error, with the command that the outcome names.
const ERRORS: [(&str, ErrorName, Option<&str>); 16] = [
    ("5a", ErrorName::BadNumber, None),
    ("\"\\q\"", ErrorName::BadEscape, None),
    ("\"", ErrorName::OpenString, None),
    ("{", ErrorName::BadBrace, None),
    ("/", ErrorName::BadByte, None),
    ("frob", ErrorName::Undefined, Some("frob")),
    ("pop", ErrorName::StackUnderflow, Some("pop")),
    ("1 true add", ErrorName::TypeCheck, Some("add")),
    ("-1 array", ErrorName::RangeCheck, Some("array")),
    ("1 0 mod", ErrorName::UndefinedResult, Some("mod")),
    ("]", ErrorName::UnmatchedMark, Some("]")),
    ("2147483648", ErrorName::LimitCheck, None),
    ("/f { f 1 } def f", ErrorName::ExecStackOverflow, Some("f")),
    ("{ 1 } loop", ErrorName::StackOverflow, None),
    ("32767 array", ErrorName::VmError, Some("array")),
    ("\"ab\" echo", ErrorName::IoError, Some("echo")),
];

#[test]
fn every_error() {
    let mut runner = Runner::new(Sizes {
        log: 4,
        ..Sizes::default()
    });
    for (text, error, command) in ERRORS {
        let script = format!("#FLOO\n{text}");
        let report = runner.run(script.as_bytes(), 10_000).unwrap();
        assert_eq!(
            (report.ending(), report.error()),
            (Ending::Error, Some(error)),
            "{text}"
        );
        assert_eq!(report.command(), command, "{text}");
        assert_eq!(report.value("error"), Some(&error.to_string()[..]));
        assert_eq!(ErrorName::from_word(error.word()), Some(error));
        assert_eq!(
            report.place().is_some(),
            error.word().starts_with("bad") || error == ErrorName::OpenString
        );
        assert_eq!(report.to_string(), report.outcome());
    }
    let different: BTreeSet<&str> = ERRORS.iter().map(|(_, error, _)| error.word()).collect();
    assert_eq!(different.len(), ERRORS.len());
}

#[test]
fn every_ending() {
    let mut runner = Runner::new(Sizes::default());
    for (text, ending) in [
        ("#FLOO\n1", Ending::Finished),
        ("#FLOO\nstop", Ending::Stopped),
        ("#FLOO\nadd", Ending::Error),
        ("#FLOO\n1 2 3", Ending::Fuel),
    ] {
        let report = runner.run(text.as_bytes(), 2).unwrap();
        assert_eq!(report.ending(), ending);
        assert_eq!(report.value("ending"), Some(&ending.to_string()[..]));
        assert_eq!(report.error().is_some(), ending == Ending::Error);
        assert_eq!(Ending::from_word(ending.word()), Some(ending));
    }
}

#[test]
fn every_item() {
    let mut runner = Runner::new(Sizes::default());
    let script = b"#FLOO\n-2147483648 true false null [ 5 string /x /x cvx \"a b\" cvn /add load 2 array { 1 }";
    let report = runner.run(script, 100).unwrap();
    let name = |literal, text| Item::Name { literal, text };
    let string = Item::String {
        current: 0,
        maximum: 5,
    };
    let expected = [
        Item::Integer(i32::MIN),
        Item::Boolean(true),
        Item::Boolean(false),
        Item::Null,
        Item::Mark,
        string,
        name(true, "x"),
        name(false, "x"),
        name(true, "a\\040b"),
        Item::Operator("add"),
        Item::Array(2),
        Item::Procedure(1),
    ];
    assert_eq!(report.items().collect::<Vec<_>>(), expected);
    let lines: Vec<&str> = report
        .outcome()
        .lines()
        .filter_map(|line| line.strip_prefix("item="))
        .collect();
    assert_eq!(lines, expected.map(|item| item.to_string()));
    assert_eq!(
        (report.depth(), report.held(), report.at()),
        (12, 2 + 3 + 2, script.len())
    );
}

#[test]
fn what_is_no_item() {
    for text in [
        "",
        "integer:",
        "integer:2147483648",
        "boolean:yes",
        "string:5",
        "string:/5",
        "array:-1",
        "mark:",
        "real:1",
    ] {
        assert_eq!(Item::from_text(text), None, "{text}");
    }
}
