//! The examples of the scope paper, with the results that it gives.

use floo::{Refusal, Report, Runner, Sizes};

const FUEL: u32 = floo::FUEL_MAX;

/// Runs the text as the lines after `#FLOO`.
fn run<'a>(runner: &'a mut Runner, text: &str) -> Report<'a> {
    runner
        .run(format!("#FLOO\n{text}").as_bytes(), FUEL)
        .expect("the script is accepted")
}

fn items(text: &str) -> Vec<String> {
    let mut runner = Runner::new(Sizes::default());
    run(&mut runner, text)
        .items()
        .map(|item| item.to_string())
        .collect()
}

fn with_cells(cells: usize, text: &str) -> (String, String) {
    let mut runner = Runner::new(Sizes {
        cells,
        ..Sizes::default()
    });
    let report = run(&mut runner, text);
    let value = |key| report.value(key).unwrap().to_owned();
    (value("error"), value("held"))
}

#[test]
fn the_worked_example() {
    let mut runner = Runner::new(Sizes::default());
    let report = run(&mut runner, "5 /two 2 def two add echo 7\n");
    assert_eq!(report.log(), b"7\n");
    assert_eq!(report.steps(), 12);
    assert_eq!(
        report.outcome(),
        "ending=finished\nerror=none\ncommand=\nat=34\nwhere=\nsteps=12\ndepth=1\nheld=0\nlog=2\nitem=integer:7\n"
    );
}

#[test]
fn arithmetic() {
    for (text, value) in [
        ("-7 3 idiv", -2),
        ("-7 3 mod", -1),
        ("7 -3 mod", 1),
        ("2147483647 1 add", -2147483648),
        ("-1 -28 bitshift", 15),
        ("1 31 bitshift", -2147483648),
    ] {
        assert_eq!(items(text), [format!("integer:{value}")], "{text}");
    }
}

#[test]
fn rolls() {
    let integers = |numbers: [u8; 5]| numbers.map(|number| format!("integer:{number}"));
    assert_eq!(items("0 1 2 3 4 4 2 roll"), integers([0, 3, 4, 1, 2]));
    assert_eq!(items("0 1 2 3 4 4 -1 roll"), integers([0, 2, 3, 4, 1]));
}

#[test]
fn an_unknown_name() {
    let mut runner = Runner::new(Sizes::default());
    let report = run(&mut runner, "3 frob");
    for (key, value) in [
        ("ending", "error"),
        ("error", "undefined"),
        ("command", "frob"),
        ("at", "8"),
        ("steps", "2"),
        ("depth", "1"),
    ] {
        assert_eq!(report.value(key), Some(value), "{key}");
    }
}

#[test]
fn an_empty_script_needs_no_fuel() {
    let mut runner = Runner::new(Sizes::default());
    let report = runner.run(b"#FLOO", 0).unwrap();
    assert_eq!(report.value("ending"), Some("finished"));
    assert_eq!(report.value("at"), Some("5"));
    assert_eq!(report.steps(), 0);
}

#[test]
fn fuel_is_spent_by_steps() {
    let mut runner = Runner::new(Sizes::default());
    let enough = runner.run(b"#FLOO\n1 2 add", 4).unwrap();
    assert_eq!(enough.value("ending"), Some("finished"));
    assert_eq!(enough.steps(), 4);
    let short = runner.run(b"#FLOO\n1 2 add", 3).unwrap();
    assert_eq!(short.value("ending"), Some("fuel"));
    assert_eq!(short.steps(), 3);
}

#[test]
fn room() {
    let result = |error: &str, held: &str| (error.to_owned(), held.to_owned());
    assert_eq!(with_cells(4, "[1 2 3] pop [4 5 6]"), result("none", "4"));
    assert_eq!(with_cells(4, "[1 2 3] [4]"), result("VMerror", "4"));
    assert_eq!(
        with_cells(4, "[1 2 3] 0 2 getinterval").0,
        "VMerror".to_owned()
    );
    assert_eq!(
        with_cells(4096, "/a 1 array def a 0 a put /a 0 def").1,
        "2".to_owned()
    );
}

#[test]
fn other_errors() {
    let mut small = Runner::new(Sizes {
        stack: 8,
        ..Sizes::default()
    });
    assert_eq!(
        run(&mut small, "{ 1 } loop").value("error"),
        Some("stackoverflow")
    );
    assert_eq!(run(&mut small, "]").value("error"), Some("unmatchedmark"));
    assert_eq!(items("\"ABCDE\" dup 2 0 put"), ["string:2/5"]);
}

#[test]
fn earlier_runs_have_no_effect() {
    let mut runner = Runner::new(Sizes::default());
    let first = run(&mut runner, "/x 5 def x echo").outcome().to_owned();
    run(&mut runner, "/y [ 1 \"two\" ] def { y } loop");
    assert_eq!(run(&mut runner, "/x 5 def x echo").outcome(), first);
    assert_eq!(run(&mut runner, "y").value("error"), Some("undefined"));
}

/// A refusal and the sizes, the script and the fuel that it is given for.
fn refused(sizes: Sizes, script: &[u8], fuel: u32) -> Option<u32> {
    let mut runner = Runner::new(sizes);
    let answer = runner.run(script, fuel);
    answer.err().map(Refusal::number)
}

#[test]
fn refusals() {
    let usual = Sizes::default();
    let mut script = vec![b' '; 32_768];
    script[..5].copy_from_slice(b"#FLOO");
    assert_eq!(refused(usual, &script, FUEL), None);
    script.push(b' ');
    assert_eq!(refused(usual, &script, FUEL), Some(1));
    assert_eq!(refused(usual, b"#FLO", FUEL), Some(2));
    assert_eq!(refused(usual, b"", FUEL), Some(2));
    assert_eq!(refused(usual, b"#FLOO", FUEL + 1), Some(3));
    assert_eq!(refused(usual, b"#FLOO", u32::MAX), Some(3));
    // each size, its least and its most
    type Set = fn(&mut Sizes, usize);
    let limits: [(u32, Set, usize, usize); 4] = [
        (4, |sizes, n| sizes.stack = n, 8, 256),
        (5, |sizes, n| sizes.execution = n, 4, 128),
        (
            6,
            |sizes, n| sizes.dictionary = n,
            floo::PREDEFINED_NAMES,
            512,
        ),
        (7, |sizes, n| sizes.cells = n, 1, 32_768),
    ];
    for (number, set, least, most) in limits {
        for (n, answer) in [
            (0, Some(number)),
            (least - 1, Some(number)),
            (least, None),
            (most, None),
            (most + 1, Some(number)),
            (usize::MAX, Some(number)),
        ] {
            let mut sizes = usual;
            set(&mut sizes, n);
            assert_eq!(refused(sizes, b"#FLOO", FUEL), answer, "{number}: {n}");
        }
    }
    let log = |log| Sizes { log, ..usual };
    assert_eq!(refused(log(0), b"#FLOO", FUEL), None);
    assert_eq!(refused(log(65_536), b"#FLOO", FUEL), None);
    assert_eq!(refused(log(65_537), b"#FLOO", FUEL), Some(8));
    assert_eq!(refused(log(usize::MAX), b"#FLOO", FUEL), Some(8));
}

#[test]
fn the_first_refusal_is_given() {
    let none = Sizes {
        stack: 0,
        execution: 0,
        dictionary: 0,
        cells: 0,
        log: 65_537,
    };
    assert_eq!(refused(none, &[b'x'; 32_769], u32::MAX), Some(1));
    assert_eq!(refused(none, b"x", u32::MAX), Some(2));
    assert_eq!(refused(none, b"#FLOO", u32::MAX), Some(3));
    assert_eq!(refused(none, b"#FLOO", 0), Some(4));
}
