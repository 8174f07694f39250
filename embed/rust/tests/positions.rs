//! Lines and columns: from 1, in bytes, a tab one of them, CR LF one break; the end has a place, what is past it none. And the place that a run reports.

use floo::{position, Runner, Sizes};

#[test]
fn lines_and_columns() {
    let expected: [(&[u8], usize, usize, usize); 27] = [
        // one line: every byte is a column, a tab too, and so is the end
        (b"#FLOO 1", 0, 1, 1),
        (b"#FLOO 1", 6, 1, 7),
        (b"#FLOO 1", 7, 1, 8),
        (b"\t\tx", 2, 1, 3),
        (b"\xc3\xa4x", 2, 1, 3),
        // a break is the last column of the line that it ends
        (b"ab\ncd", 2, 1, 3),
        (b"ab\ncd", 3, 2, 1),
        (b"ab\ncd", 5, 2, 3),
        (b"ab\rcd", 2, 1, 3),
        (b"ab\rcd", 3, 2, 1),
        // CR LF is one break: its CR, between the two, after it
        (b"ab\r\ncd", 2, 1, 3),
        (b"ab\r\ncd", 3, 1, 4),
        (b"ab\r\ncd", 4, 2, 1),
        // LF CR are two, and so are two of one kind; CR CR LF are two
        (b"a\n\rb", 2, 2, 1),
        (b"a\n\rb", 3, 3, 1),
        (b"\n\n", 1, 2, 1),
        (b"\n\n", 2, 3, 1),
        (b"\r\r\nx", 1, 2, 1),
        (b"\r\r\nx", 2, 2, 2),
        (b"\r\r\nx", 3, 3, 1),
        // a script that ends with a break has its end in the next line
        (b"ab\n", 3, 2, 1),
        (b"ab\r", 2, 1, 3),
        (b"ab\r", 3, 2, 1),
        (b"ab\r\n", 3, 1, 4),
        (b"ab\r\n", 4, 2, 1),
        // other breaks than these there are none
        (b"a\x0b\x0c\xc2\x85b", 5, 1, 6),
        // no bytes
        (b"", 0, 1, 1),
    ];
    for (script, offset, line, column) in expected {
        let found = position(script, offset).map(|at| (at.line, at.column));
        assert_eq!(
            found,
            Some((line, column)),
            "{offset} of {}",
            script.escape_ascii()
        );
    }
}

#[test]
fn past_the_end_is_no_place() {
    for (script, offset) in [(&b""[..], 1), (b"ab\n", 4), (b"ab\n", usize::MAX)] {
        assert_eq!(position(script, offset), None);
    }
}

/// Every script of up to 6 bytes of these four, taken apart line by line.
#[test]
fn all_short_scripts() {
    let mut scripts: Vec<Vec<u8>> = vec![vec![]];
    for length in 0..6 {
        let longest = scripts
            .iter()
            .filter(|script| script.len() == length)
            .cloned();
        let longer =
            longest.flat_map(|script| b"a\t\r\n".map(|byte| [&script[..], &[byte]].concat()));
        scripts.extend(longer.collect::<Vec<_>>());
    }
    assert_eq!(scripts.len(), 1 + 4 + 16 + 64 + 256 + 1_024 + 4_096);
    for script in scripts {
        let mut offset = 0;
        for (line, text) in lines(&script).into_iter().enumerate() {
            for column in 0..text {
                let found = position(&script, offset).map(|at| (at.line, at.column));
                assert_eq!(
                    found,
                    Some((line + 1, column + 1)),
                    "{offset} of {}",
                    script.escape_ascii()
                );
                offset += 1;
            }
        }
        assert_eq!(offset, script.len() + 1);
    }
}

/// How many offsets each line has: its bytes with its break, and one more in the last line, for the end.
fn lines(script: &[u8]) -> Vec<usize> {
    // each break is marked in the place of its last byte
    let marked = String::from_utf8(script.to_vec())
        .unwrap()
        .replace("\r\n", "x\n")
        .replace('\r', "\n");
    marked.split('\n').map(|line| line.len() + 1).collect()
}

/// "The outcome gains `where=` after `at=`, else empty. An unclosed brace points at the innermost open brace".
#[test]
fn a_run_says_where() {
    let mut runner = Runner::new(Sizes::default());
    let expected: [(&[u8], &str, &str, Option<usize>); 7] = [
        (b"#FLOO\n5a", "badnumber", "6", Some(7)),
        (b"#FLOO\n{ a { b \"c\\q\" } }", "badescape", "6", Some(17)),
        (b"#FLOO\n{ 1 { 2 } { 3 \"x\"", "badbrace", "6", Some(16)),
        (b"#FLOO\n1 } 2", "badbrace", "8", Some(8)),
        (b"#FLOO\n{ \"a\nb\" }", "openstring", "6", Some(8)),
        (b"#FLOO\n99999999999", "limitcheck", "6", None),
        (b"#FLOO\n1 2 add", "none", "13", None),
    ];
    for (script, error, at, place) in expected {
        let report = runner.run(script, 100).unwrap();
        assert_eq!(
            (report.value("error"), report.value("at")),
            (Some(error), Some(at))
        );
        assert_eq!(report.place(), place, "{}", script.escape_ascii());
        let keys: Vec<&str> = report
            .outcome()
            .lines()
            .filter_map(|line| line.split('=').next())
            .collect();
        let order = [
            "ending", "error", "command", "at", "where", "steps", "depth", "held", "log",
        ];
        assert_eq!(keys[..9], order);
    }
}
