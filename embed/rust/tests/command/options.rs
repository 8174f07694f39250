//! The command line: what is refused, with nothing on standard output, and the limits of the room.

use crate::{floo, floo_with, script, Folder};

#[test]
fn what_cannot_be_read_is_named() {
    for (arguments, message) in [
        (&["--colour"][..], "floo: unknown option --colour"),
        (&["-x"], "floo: unknown option -x"),
        (&["--fuel"], "floo: --fuel lacks its value"),
        (
            &["--fuel", "many", "label.floo"],
            "floo: --fuel wants a number, not many",
        ),
        (
            &["--cells", "-1", "label.floo"],
            "floo: --cells wants a number, not -1",
        ),
        (
            &["--stack=", "label.floo"],
            "floo: --stack wants a number, not ",
        ),
        (
            &["--room=7", "label.floo"],
            "floo: --room takes no value, here 7",
        ),
        (
            &["--steps", "3", "--room", "label.floo"],
            "floo: --steps and --room cannot both be",
        ),
        (
            &["--steps", "5..x", "label.floo"],
            "floo: --steps wants A..B, two numbers of steps, not 5..x",
        ),
        (
            &["--steps", "5..4", "label.floo"],
            "floo: --steps 5..4 has its greater number first",
        ),
        (
            &["label.floo", "other.floo"],
            "floo: one script at a time, and other.floo is a second",
        ),
        (&["--prompt", "label.floo"], "floo: --prompt takes no file"),
        (
            &["--prompt", "--room"],
            "floo: --prompt and --room cannot both be",
        ),
        (&["--new", "label.floo"], "floo: --new is of `floo scan`"),
        (&["scan"], "floo: `floo scan` wants a script and a book"),
        (
            &["scan", "label.floo"],
            "floo: `floo scan` wants a script and a book",
        ),
        (
            &["scan", "--room", "label.floo", "book.csv"],
            "floo: `floo scan` has no --room",
        ),
        (
            &["scan", "--prompt", "label.floo", "book.csv"],
            "floo: `floo scan` has no --prompt",
        ),
        (
            &["missing.floo"],
            "missing.floo: No such file or directory (os error 2)",
        ),
        (&["."], ".: Is a directory (os error 21)"),
    ] {
        let folder = Folder::new();
        folder.put("label.floo", b"#FLOO\n1 echo");
        let said = floo(&folder, arguments);
        assert_eq!((said.status, &said.output[..]), (2, ""), "{arguments:?}");
        assert_eq!(said.error(), message, "{arguments:?}");
    }
}

/// Each limit of setup, at it and one past it.
#[test]
fn the_room_is_judged_by_setup() {
    let least = floo::PREDEFINED_NAMES.to_string();
    let too_few = (floo::PREDEFINED_NAMES - 1).to_string();
    for (option, good, bad, number) in [
        (
            "--fuel",
            &["0", "1000000"][..],
            &["1000001", "4294967296", "99999999999999999999999"][..],
            3,
        ),
        (
            "--stack",
            &["8", "256"],
            &["7", "257", "99999999999999999999999"],
            4,
        ),
        ("--exec", &["4", "128"], &["3", "129"], 5),
        (
            "--dictionary",
            &[&least[..], "512"],
            &[&too_few[..], "513"],
            6,
        ),
        ("--cells", &["1", "32768"], &["0", "32769"], 7),
        ("--log", &["0", "65536"], &["65537"], 8),
    ] {
        for value in good {
            assert_eq!(
                script("#FLOO", &[option, value]).status,
                0,
                "{option} {value}"
            );
        }
        for value in bad {
            for what in [&[][..], &["--room"], &["--steps", "0..1"], &["--outcome"]] {
                let said = script("#FLOO", &[what, &[&format!("{option}={value}")]].concat());
                assert_eq!((said.status, &said.output[..]), (2, ""), "{option} {value}");
                let start = format!("label.floo: refused={number}: ");
                assert!(said.errors.starts_with(&start), "{}", said.errors);
            }
        }
    }
}

#[test]
fn the_length_of_a_script() {
    let mut text = format!("#FLOO{}", " ".repeat(32_763));
    for (what, status) in [(&[][..], 0), (&["--tokens"], 0)] {
        assert_eq!(script(&text, what).status, status);
    }
    text.push(' ');
    for what in [&[][..], &["--tokens"], &["--room"], &["--steps", "0..1"]] {
        let said = script(&text, what);
        assert_eq!((said.status, &said.output[..]), (2, ""), "{what:?}");
        assert_eq!(
            said.error(),
            "label.floo: refused=1: the script is over 32768 bytes"
        );
    }
}

#[test]
fn a_script_without_its_first_line() {
    let said = script("1 2 add\n", &[]);
    assert_eq!((said.status, &said.output[..]), (2, ""));
    let expected = "label.floo:1:1: refused=2: the script does not begin with #FLOO\n \
                    1 | 1 2 add\n   | ^\n  note: put a line `#FLOO` before it\n";
    assert_eq!(said.errors, expected);
}

#[test]
fn help_and_version() {
    let folder = Folder::new();
    for option in ["--help", "-h"] {
        let said = floo(&folder, &[option]);
        assert_eq!((said.status, &said.errors[..]), (0, ""));
        for word in [
            "--tokens",
            "--steps",
            "--room",
            "scan",
            "--fuel",
            "Exit status",
        ] {
            assert!(said.output.contains(word), "{word}");
        }
    }
    let said = floo(&folder, &["--version"]);
    assert_eq!(
        (said.status, &said.output[..]),
        (0, "floo 0.5.0, for Floo 0.5\n")
    );
}

#[test]
fn a_file_with_the_name_of_an_option_or_of_scan() {
    let folder = Folder::new();
    folder.put("--room", b"#FLOO\n1 echo");
    folder.put("scan", b"#FLOO\n2 echo");
    assert_eq!(floo(&folder, &["--", "--room"]).output, "1\n");
    assert_eq!(floo(&folder, &["./scan"]).output, "2\n");
}

#[test]
fn standard_input_is_a_script_where_it_is_no_terminal() {
    let folder = Folder::new();
    for arguments in [&[][..], &["-"]] {
        let said = floo_with(&folder, arguments, b"#FLOO\n1 echo add");
        assert_eq!((said.status, &said.output[..]), (1, "1\n"));
        assert_eq!(said.error(), "<standard input>:2:8: stackunderflow in add");
    }
}
