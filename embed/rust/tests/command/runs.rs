//! `floo FILE`: log, message and status for each ending, and `--outcome` and `--tokens`.

use crate::{floo, floo_with, script, Folder, Said};

#[test]
fn the_log_goes_to_standard_output() {
    let said = script("#FLOO\n5 /two 2 def two add echo 7\n", &[]);
    let expected = Said {
        status: 0,
        output: "7\n".to_owned(),
        errors: String::new(),
    };
    assert_eq!(said, expected);
}

#[test]
fn the_outcome_is_the_proved_programs() {
    let root = concat!(env!("CARGO_MANIFEST_DIR"), "/../../examples");
    let expected = std::fs::read_to_string(format!("{root}/label.expected")).unwrap();
    let folder = Folder::new();
    let said = floo(&folder, &["--outcome", &format!("{root}/label.floo")]);
    assert_eq!((said.status, said.output), (0, expected));
    let said = floo_with(&folder, &["--outcome", "-"], b"#FLOO\n3 frob");
    let expected = "ending=error\nerror=undefined\ncommand=frob\nat=8\nwhere=\nsteps=2\ndepth=1\nheld=0\nlog=0\nitem=integer:3\n";
    assert_eq!((said.status, &said.output[..]), (1, expected));
}

/// "only an error that ends the run shows in the outcome"
#[test]
fn a_handled_error_is_not_told() {
    let text = "#FLOO\n/rangecheck { \"no place\\n\" print } onerror\n\"0417\" 5 4 getinterval\n";
    let said = script(text, &[]);
    let expected = Said {
        status: 0,
        output: "no place\n".to_owned(),
        errors: String::new(),
    };
    assert_eq!(said, expected);
    // an error in the handler is
    let said = script(&text.replace("print", "prin"), &[]);
    assert_eq!(
        (said.status, said.error()),
        (1, "label.floo:3:12: undefined in prin")
    );
    assert!(said.errors.contains("note: is it print?\n"));
}

#[test]
fn an_error_has_its_place_line_and_caret() {
    let text =
        "#FLOO\n# the place\n/label \"0417:rack B-7\" def\n/place label 5 20 getinterval def\n";
    let said = script(text, &[]);
    assert_eq!((said.status, &said.output[..]), (1, ""));
    let expected = "label.floo:4:19: rangecheck in getinterval\n \
                    4 | /place label 5 20 getinterval def\n   \
                    |                   ^\n  \
                    note: the stack: /place string:13/13 5 20\n";
    assert_eq!(said.errors, expected);
}

#[test]
fn a_fault_of_a_token_is_shown_at_its_byte() {
    for (text, message, caret) in [
        (
            "#FLOO\n\t\"rack \\400\" print",
            "label.floo:2:9: badescape",
            "   | \t       ^",
        ),
        ("#FLOO\n1.5", "label.floo:2:2: badnumber", "   |  ^"),
        (
            "#FLOO\n1 2\r\n  \"shelf\r\n3",
            "label.floo:3:3: openstring",
            "   |   ^",
        ),
        (
            "#FLOO\n/f { 1\n{ 2 }\n{ 3\n",
            "label.floo:4:1: badbrace",
            "   | ^",
        ),
        ("#FLOO\n1 } 2", "label.floo:2:3: badbrace", "   |   ^"),
        (
            "#FLOO\n/place / def",
            "label.floo:2:9: badbyte",
            "   |         ^",
        ),
        // no place of its own: the token
        (
            "#FLOO\n1 99999999999",
            "label.floo:2:3: limitcheck",
            "   |   ^",
        ),
        // at the script's end, with a character of two bytes before it
        (
            "#FLOO\n\"\u{e4}\" /",
            "label.floo:2:7: badbyte",
            "   |      ^",
        ),
    ] {
        let said = script(text, &[]);
        let lines: Vec<&str> = said.errors.lines().collect();
        assert_eq!(
            (said.status, lines[0], lines[2]),
            (1, message, caret),
            "{text}"
        );
        assert_eq!(said.output, "");
    }
}

#[test]
fn the_log_stands_before_the_error() {
    let said = script("#FLOO\n1 echo add", &[]);
    assert_eq!((said.status, &said.output[..]), (1, "1\n"));
    assert_eq!(said.error(), "label.floo:2:8: stackunderflow in add");
    assert!(said.errors.ends_with("note: the stack is empty\n"));
}

#[test]
fn an_error_in_a_procedure_says_where_it_may_stand() {
    let said = script("#FLOO\n/half {\n  2 idiv\n} def\n\"x\" half", &[]);
    assert_eq!(said.error(), "label.floo:5:5: typecheck in idiv");
    // 1 to 3 define it, 4 and 5 are def, 6 the string; 7 and 8 half, 9 the 2, 10 idiv's name, 11 idiv
    let note = "note: idiv is run by half and stands at 3:5; --steps 2..10 shows the last steps\n";
    assert!(said.errors.ends_with(note), "{}", said.errors);
}

#[test]
fn every_ending_has_its_status() {
    assert_eq!(script("#FLOO\n1 2 add", &[]).status, 0);
    assert_eq!(script("#FLOO\nadd", &[]).status, 1);
    assert_eq!(script("add", &[]).status, 2);
    let fuel = script("#FLOO\n{ } loop", &["--fuel", "9"]);
    assert_eq!(fuel.status, 3);
    assert_eq!(
        fuel.error(),
        "label.floo:2:5: fuel: not finished after 9 steps"
    );
    assert!(fuel.errors.contains("--fuel lends more"));
    let stopped = script("#FLOO\n1 echo\nstop", &[]);
    assert_eq!((stopped.status, &stopped.output[..]), (4, "1\n"));
    assert_eq!(stopped.error(), "label.floo:3:1: stopped");
    // exit with no loop ends the run as stop does
    assert_eq!(script("#FLOO\nexit", &[]).status, 4);
}

#[test]
fn tokens_are_listed_up_to_a_fault() {
    let said = script("#FLOO\n/two 0x1F { \"a\\n\" } [", &["--tokens"]);
    let expected = "2:1      literal name     /two\n\
                    2:6      integer          0x1F\n\
                    2:11     open brace       {\n\
                    2:13     string           \"a\\n\"\n\
                    2:19     close brace      }\n\
                    2:21     executable name  [\n";
    assert_eq!((said.status, &said.output[..]), (0, expected));
    let said = script("#FLOO\nadd # a sum\n 5a 1", &["--tokens"]);
    assert_eq!(
        (said.status, said.error()),
        (1, "label.floo:3:3: badnumber")
    );
    assert_eq!(said.output, "2:1      executable name  add\n");
    // a limitcheck has no byte of its own: its token's first
    let said = script("#FLOO\nadd # a sum\n 99999999999", &["--tokens"]);
    assert_eq!(
        (said.status, said.error()),
        (1, "label.floo:3:2: limitcheck")
    );
}

#[test]
fn what_a_terminal_would_act_on_is_not_shown() {
    let said = script("#FLOO\n\"\x1b[31m\" \x07", &[]);
    assert_eq!(said.error(), "label.floo:2:9: badbyte");
    assert!(!said.errors.contains(['\x1b', '\x07']), "{:?}", said.errors);
    // of a long line, the part around the place
    let long = format!(
        "#FLOO\n{} oops {}",
        "1 pop ".repeat(500),
        "2 pop ".repeat(500)
    );
    let said = script(&long, &[]);
    assert_eq!(said.error(), "label.floo:2:3002: undefined in oops");
    let lines: Vec<&str> = said.errors.lines().collect();
    assert!(lines[1].len() < 120);
    let caret = lines[2].len() - 1;
    assert_eq!(&lines[1][caret..caret + 5], "oops ");
}
