//! The prompt, fed by a pipe: there it asks nothing, and what it answers is the same.

use crate::{floo_with, Folder};

/// Standard output's lines, and the messages' first lines.
fn lines(input: &str, options: &[&str]) -> (Vec<String>, Vec<String>) {
    let said = floo_with(
        &Folder::new(),
        &[&["--prompt"], options].concat(),
        input.as_bytes(),
    );
    assert_eq!(said.status, 0);
    let messages = said.errors.lines().filter(|line| line.starts_with("line:"));
    let messages = messages.map(str::to_owned).collect();
    (said.output.lines().map(str::to_owned).collect(), messages)
}

#[test]
fn each_line_goes_on_with_the_script() {
    let (output, messages) = lines("/two 2 def\n5 two add\necho\n\"rack\" [ 1 \"x\" ]\n", &[]);
    let expected = [
        "stack: empty",
        "stack: 7",
        "7",
        "stack: empty",
        "stack: \"rack\" [1 \"x\"]",
    ];
    assert_eq!(
        (&output[..], messages.len()),
        (&expected.map(str::to_owned)[..], 0)
    );
}

#[test]
fn a_line_that_fails_is_not_kept() {
    let (output, messages) = lines("1\n2 \"so\" print foo\nadd\n3 4 stop\n5\n", &[]);
    let expected = ["stack: 1", "so", "stack: 1 5"];
    assert_eq!(output, expected.map(str::to_owned));
    let expected = [
        "line:2:14: undefined in foo",
        "line:2:1: stackunderflow in add",
        "line:2:5: stopped",
    ];
    assert_eq!(messages, expected.map(str::to_owned));
}

#[test]
fn groups_and_strings_go_on_in_the_next_line() {
    let (output, messages) = lines(
        "/f {\n{ 1\n} exec } def\nf\n\"a\\\nb\\\nc\"\n}\n\"open\n2",
        &[],
    );
    let expected = [
        "stack: empty",
        "stack: 1",
        "stack: 1 \"abc\"",
        "stack: 1 \"abc\" 2",
    ];
    assert_eq!(output, expected.map(str::to_owned));
    // the lines that were kept: three, one, three
    let expected = ["line:8:1: badbrace", "line:8:1: openstring"];
    assert_eq!(messages, expected.map(str::to_owned));
    // what is open at the end is said
    let (_, messages) = lines("1\n{ 2\n3", &[]);
    assert_eq!(messages, ["line:2:1: badbrace"]);
}

#[test]
fn another_echostack_is_not_asked() {
    let (output, _) = lines("/echostack { 99 } def\n\"rack\"\n", &[]);
    assert_eq!(output, ["stack: empty", "stack: string:4/4"]);
    // nor where the log has no room for it
    let (output, _) = lines("\"rack\"\n", &["--log", "5"]);
    assert_eq!(output, ["stack: string:4/4"]);
}

#[test]
fn what_is_too_long_is_not_kept() {
    let long = format!("1\n{}\n2\n", " ".repeat(32_760));
    let said = floo_with(&Folder::new(), &["--prompt"], long.as_bytes());
    assert_eq!(said.output, "stack: 1\nstack: 1 2\n");
    assert_eq!(
        said.error(),
        "line: refused=1: the script is over 32768 bytes"
    );
    let (output, messages) = lines("1\n{ } loop\n2\n", &["--fuel", "100"]);
    assert_eq!(output, ["stack: 1", "stack: 1 2"]);
    assert_eq!(messages, ["line:2:5: fuel: not finished after 100 steps"]);
}

#[test]
fn a_room_that_setup_refuses() {
    let said = floo_with(&Folder::new(), &["--prompt", "--stack=7"], b"1\n");
    assert_eq!((said.status, &said.output[..]), (2, ""));
    assert_eq!(
        said.error(),
        "floo: refused=4: the stack slots are not 8 to 256"
    );
}

#[test]
fn a_line_with_a_handled_error_is_kept() {
    let (output, messages) = lines("/undefined { command } onerror\n1 frob 2\npop\n", &[]);
    let expected = ["stack: empty", "stack: 1 /frob 2", "stack: 1 /frob"];
    assert_eq!(output, expected.map(str::to_owned));
    assert!(messages.is_empty(), "{messages:?}");
}

/// What the handler writes where the stack does not fit into the log is not taken for the stack.
#[test]
fn a_handler_does_not_answer_for_the_stack() {
    let text = "/ioerror { \"x\\n\" print } onerror\n\"abcdefgh\"\n";
    let (output, messages) = lines(text, &["--log", "6"]);
    let expected = ["stack: empty", "stack: string:8/8"];
    assert_eq!(output, expected.map(str::to_owned));
    assert!(messages.is_empty(), "{messages:?}");
}
