//! The program's command line, and `--state`, which the corpus cannot show.

use std::io::Write;
use std::process::{Command, Output, Stdio};

fn program(options: &[&str], script: &[u8]) -> Output {
    let mut child = Command::new(env!("CARGO_BIN_EXE_floo-reference"))
        .args(options)
        .stdin(Stdio::piped())
        .stdout(Stdio::piped())
        .stderr(Stdio::piped())
        .spawn()
        .expect("the program starts");
    let mut input = child.stdin.take().expect("standard input is piped");
    // A program that only prints its usage may be gone before it reads.
    let _ = input.write_all(script);
    drop(input);
    child.wait_with_output().expect("the program ends")
}

fn standard_output(options: &[&str], script: &[u8]) -> String {
    let output = program(options, script);
    assert!(output.status.success() && output.stderr.is_empty());
    String::from_utf8(output.stdout).expect("these outputs are text")
}

/// The lines that `--state` adds.
fn state(script: &str) -> Vec<String> {
    let script = format!("#FLOO\n{script}");
    let plain = standard_output(&[], script.as_bytes());
    let with_state = standard_output(&["--state"], script.as_bytes());
    let added = with_state
        .strip_prefix(&plain)
        .expect("the state comes last");
    added.lines().map(String::from).collect()
}

#[test]
fn the_example_of_the_paper() {
    let output = standard_output(&[], b"#FLOO\n5 /two 2 def two add echo 7\n");
    let expected = "7\nending=finished\nerror=none\ncommand=\nat=34\nwhere=\nsteps=12\ndepth=1\nheld=0\n\
                    log=2\nitem=integer:7\n";
    assert_eq!(output, expected);
}

#[test]
fn each_option_gives_its_size() {
    for (option, number, refused) in [
        ("--fuel", "1000001", 3),
        ("--stack", "7", 4),
        ("--exec", "129", 5),
        ("--dictionary", "-1", 6),
        ("--cells", "0", 7),
        ("--log", "65537", 8),
        ("--outcome", "35071", 9),
    ] {
        let output = standard_output(&[option, number], b"#FLOO");
        assert_eq!(output, format!("refused={refused}\n"));
    }
    assert_eq!(standard_output(&[], &[b'#'; 40_000]), "refused=1\n");
}

#[test]
fn the_outcome_defaults_to_the_least_for_the_stack() {
    let stack = ["--stack", "8"];
    assert!(standard_output(&stack, b"#FLOO").starts_with("ending=finished\n"));
    let outcome = ["--outcome", "1343", "--stack", "8"];
    assert_eq!(standard_output(&outcome, b"#FLOO"), "refused=9\n");
    let huge = ["--stack", "18446744073709551615"];
    assert_eq!(standard_output(&huge, b"#FLOO"), "refused=4\n");
}

#[test]
fn token_prints_one_reading() {
    let output = program(&["--token", "2"], b"  \"\xFF\\\n\" ");
    assert_eq!(output.stdout, b"kind=string next=7 part=\xFF\\\n\n");
    assert_eq!(
        standard_output(&["--token", "0"], b""),
        "kind=end next=0 part=\n"
    );
    assert_eq!(standard_output(&["--token", "1"], b""), "refused=10\n");
    assert_eq!(standard_output(&["--token", "0"], b"1x"), "badnumber 1\n");
    assert_eq!(
        standard_output(&["--token", "0"], b"2147483648"),
        "limitcheck\n"
    );
}

#[test]
fn wrong_options_print_the_usage() {
    for options in [
        &["--unknown"][..],
        &["--unknown", "1"],
        &["script"],
        &["--fuel"],
        &["--fuel", "many"],
        &["--cells", "-1"],
        &["--token"],
    ] {
        let output = program(options, b"#FLOO");
        assert_eq!(output.status.code(), Some(2), "{options:?}");
        assert!(output.stdout.is_empty());
        assert!(output.stderr.starts_with(b"usage: "));
    }
}

#[test]
fn state_is_empty_without_objects_and_after_a_refusal() {
    assert!(state("1 2 add").is_empty());
    assert!(state("[ 1 2 ] pop \"gone\" pop").is_empty());
    assert_eq!(
        standard_output(&["--state", "--cells", "0"], b"#FLOO"),
        "refused=7\n"
    );
}

#[test]
fn state_counts_stack_items_bindings_and_elements() {
    // The string: two items, one binding, two elements; the array: one item.
    let lines = state("\"abcdefghi\" dup /s 1 index def [ s s ]");
    assert_eq!(
        lines,
        [
            "object kind=string maximum=9 count=5",
            "object kind=array length=2 count=1"
        ]
    );
}

#[test]
fn state_counts_execution_slots() {
    // A loop slot and its running body are two places (R90).
    let lines = state("{ stop } loop");
    assert_eq!(lines, ["object kind=array length=1 count=2"]);
}

#[test]
fn state_shows_circles_and_not_what_unheld_arrays_name() {
    let lines = state("/a 1 array def a 0 a put /a 0 def");
    assert_eq!(lines, ["object kind=array length=1 count=1"]);
    let lines = state("\"x\" dup [ exch ] pop");
    assert_eq!(lines, ["object kind=string maximum=1 count=1"]);
}
