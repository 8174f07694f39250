//! The library's own interface, and runs that must not take long.

use floo_reference::setup::PREDEFINED_NAMES;
use floo_reference::{printed, read_token, run, Answer, Ran, Sizes, TokenAnswer};

#[test]
fn words_are_divided_and_rounded_down() {
    let sizes = Sizes::from_words(513, 1031, 6155, 16387, 8192, 35072);
    assert_eq!(sizes, Sizes::default());
}

#[test]
fn a_run_gives_its_final_state() {
    let Answer::Run(Ran { log, machine, .. }) =
        run(b"#FLOO\n1 [ 2 ] \"x\" print", 99, &Sizes::default())
    else {
        panic!("the script is accepted");
    };
    assert_eq!(log, b"x");
    assert_eq!((machine.stack.len(), machine.frames.len()), (2, 0));
    assert_eq!((machine.store.len(), machine.dictionary.len()), (2, PREDEFINED_NAMES));
}

#[test]
fn a_part_is_the_very_part_of_the_script() {
    let script = b" /name ";
    let reading = read_token(script, 0);
    assert_eq!(reading.part.as_ptr(), script[2..].as_ptr());
    assert_eq!((reading.part, reading.next), (&b"name"[..], 6));
    assert_eq!(
        read_token(&[b' '; 32_769], 40_000).answer,
        TokenAnswer::Refused(1)
    );
}

/// The last lines of a run with all the fuel and the largest arena.
fn long_run(body: &str) -> String {
    let sizes = Sizes {
        cells: 32_768,
        log: 65_536,
        ..Sizes::default()
    };
    let script = format!("#FLOO\n{body}");
    String::from_utf8(printed(script.as_bytes(), 1_000_000, &sizes)).expect("the log is text")
}

#[test]
fn a_million_steps() {
    let output = long_run("0 { 1 add } loop");
    assert!(output.contains("steps=1000000\n"));
}

#[test]
fn two_hundred_thousand_allocations() {
    let output = long_run("{ 500 array pop } bind loop");
    assert!(output.contains("ending=fuel\n") && output.contains("steps=1000000\n"));
}

#[test]
fn a_long_chain_goes_at_once() {
    let output = long_run("null 16300 { 1 array dup 0 4 -1 roll put } repeat pop 32767 array");
    assert!(output.contains("ending=finished\n") && output.contains("held=32768\n"));
}

#[test]
fn shared_arrays_are_echoed_no_further_than_the_log() {
    let output = long_run("1 3 { /x 1 index def 8000 array 0 1 7999 { 1 index exch x put } for exch pop } repeat echo");
    assert!(output.contains("error=ioerror\ncommand=echo\n") && output.contains("log=0\n"));
}
