//! A display keeps its memory from run to run; a run that fails keeps what its steps stored.

use floo::forf::{token, Display, Ending, Kind, Refusal, TokenError};

#[test]
fn memory_is_kept_between_runs() {
    let mut display = Display::new();
    display.memory[3] = -5;
    let report = display.run(b"3 mget 2 * dup 4 mset 1 0 %", 100).unwrap();
    assert_eq!(
        (report.ending(), report.error(), report.command()),
        (Ending::Error, Some("undefinedresult"), "%")
    );
    assert_eq!(
        report.items().collect::<Vec<_>>(),
        ["integer:-10", "integer:1", "integer:0"]
    );
    assert_eq!((report.steps(), report.at()), (10, 26));
    assert_eq!((display.memory[3], display.memory[4]), (-5, -10));
    let report = display.run(b"4 mget { 1 { 2 } }", 100).unwrap();
    assert_eq!(
        report.items().collect::<Vec<_>>(),
        ["integer:-10", "substack:2"]
    );
}

#[test]
fn refusals_leave_the_memory() {
    let mut display = Display::new();
    display.memory = [7; 32];
    assert_eq!(
        display.run(&[b' '; 32_769], 1).unwrap_err(),
        Refusal::ScriptTooLong
    );
    assert_eq!(
        display.run(b"1 0 mset", 1_000_001).unwrap_err(),
        Refusal::TooMuchFuel
    );
    assert_eq!(display.memory, [7; 32]);
}

#[test]
fn tokens() {
    let script = b"-5(x){ab}) (";
    let found = token(script, 2).unwrap();
    assert_eq!(
        (found.kind, found.part, found.next),
        (Kind::OpenBrace, &b"{"[..], 6)
    );
    assert_eq!(token(script, 12).unwrap().kind, Kind::End);
    assert_eq!(token(script, 9), Err(TokenError::Syntax));
    assert_eq!(token(script, 13), Err(TokenError::PastEnd));
    assert_eq!(token(&[b' '; 32_769], 0), Err(TokenError::ScriptTooLong));
}
