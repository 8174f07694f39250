//! The label script of `examples/`, with what stands beside it, and its answer to bad labels.

use floo::{Ending, Runner, Sizes};

const SCRIPT: &str = include_str!("../../../examples/label.floo");

#[test]
fn a_label_becomes_a_ledger_line() {
    let mut runner = Runner::new(Sizes::default());
    let report = runner.run(SCRIPT.as_bytes(), floo::FUEL_MAX).unwrap();
    assert_eq!(report.log(), b"socket 417 at rack B-7 since 1731690000\n");
    let printed = [report.log(), report.outcome().as_bytes()].concat();
    assert_eq!(printed, include_bytes!("../../../examples/label.expected"));
}

#[test]
fn a_bad_label_gets_a_line_that_says_so() {
    let mut runner = Runner::new(Sizes::default());
    for label in [
        "",
        "0417",
        "0417:rack B-7",
        "04x7:rack B-7:1731690000",
        "0417:rack B-7:today",
        "0417:rack B-7:-1",
        "0417:rack B-7:1:2",
    ] {
        let script = SCRIPT.replace("0417:rack B-7:1731690000", label);
        let report = runner.run(script.as_bytes(), floo::FUEL_MAX).unwrap();
        let line = format!("bad label: \"{label}\"\n");
        assert_eq!(report.log(), line.as_bytes());
        assert_eq!((report.ending(), report.error()), (Ending::Stopped, None));
    }
}
