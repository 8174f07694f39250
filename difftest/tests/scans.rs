//! Every scan of ../corpus/floor through the exported function: the answer, the log and the outcome, the count and every record.

use floo::{scan_lent, ScanReply};
use floo_difftest::{answer_of, from_reference, to_reference};
use floo_reference::corpus::{read_scans, ScanCase};

#[test]
fn the_exported_floor_rule_agrees_with_the_corpus() {
    let cases = read_scans().unwrap_or_else(|malformed| panic!("malformed corpus: {malformed}"));
    for case in &cases {
        check(case);
    }
    assert!(cases.len() >= 100, "only {} scans", cases.len());
}

fn check(case: &ScanCase) {
    let sizes = &case.sizes;
    let words = |slots: usize, width: usize| vec![0u32; slots * width];
    let (mut log, mut outcome) = (vec![0; sizes.log], vec![0; sizes.outcome]);
    let mut book: Vec<_> = case.book.iter().map(from_reference).collect();
    let reply = scan_lent(
        &case.script,
        case.fuel.try_into().expect("fuel has 32 bits"),
        &case.label,
        &mut words(sizes.stack, 2),
        &mut words(sizes.exec, 8),
        &mut words(sizes.dictionary, 12),
        &mut words(sizes.cells, 4),
        &mut log,
        &mut outcome,
        &mut book,
        case.count,
    );
    let title = &case.title;
    assert_eq!(printed(&reply, &log, &outcome), String::from_utf8_lossy(&case.gives), "{title}");
    let after: Vec<_> = book.iter().map(to_reference).collect();
    assert_eq!(after, case.after, "{title}");
    let added = usize::from(reply.answer == 11);
    assert_eq!(reply.count, case.count + added, "{title}");
}

/// In the form of the corpus: the answer's words, log and outcome.
fn printed(reply: &ScanReply, log: &[u8], outcome: &[u8]) -> String {
    let answer = answer_of(reply).unwrap_or_else(|| panic!("{reply:?} is no answer"));
    let run = [&log[..reply.log], &outcome[..reply.outcome]].concat();
    format!("{}\n{}", answer.words(), String::from_utf8_lossy(&run))
}
