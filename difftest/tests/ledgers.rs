//! Every ledger of ../corpus/ledger through the exported functions: the answer, the lent text and every record.

use floo::{read_ledger_lent, write_ledger_lent, LedgerReply};
use floo_difftest::{from_reference, to_reference};
use floo_reference::corpus::{read_ledgers, LedgerCase, LedgerQuestion};
use floo_reference::ledger::{read_words, written_words, Refusal, REFUSALS};

#[test]
fn the_exported_ledger_agrees_with_the_corpus() {
    let cases = read_ledgers().unwrap_or_else(|malformed| panic!("malformed corpus: {malformed}"));
    for case in &cases {
        check(case);
    }
    assert!(cases.len() >= 200, "only {} ledgers", cases.len());
}

fn check(case: &LedgerCase) {
    let title = &case.title;
    let mut book: Vec<_> = case.book.iter().map(from_reference).collect();
    match &case.question {
        LedgerQuestion::Write { count, lent, text } => {
            let mut expected = vec![b'.'; *lent];
            let mut got = expected.clone();
            let reply = write_ledger_lent(&book, *count, &mut got);
            expected[..text.len()].copy_from_slice(text);
            assert_eq!(written_words(answer(reply)), case.gives, "{title}");
            assert_eq!(reply.count, text.len(), "{title}");
            assert!(got == expected, "{title}: {}", got.escape_ascii());
        }
        LedgerQuestion::Read { text, after } => {
            let reply = read_ledger_lent(text, &mut book);
            assert_eq!(read_words(answer(reply)), case.gives, "{title}");
            let book: Vec<_> = book.iter().map(to_reference).collect();
            assert_eq!(&book, after, "{title}");
        }
    }
}

/// The answer that a reply stands for.
fn answer(reply: LedgerReply) -> Result<usize, Refusal> {
    match (reply.answer, reply.count) {
        (10, count) => Ok(count),
        (number @ 1..=9, 0) => Err(REFUSALS[number as usize - 1]),
        _ => panic!("{reply:?} is no answer"),
    }
}
