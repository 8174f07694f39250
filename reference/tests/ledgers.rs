//! Every ledger of ../corpus/ledger gives exactly the expected answer, text and book.

use floo_reference::corpus::{read_ledgers, LedgerCase, LedgerQuestion};
use floo_reference::ledger::{read, read_words, write, written_words, REFUSALS};

const FEWEST_CASES: usize = 200;
const FEWEST_OF_EACH: usize = 4;

#[test]
fn the_ledgers_agree() {
    let cases = read_ledgers().unwrap_or_else(|malformed| panic!("malformed corpus: {malformed}"));
    let differing: Vec<String> = cases.iter().filter_map(difference).collect();
    assert!(
        differing.is_empty(),
        "{} of {} ledgers differ\n{}",
        differing.len(),
        cases.len(),
        differing.concat()
    );
    assert!(cases.len() >= FEWEST_CASES, "only {} ledgers", cases.len());
    for refusal in REFUSALS {
        let words = format!("{}\n", refusal.words());
        let given = cases.iter().filter(|case| case.gives == words).count();
        assert!(given >= FEWEST_OF_EACH, "{refusal:?} in {given} ledgers");
    }
}

/// What is wrong with a case, if anything.
fn difference(case: &LedgerCase) -> Option<String> {
    let (got, same) = match &case.question {
        LedgerQuestion::Write { count, lent, text } => {
            let mut expected = vec![b'.'; *lent];
            let mut got = expected.clone();
            let answer = write(&case.book, *count, &mut got);
            expected[..text.len()].copy_from_slice(text);
            let bytes = answer == Ok(text.len()) || answer.is_err();
            (written_words(answer), bytes && got == expected)
        }
        LedgerQuestion::Read { text, after } => {
            let mut book = case.book.clone();
            let answer = read(text, &mut book);
            (read_words(answer), book == *after)
        }
    };
    (got != case.gives || !same).then(|| {
        let left = if same { "as expected" } else { "not so" };
        format!(
            "\ncase {}\nexpected: {}got: {got}what is left: {left}\n",
            case.title, case.gives
        )
    })
}
