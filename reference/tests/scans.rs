//! Every scan of ../corpus/floor gives exactly the expected answer, output and book.

use floo_reference::corpus::{read_scans, ScanCase};
use floo_reference::floor::{scan, Answer};

const FEWEST_CASES: usize = 100;

#[test]
fn the_scans_agree() {
    let cases = read_scans().unwrap_or_else(|malformed| panic!("malformed corpus: {malformed}"));
    let differing: Vec<String> = cases.iter().filter_map(difference).collect();
    assert!(
        differing.is_empty(),
        "{} of {} scans differ\n{}",
        differing.len(),
        cases.len(),
        differing.concat()
    );
    assert!(cases.len() >= FEWEST_CASES, "only {} scans", cases.len());
}

/// What is wrong with a case, if anything.
fn difference(case: &ScanCase) -> Option<String> {
    let mut book = case.book.clone();
    let got = scan(
        &case.script,
        case.fuel,
        &case.label,
        &case.sizes,
        &mut book,
        case.count,
    );
    let added = usize::from(matches!(got.answer, Answer::Added(_)));
    let printed = got.printed();
    let same = printed == case.gives && book == case.after && got.count == case.count + added;
    (!same).then(|| {
        format!(
            "\ncase {}\nexpected:\n{}\ngot:\n{}\ncount {}, the book {}\n",
            case.title,
            String::from_utf8_lossy(&case.gives),
            String::from_utf8_lossy(&printed),
            got.count,
            if book == case.after {
                "as expected"
            } else {
                "another"
            },
        )
    })
}
