//! Every case of ../corpus gives exactly the expected bytes.

use floo_reference::corpus::{read_all, Case, Question};
use floo_reference::{print, printed, read_token, stored};

const FEWEST_CASES: usize = 200;

#[test]
fn the_corpus_agrees() {
    let cases = read_all().unwrap_or_else(|malformed| panic!("malformed corpus: {malformed}"));
    let differing: Vec<String> = cases.iter().filter_map(difference).collect();
    println!("{} cases, {} differ", cases.len(), differing.len());
    assert!(
        differing.is_empty(),
        "{} cases differ\n{}",
        differing.len(),
        differing.concat()
    );
    assert!(
        cases.len() >= FEWEST_CASES,
        "only {} cases found",
        cases.len()
    );
}

/// What is wrong with a case, if anything.
fn difference(case: &Case) -> Option<String> {
    let got = match &case.question {
        Question::Run { fuel, sizes } => printed(&case.script, *fuel, sizes),
        Question::Token { offset } => print::token_line(read_token(&case.script, *offset)),
    };
    (got != case.gives).then(|| {
        format!(
            "\ncase {} ({})\nexpected:\n{}\ngot:\n{}\n",
            case.title,
            case.file.display(),
            case.gives.escape_ascii().to_string().replace("\\n", "\n"),
            got.escape_ascii().to_string().replace("\\n", "\n"),
        )
    })
}

/// What the proved programs are compared with is what this interpreter says of the corpus today.
#[test]
fn the_stored_answers_are_current() {
    for (path, bytes) in stored::files().expect("the corpus can be read") {
        let kept = std::fs::read(&path).unwrap_or_default();
        let name = path.display();
        assert!(
            kept == bytes,
            "{name} is not current: run the binary `stored`"
        );
    }
}
