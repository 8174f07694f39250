//! Every case of ../corpus/forf gives exactly the expected outcome and memory.

use floo_reference::corpus::{read_forf, ForfCase};
use floo_reference::forf::{read_token, run, Kind, Reading, ERRORS};

const FEWEST_CASES: usize = 200;

#[test]
fn the_cases_agree() {
    let cases = read_forf().unwrap_or_else(|malformed| panic!("malformed corpus: {malformed}"));
    let differing: Vec<String> = cases.iter().filter_map(difference).collect();
    assert!(differing.is_empty(), "{} of {} differ\n{}", differing.len(), cases.len(), differing.concat());
    assert!(cases.len() >= FEWEST_CASES, "only {} cases", cases.len());
    for error in ERRORS {
        let line = format!("error={}\n", error.name());
        let given = cases.iter().filter(|case| answer(case).0.windows(line.len()).any(|part| part == line.as_bytes())).count();
        assert!(given >= 3, "{error:?} in {given} cases");
    }
}

fn answer(case: &ForfCase) -> (Vec<u8>, [i32; 32]) {
    match run(&case.script, case.fuel, &case.room, case.memory) {
        Ok(ran) => (ran.outcome, ran.memory),
        Err(refusal) => (refusal.line().into_bytes(), case.memory),
    }
}

fn difference(case: &ForfCase) -> Option<String> {
    let (text, memory) = answer(case);
    (!case.agrees(&text) || memory != case.after)
        .then(|| format!("\ncase {}\ngot:\n{}memory {memory:?}\n", case.title, String::from_utf8_lossy(&text)))
}

/// The script of W10.32's reading: -5(x){ab}) (
#[test]
fn tokens_are_read_one_by_one() {
    let script = b"-5(x){ab}) (";
    let token = |kind, next, start, size| Reading::Token { kind, next, start, size };
    for (offset, expected) in [
        (0, token(Kind::Integer, 2, 0, 2)),
        (2, token(Kind::OpenBrace, 6, 5, 1)),
        (6, token(Kind::Word, 8, 6, 2)),
        (8, token(Kind::CloseBrace, 9, 8, 1)),
        (9, Reading::Faulty),
        (10, Reading::Faulty),
        (12, token(Kind::End, 12, 12, 0)),
        (13, Reading::Refused(10)),
    ] {
        assert_eq!(read_token(script, offset), expected, "at {offset}");
    }
    assert_eq!(read_token(&[b' '; 32_769], 40_000), Reading::Refused(1));
}
