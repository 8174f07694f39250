//! What the proved programs of the gate read, and what this interpreter says that they must write.

use std::path::PathBuf;

use crate::corpus::{read_all, read_pages, read_scripts, repository, Case, Question};
use crate::print::token_line;
use crate::printed;
use crate::setup::LONGEST_SCRIPT;
use crate::token::{read_token, Kind, TokenAnswer};

/// Longer scripts of the corpus repeat a token thousands of times.
const LONGEST_LISTED: usize = 2_000;

/// The buffers of the program that runs the corpus: words of stack, execution stack, dictionary and cells, bytes of
/// log, outcome and script.
const ROOM: [usize; 7] = [514, 1_032, 6_156, 131_076, 65_537, 35_072, 32_769];

/// Each file with its contents.
pub fn files() -> Result<Vec<(PathBuf, Vec<u8>)>, String> {
    let mut cases = read_all()?;
    cases.extend(read_pages()?.into_iter().flat_map(|page| page.cases));
    cases.extend(read_scripts()?);
    let (heads, answers) = runs(&cases);
    let mut scripts: Vec<Vec<u8>> = cases.into_iter().map(|case| case.script).collect();
    scripts.retain(|script| script.len() <= LONGEST_LISTED || script.len() > LONGEST_SCRIPT);
    scripts.dedup();
    let tokens = repository().join("crates/token_list");
    let list = repository().join("crates/run_list");
    Ok(vec![
        (list.join("stdin"), heads),
        (list.join("stdout"), answers),
        (tokens.join("stdin"), packed(&scripts)),
        (
            tokens.join("stdout"),
            scripts
                .iter()
                .flat_map(|script| token_list(script))
                .collect(),
        ),
    ])
}

/// Each case that fits: eight numbers of four bytes, the lowest first (the fuel, and what is lent and read as in
/// `ROOM`), and the script. Then what the program prints for it, and a line of four dashes.
fn runs(cases: &[Case]) -> (Vec<u8>, Vec<u8>) {
    let mut heads = Vec::new();
    let mut answers = Vec::new();
    for case in cases {
        let Question::Run { fuel, sizes } = case.question else {
            continue;
        };
        let lent = [
            2 * sizes.stack,
            8 * sizes.exec,
            12 * sizes.dictionary,
            4 * sizes.cells,
            sizes.log,
            sizes.outcome,
            case.script.len(),
        ];
        if fuel > u32::MAX.into() || lent.iter().zip(ROOM).any(|(&asked, room)| asked > room) {
            continue;
        }
        for number in [fuel].into_iter().chain(lent.map(|asked| asked as u64)) {
            heads.extend((number as u32).to_le_bytes());
        }
        heads.extend(&case.script);
        answers.extend(printed(&case.script, fuel, &sizes));
        answers.extend(b"----\n");
    }
    (heads, answers)
}

/// Scripts one after the other, each with its length in front: four bytes, the lowest first.
fn packed(scripts: &[Vec<u8>]) -> Vec<u8> {
    let with_length = |script: &Vec<u8>| {
        let length = u32::try_from(script.len()).expect("a script is short");
        [&length.to_le_bytes()[..], script].concat()
    };
    scripts.iter().flat_map(with_length).collect()
}

/// A line for each token of a script, to its end or its first fault.
fn token_list(script: &[u8]) -> Vec<u8> {
    let mut lines = format!("script {}\n", script.len()).into_bytes();
    let mut offset = 0;
    loop {
        let reading = read_token(script, offset);
        lines.extend(token_line(reading));
        match reading.answer {
            TokenAnswer::Kind(kind) if kind != Kind::End => offset = reading.next,
            _ => return lines,
        }
    }
}
