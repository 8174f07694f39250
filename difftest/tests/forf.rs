//! Random Forf scripts and every case of ../corpus/forf through the exported functions, with figures below which the comparison would show little.

use floo::forf_lent;
use floo_difftest::forf::compare_all;
use floo_reference::corpus::{read_forf, ForfCase};

#[test]
fn random_scripts_agree_with_the_reference() {
    let tally = compare_all(20_000, 0x0F0F_F0F0_1234_5678).unwrap();
    assert!(tally.steps > 300_000, "{} steps", tally.steps);
    assert!(tally.refused.iter().all(|&count| count > 20), "{:?} refused", tally.refused);
    assert!(tally.finished > 500 && tally.spent > 300, "{} finished, {} out of fuel", tally.finished, tally.spent);
    assert!(tally.failed.iter().all(|&count| count > 50), "{:?} of each error", tally.failed);
    assert!(tally.stored > 500 && tally.stored_then_failed > 200, "{} stored, {} and then failed", tally.stored, tally.stored_then_failed);
    assert!(tally.tokens.iter().all(|&count| count > 20_000) && tally.faults > 5_000, "{:?} tokens, {} faults", tally.tokens, tally.faults);
}

#[test]
fn the_exported_runner_agrees_with_the_corpus() {
    let cases = read_forf().unwrap_or_else(|malformed| panic!("malformed corpus: {malformed}"));
    for case in &cases {
        check(case);
    }
    assert!(cases.len() >= 200, "only {} cases", cases.len());
}

fn check(case: &ForfCase) {
    let title = &case.title;
    let room = &case.room;
    let mut stack = vec![7; room.stack_words];
    let mut execution = vec![7; room.execution_words];
    let words = case.memory.iter().map(|n| u32::from_ne_bytes(n.to_ne_bytes()));
    let mut memory: Vec<u32> = words.chain([7; 9]).take(room.memory_words).collect();
    let before = memory.clone();
    let mut outcome = vec![b'.'; room.outcome_bytes];
    let fuel = u32::try_from(case.fuel).unwrap();
    let reply = forf_lent(&case.script, fuel, &mut stack, &mut execution, &mut memory, &mut outcome);
    let text = match (reply.refused, reply.memory) {
        (0, 0) => outcome[..reply.outcome].to_vec(),
        (0, _) => b"refused=memory not 32 slots\n".to_vec(),
        (number, _) => format!("refused={number}\n").into_bytes(),
    };
    assert!(case.agrees(&text), "{title}: {}", text.escape_ascii());
    if (reply.refused, reply.memory) == (0, 0) {
        let after: Vec<u32> = case.after.iter().map(|n| u32::from_ne_bytes(n.to_ne_bytes())).collect();
        assert_eq!(memory, after, "{title}");
    } else {
        assert_eq!(memory, before, "{title}");
    }
}
