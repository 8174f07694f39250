//! A short run, with figures below which the comparison would show little.

use floo_difftest::{compare_all, Ledgers, DAMAGES};

#[test]
fn runs_readings_scans_ledgers_and_echo_lines_agree_with_the_reference() {
    let tally = compare_all(20_000, 0x0F10_0F10_0F10_0F10).unwrap();
    assert!(tally.refused > 1_000 && tally.refused < 10_000, "{} refused", tally.refused);
    assert!(tally.steps > 200_000, "{} steps", tally.steps);
    assert!(tally.objects > 10_000, "{} objects", tally.objects);
    assert!(tally.circled > 500, "{} in circles alone", tally.circled);
    assert!(tally.read_only > 1_000 && tally.objects - tally.read_only > 1_000, "{} of the objects read only", tally.read_only);
    assert!(tally.least.iter().all(|&count| count > 100), "{:?} with the least number in log, string, outcome", tally.least);
    assert!(tally.loops_past.iter().all(|&count| count > 100), "{:?} runs with a loop that ends above and below 32 bits", tally.loops_past);
    assert!(tally.misread.iter().flatten().all(|&count| count > 25), "{:?} runs ended by each fault, outside braces and in a group", tally.misread);
    assert!(tally.handlers.iter().all(|&count| count > 1_000), "{:?} handlers and those that are objects", tally.handlers);
    for (what, runs) in tally.ground.met() {
        assert!(runs > 10, "{what}: {runs} runs");
    }
    let scans = &tally.scans;
    assert_eq!(scans.total(), 5_000);
    let [refused, malformed, too_long, no_slot, no_cells, not_finished, bad_stack, late, no_room, replaced, added] = scans.answers;
    assert!(refused > 150 && scans.refusals.iter().all(|&count| count > 5), "{:?} refused by setup", scans.refusals);
    assert!(malformed > 200, "{malformed} book malformed");
    assert!(too_long > 50, "{too_long} label over 512 bytes");
    assert!(no_slot > 200 && no_cells > 200, "{no_slot} no slot, {no_cells} no cells");
    assert!(not_finished > 500 && bad_stack > 300, "{not_finished} not finished, {bad_stack} stack not of this form");
    assert!(late > 250 && scans.late_equal > 100 && scans.late_earlier > 50, "{} and {} late", scans.late_equal, scans.late_earlier);
    assert!(no_room > 100, "{no_room} no room");
    assert!(replaced > 250 && scans.replaced_in_full > 100, "{replaced} replaced, {} in a full book", scans.replaced_in_full);
    assert!(added > 150, "{added} added");
    assert!((0..=520).all(|length| scans.lengths.contains(&length)), "{} lengths of labels", scans.lengths.len());
    assert!(scans.past_64 > 300, "{} runs with records past the 64th", scans.past_64);
    assert!(scans.steps > 100_000 && scans.objects > 3_000, "{} steps, {} objects in scans", scans.steps, scans.objects);
    check_ledgers(&tally.ledgers);
    let echoes = &tally.echoes;
    assert!(echoes.strings.iter().all(|&count| count > 2_000), "{:?} strings echoed, by the way they were made", echoes.strings);
    assert!(echoes.cut > 1_000 && echoes.integers > 1_000, "{} with bytes after a zero, {} integers", echoes.cut, echoes.integers);
    assert!(echoes.bytes[0] == 0 && echoes.bytes[1..].iter().all(|&count| count > 50), "{:?} of each byte", echoes.bytes);
    assert!(echoes.pairs.iter().all(|&count| count > 700), "{:?} pairs alike and different", echoes.pairs);
    let limits = [echoes.log, echoes.cells, echoes.stack];
    assert!(limits.iter().flatten().all(|&count| count > 500), "{limits:?} logs, cells and stacks just enough and one too little");
    assert!(echoes.longest >= 10, "{} scripts of 32,768 bytes", echoes.longest);
    let read = tally.readings;
    assert!(read.total() > 2_000_000, "{} tokens", read.total());
    assert!(read.kinds.iter().all(|&count| count > 20_000), "{:?} of each kind", read.kinds);
    let [badnumber, badescape, openstring, badbrace, badbyte] = read.faults;
    let least = badnumber.min(badescape).min(openstring).min(badbyte);
    assert!(least > 5_000 && badbrace == 0, "{:?} of each fault", read.faults);
    assert!(read.faults_at_end > 300, "{} faults where the script ended first", read.faults_at_end);
    assert!(read.limitchecks > 50_000, "{} limitcheck", read.limitchecks);
    assert!(read.too_long > 500, "{} refused with 1", read.too_long);
    assert!(read.past_end > 20_000, "{} refused with 10", read.past_end);
}

fn check_ledgers(ledgers: &Ledgers) {
    let [malformed, .., too_short, written] = ledgers.written;
    assert!(malformed > 200 && too_short > 500, "{malformed} book malformed, {too_short} lent text too short");
    assert!(written > 2_000 && ledgers.quoted > 1_000, "{written} written, {} with quotes", ledgers.quoted);
    assert_eq!(ledgers.read_back, written);
    let [_, refused @ .., _, read] = ledgers.read;
    assert!(refused.iter().all(|&count| count > 150), "{refused:?} of each refusal of reading");
    assert!(read > 1_000 && ledgers.past_count > 500, "{read} read, {} with records past their count", ledgers.past_count);
    assert!(ledgers.long > 300, "{} of over 64 lines", ledgers.long);
    for ((name, made), refused) in DAMAGES.iter().zip(ledgers.damaged).zip(ledgers.refused) {
        assert_eq!(made, 250, "{name}");
        assert!(refused > 30, "{name}: {refused} refused");
    }
}
