//! `floo-difftest N SEED`: N random cases, runs and token readings, a scan, a ledger and an echo line for every fourth, and what was compared.

use std::process::ExitCode;

use floo_difftest::{compare_all, forf, Echoes, Ledgers, Readings, Scans, Tally, DAMAGES};

fn main() -> ExitCode {
    let numbers: Vec<u64> = std::env::args().skip(1).filter_map(|word| word.parse().ok()).collect();
    let [count, seed] = numbers[..] else {
        eprintln!("usage: floo-difftest N SEED");
        return ExitCode::from(2);
    };
    match compare_all(count as usize, seed) {
        Ok(tally) => {
            println!(
                "{} scripts from seed {seed}, {} refused, {} steps, {} objects, {} of them in circles alone, {} read only: no difference",
                tally.scripts, tally.refused, tally.steps, tally.objects, tally.circled, tally.read_only
            );
            let [log, string, outcome] = tally.least;
            let [above, below] = tally.loops_past;
            println!("{above} runs with a loop that ends above 32 bits, {below} with one that ends below");
            println!("the least number written into {log} logs, by {string} runs into strings, into {outcome} outcomes");
            print_misread(tally.misread);
            print_handlers(&tally);
            print_readings(&tally.readings);
            print_scans(&tally.scans);
            print_ledgers(&tally.ledgers);
            print_echoes(&tally.echoes);
            print_forf(count as usize / 4, seed)
        }
        Err(what) => {
            println!("{what}");
            ExitCode::FAILURE
        }
    }
}

fn print_misread(misread: [[usize; 2]; 6]) {
    let [badnumber, badescape, openstring, badbrace, badbyte, limitcheck] = misread.map(|[outside, inside]| format!("{outside} and {inside}"));
    println!(
        "runs that a token ends, outside braces and in a group: badnumber {badnumber}, badescape {badescape}, openstring {openstring}, \
         badbrace {badbrace} (stray and unclosed), badbyte {badbyte}, limitcheck {limitcheck}"
    );
}

fn print_handlers(tally: &Tally) {
    let [handlers, objects] = tally.handlers;
    println!("{handlers} handlers, {objects} of them objects, and the latest error's names: no difference. Runs that meet");
    for (what, runs) in tally.ground.met() {
        println!("  {what}: {runs}");
    }
}

fn print_readings(read: &Readings) {
    let [integers, strings, literal, executable, open, close, ends] = read.kinds;
    let [badnumber, badescape, openstring, _, badbyte] = read.faults;
    println!(
        "{} tokens: {integers} integers, {strings} strings, {literal} literal names, {executable} executable names, {open} open braces, \
         {close} close braces, {ends} ends, {badnumber} badnumber, {badescape} badescape, {openstring} openstring, {badbyte} badbyte \
         ({} of these where the script ended first), {} limitcheck, {} refused with 1, {} with 10: no difference",
        read.total(),
        read.faults_at_end,
        read.limitchecks,
        read.too_long,
        read.past_end
    );
}

fn print_scans(scans: &Scans) {
    let [refused, malformed, too_long, no_slot, no_cells, not_finished, bad_stack, late, no_room, replaced, added] = scans.answers;
    println!(
        "{} scans, {} steps, {} objects: {refused} refused by setup, {malformed} book malformed, {too_long} label over 512 bytes, {no_slot} no slot, \
         {no_cells} no cells, {not_finished} run not finished, {bad_stack} stack not of this form, {late} late ({} by an equal time, {} by an earlier), \
         {no_room} no room, {replaced} replaced ({} in a full book), {added} added; {} runs with records past the 64th: no difference",
        scans.total(),
        scans.steps,
        scans.objects,
        scans.late_equal,
        scans.late_earlier,
        scans.replaced_in_full,
        scans.past_64
    );
}

fn print_ledgers(ledgers: &Ledgers) {
    let total = |counts: &[usize]| counts.iter().sum::<usize>();
    let [malformed, _, _, _, _, _, _, _, too_short, written] = ledgers.written;
    println!(
        "{} books to be written: {malformed} malformed, {too_short} lent text too short, {written} written, {} of them with quotes, {} read back: no difference",
        total(&ledgers.written),
        ledgers.quoted,
        ledgers.read_back
    );
    let [_, header, quoting, fields, number, place, twice, many, _, read] = ledgers.read;
    println!(
        "{} texts: {header} bad header, {quoting} bad quoting, {fields} wrong field count, {number} bad number, {place} place not 1 to 31 bytes, {twice} socket twice, \
         {many} more records than room, {read} read, {} of them with lent records past their count; {} of over 64 lines: no difference",
        total(&ledgers.read),
        ledgers.past_count,
        ledgers.long
    );
    for ((name, made), refused) in DAMAGES.iter().zip(ledgers.damaged).zip(ledgers.refused) {
        println!("  {name}: {made}, {refused} refused");
    }
}

fn print_echoes(echoes: &Echoes) {
    let [tokens, puts, labels] = echoes.strings;
    let [equal, other] = echoes.pairs;
    let limits = [echoes.log, echoes.cells, echoes.stack].map(|[enough, short]| format!("{enough} and {short}"));
    println!(
        "{} strings and integers echoed, and read back where the line fits: {tokens} tokens, {puts} strings by put, {labels} labels ({} with bytes after a zero; each byte from 1 at least {} times), {} integers; \
         {equal} pairs alike, {other} different; just enough and one too little: log {}, cells {}, stack {}; {} scripts of 32,768 bytes: no difference",
        echoes.total(),
        echoes.cut,
        echoes.bytes[1..].iter().min().unwrap_or(&0),
        echoes.integers,
        limits[0],
        limits[1],
        limits[2],
        echoes.longest
    );
}

/// A Forf script for every fourth case.
fn print_forf(count: usize, seed: u64) -> ExitCode {
    match forf::compare_all(count, seed) {
        Ok(tally) => {
            println!(
                "{} Forf scripts, {} steps: {:?} refused by 1, 3, 4, 5, 9 and for their memory, {} finished, {} out of fuel, {:?} failed by each error, {} left another memory, {} of them failed; \
                 tokens {:?} by kind, {} faults, {} past the end: no difference",
                tally.scripts, tally.steps, tally.refused, tally.finished, tally.spent, tally.failed, tally.stored, tally.stored_then_failed, tally.tokens, tally.faults, tally.past_end
            );
            ExitCode::SUCCESS
        }
        Err(what) => {
            println!("{what}");
            ExitCode::FAILURE
        }
    }
}
