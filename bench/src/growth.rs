//! How the time of an operation grows with the length of what it works on. A program with the operation is timed against one without it.

use floo::{Runner, Sizes, FUEL_MAX};

use crate::timing::difference;

const LENGTHS: [usize; 5] = [10, 100, 1_000, 10_000, 30_000];

/// Links of a chain: each is an array of one element, two cells.
const LINKS: [usize; 5] = [10, 100, 1_000, 10_000, 16_000];

/// As many as a run may have.
const CELLS: usize = 32_768;

/// Cells for the bodies of the loops, and the header of the interval.
const SPARE: usize = 32;

/// Elements got or put in a run.
const TURNS: usize = 20_000;

/// Prints the tables; how many times a `get` on 30,000 elements takes what one on 10 takes.
pub fn table() -> f64 {
    let pop = pop();
    let get = LENGTHS.map(|n| element(n, "get pop", "pop pop") + pop);
    let put = LENGTHS.map(|n| element(n, "0 put", "0 pop pop pop") + 3.0 * pop);
    let arrays = LENGTHS.map(|n| interval(n, "array", n.min(CELLS - n - SPARE)));
    let strings = LENGTHS.map(|n| interval(n, "string", n));
    head(&LENGTHS);
    row("get of any element of an array", &get);
    row("put of any element of an array", &put);
    row("getinterval of an array, for each element taken", &arrays);
    row("getinterval of a whole string, for each byte", &strings);
    head(&LINKS);
    row("release of a chain of arrays, for each link", &LINKS.map(release));
    get[LENGTHS.len() - 1] / get[0]
}

fn head(lengths: &[usize]) {
    let cells: Vec<String> = lengths.iter().map(usize::to_string).collect();
    println!("\n| Nanoseconds, by length | {} |", cells.join(" | "));
    println!("|---|{}", "---|".repeat(lengths.len()));
}

fn row(what: &str, seconds: &[f64]) {
    let cells: Vec<String> = seconds.iter().map(|one| format!("{:.1}", one * 1e9)).collect();
    println!("| {what} | {} |", cells.join(" | "));
}

/// A `pop`: dup and pop take the same steps, and half of what both take is counted for each.
fn pop() -> f64 {
    let turns = |body| format!("1 1 {TURNS} {{ {body} }} for");
    extra(&turns("dup pop pop"), &turns("pop")) / (2 * TURNS) as f64
}

/// What the first row of operators takes more than the second, on an array and an index into it that goes all over.
fn element(n: usize, with: &str, without: &str) -> f64 {
    let turns = |body| format!("/a {n} array def 1 1 {TURNS} {{ 7919 mul {n} mod a exch {body} }} for");
    extra(&turns(with), &turns(without)) / TURNS as f64
}

/// An element of an interval of `count` in the middle of what `make` makes.
fn interval(n: usize, make: &str, count: usize) -> f64 {
    let times = (200_000 / count).clamp(20, TURNS);
    let start = (n - count) / 2;
    let turns = |body| format!("/a {n} {make} def {times} {{ a {start} {count} {body} }} repeat");
    extra(&turns("getinterval pop"), &turns("pop pop pop")) / (times * count) as f64
}

/// A link of a chain that is let go at its head.
fn release(links: usize) -> f64 {
    let chain = |end| format!("/x null def {links} {{ /x [ x ] def }} repeat /x null {end}");
    extra(&chain("def"), &chain("pop pop")) / links as f64
}

/// The seconds that the first program takes more than the second.
fn extra(with: &str, without: &str) -> f64 {
    let mut first = Run::new(with);
    let mut second = Run::new(without);
    difference(|| first.run(), || second.run())
}

struct Run {
    script: Vec<u8>,
    runner: Runner,
}

impl Run {
    fn new(program: &str) -> Run {
        let sizes = Sizes {
            cells: CELLS,
            ..Sizes::default()
        };
        let mut run = Run {
            script: format!("#FLOO\n{program}\n").into_bytes(),
            runner: Runner::new(sizes),
        };
        let report = run.runner.run(&run.script, FUEL_MAX).expect("the program is accepted");
        assert_eq!(report.value("ending"), Some("finished"), "{program}: {}", report.outcome());
        run
    }

    fn run(&mut self) {
        self.runner.run(&self.script, FUEL_MAX).expect("the program is accepted");
    }
}
