//! The proved runner against Ghostscript and the reference interpreter, on the same programs in one run; how its time grows with the length of arrays; the floor rule
//! against a run; a ledger written and read; a loop in Forf; the size of the code. A program counts only if all three leave the same integer. `floo-bench scans` prints the table of the
//! floor rule alone, `floo-bench ledgers` that of the ledger, `floo-bench displays` that of Forf.

mod displays;
mod ghostscript;
mod growth;
mod ledgers;
mod scans;
mod timing;

use std::fs;
use std::io;
use std::path::{Path, PathBuf};
use std::process::{Command, ExitCode, Stdio};

use floo::{Runner, Sizes, FUEL_MAX};
use floo_reference as reference;

/// What each target asks.
const TIMES_GHOSTSCRIPT: f64 = 2.0;
const START_SECONDS: f64 = 3e-6;
const TEXT_BYTES: usize = 96 * 1024;
const GET_RATIO: f64 = 10.0;

/// Each program is timed so often, with the others in between: a machine that others use too is slow for seconds at a time.
const PASSES: usize = 8;

const PROGRAMS: [(&str, &str); 7] = [
    ("arithmetic", "counted loop with arithmetic"),
    ("bound", "the same after bind"),
    ("calls", "procedure calls"),
    ("fibonacci", "recursion, Fibonacci"),
    ("scan", "string scanned by get"),
    ("arrays", "arrays built and summed"),
    ("definitions", "def in a loop"),
];

fn main() -> ExitCode {
    let alone = std::env::args().nth(1);
    let printed = match alone.as_deref() {
        Some("scans") => scans::table(),
        Some("ledgers") => {
            ledger_target(ledgers::table());
            Ok(())
        }
        Some("displays") => {
            display_target(displays::table());
            Ok(())
        }
        _ => report(),
    };
    match printed {
        Ok(()) => ExitCode::SUCCESS,
        Err(error) => {
            eprintln!("bench: {error}");
            ExitCode::FAILURE
        }
    }
}

fn report() -> io::Result<()> {
    let version = ghostscript::version().map_err(|_| io::Error::other("gs is not there: install Debian's package ghostscript"))?;
    println!("Processor: {}. Ghostscript {version}. Times are the best of many rounds.\n", processor());
    let least = programs()?;
    let start = start()?;
    let get = growth::table();
    scans::table()?;
    let ledger = ledgers::table();
    let display = displays::table();
    let text = text_bytes("libfloo_c.a")?;
    let (floor, ledger_text, forf) = (text_bytes("libfloor_c.a")?, text_bytes("libledger_c.a")?, text_bytes("libforf_c.a")?);
    println!("\nCode: {text} bytes of .text in libfloo_c.a, {floor} in libfloor_c.a, {ledger_text} in libledger_c.a, {forf} in libforf_c.a.\n");
    target(&format!("at least {TIMES_GHOSTSCRIPT} times as fast as Ghostscript in each program"), least >= TIMES_GHOSTSCRIPT, format!("least {least:.2}"));
    target("start of a run under 3 microseconds", start < START_SECONDS, format!("{:.2}", start * 1e6));
    target("at most 98,304 bytes of .text", text <= TEXT_BYTES, text.to_string());
    target("get on 30,000 elements at most 10 times get on 10", get <= GET_RATIO, format!("{get:.2} times"));
    ledger_target(ledger);
    display_target(display);
    Ok(())
}

fn ledger_target(seconds: f64) {
    target("a book of 64 written, and read, under 50 microseconds", ledgers::is_met(seconds), format!("at most {:.2}", seconds * 1e6));
}

fn display_target(speed: f64) {
    target("at least 50 million steps a second of a counted loop in Forf", displays::is_met(speed), format!("{:.0}", speed / 1e6));
}

fn target(what: &str, met: bool, figure: String) {
    println!("Target {}: {what} ({figure}).", if met { "met" } else { "missed" });
}

/// A program and its best times so far.
struct Race {
    what: &'static str,
    script: Vec<u8>,
    ghostscript: ghostscript::Program,
    steps: u32,
    proved: f64,
    other: f64,
    reference: f64,
}

impl Race {
    fn new(name: &str, what: &'static str) -> io::Result<Race> {
        let script = fs::read(program(name))?;
        Ok(Race {
            what,
            ghostscript: ghostscript::Program::new(&script)?,
            script,
            steps: 0,
            proved: f64::INFINITY,
            other: f64::INFINITY,
            reference: f64::INFINITY,
        })
    }

    /// Once more, one after the other. All must leave the same integer.
    fn run(&mut self) -> io::Result<()> {
        let (proved, steps, result) = time_proved(&self.script);
        let other = self.ghostscript.time()?;
        let (reference, reference_result) = time_reference(&self.script);
        for found in [other.result, reference_result] {
            if found != result {
                return Err(io::Error::other(format!("{}: {result} and {found}", self.what)));
            }
        }
        self.steps = steps;
        self.proved = self.proved.min(proved);
        self.other = self.other.min(other.seconds);
        self.reference = self.reference.min(reference);
        Ok(())
    }

    fn times(&self) -> f64 {
        self.other / self.proved
    }
}

/// The table of programs; the least ratio to Ghostscript.
fn programs() -> io::Result<f64> {
    let mut races = Vec::new();
    for (name, what) in PROGRAMS {
        races.push(Race::new(name, what)?);
    }
    for _ in 0..PASSES {
        for race in &mut races {
            race.run()?;
        }
    }
    println!("| Program | Steps | ns a step | Million steps a second | Run, ms | Ghostscript, ms | Times | Reference, ms | Times |");
    println!("|---|---|---|---|---|---|---|---|---|");
    for race in &races {
        let steps = f64::from(race.steps);
        println!(
            "| {} | {} | {:.2} | {:.0} | {:.3} | {:.3} | {:.2} | {:.1} | {:.1} |",
            race.what,
            race.steps,
            race.proved / steps * 1e9,
            steps / race.proved / 1e6,
            race.proved * 1e3,
            race.other * 1e3,
            race.times(),
            race.reference * 1e3,
            race.reference / race.proved,
        );
    }
    Ok(races.iter().map(Race::times).fold(f64::INFINITY, f64::min))
}

/// A script of 40 bytes: one more run of it in a process that has started, and a whole process for it. The seconds of such a run.
fn start() -> io::Result<f64> {
    let mut race = Race::new("start", "start")?;
    assert_eq!(race.script.len(), 40);
    for _ in 0..PASSES {
        race.run()?;
    }
    println!("\n| A script of 40 bytes, {} steps | Microseconds | Ghostscript | Times | Reference | Times |", race.steps);
    println!("|---|---|---|---|---|---|");
    println!(
        "| run in a process that has started | {:.2} | {:.2} | {:.2} | {:.2} | {:.2} |",
        race.proved * 1e6,
        race.other * 1e6,
        race.times(),
        race.reference * 1e6,
        race.reference / race.proved
    );
    let path = program("start");
    let own = timing::seconds(|| {
        let script = fs::File::open(&path).expect("the script is there");
        process(Command::new(root().join("crates/floo/out/floo")).stdin(script));
    });
    let other = timing::seconds(|| {
        process(ghostscript::batch().args(["-c", "/#FLOO { } def", "-f"]).arg(&path));
    });
    println!("| a process for it | {:.0} | {:.0} | {:.1} | | |", own * 1e6, other * 1e6, other / own);
    Ok(race.proved)
}

fn process(command: &mut Command) {
    let status = command.stdout(Stdio::null()).status();
    assert!(status.is_ok_and(|status| status.success()), "{command:?} fails");
}

fn time_proved(script: &[u8]) -> (f64, u32, String) {
    let mut runner = Runner::new(Sizes::default());
    let (steps, result) = {
        let report = runner.run(script, FUEL_MAX).expect("the program is accepted");
        assert_eq!(report.value("ending"), Some("finished"), "{}", report.outcome());
        let last = report.items().last().map(|item| item.to_string());
        (report.steps(), integer(last.as_deref()))
    };
    let seconds = timing::seconds(|| {
        runner.run(script, FUEL_MAX).expect("the program is accepted");
    });
    (seconds, steps, result)
}

fn time_reference(script: &[u8]) -> (f64, String) {
    let sizes = reference::Sizes::default();
    let run = || reference::printed(script, FUEL_MAX.into(), &sizes);
    let printed = String::from_utf8_lossy(&run()).into_owned();
    let last = printed.lines().last().and_then(|line| line.strip_prefix("item="));
    (
        timing::seconds(|| {
            run();
        }),
        integer(last),
    )
}

fn integer(item: Option<&str>) -> String {
    let digits = item.and_then(|item| item.strip_prefix("integer:"));
    digits.expect("the program leaves an integer").to_owned()
}

/// The bytes of all sections of code in a static library, as binutils counts them.
fn text_bytes(name: &str) -> io::Result<usize> {
    let library = root().join("target/staticlib").join(name);
    let output = Command::new("size").arg("-A").arg(library).output()?;
    let listed = String::from_utf8_lossy(&output.stdout).into_owned();
    let sections = listed.lines().map(|line| line.split_whitespace().collect::<Vec<_>>());
    Ok(sections
        .filter(|words| words.len() == 3 && words[0].starts_with(".text"))
        .filter_map(|words| words[1].parse::<usize>().ok())
        .sum())
}

fn processor() -> String {
    let text = fs::read_to_string("/proc/cpuinfo").unwrap_or_default();
    let model = text.lines().find_map(|line| line.strip_prefix("model name")?.split_once(": "));
    model.map_or("unknown".to_owned(), |(_, name)| name.to_owned())
}

fn root() -> &'static Path {
    Path::new(env!("CARGO_MANIFEST_DIR")).parent().expect("bench is in the repository")
}

fn program(name: &str) -> PathBuf {
    root().join(format!("bench/programs/{name}.floo"))
}
