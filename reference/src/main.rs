//! The program: a script on standard input; log and outcome, or a refusal, on standard output.

#![forbid(unsafe_code)]

use std::io::{self, Read, Write};
use std::process::ExitCode;

use floo_reference::machine::Machine;
use floo_reference::setup::LONGEST_SCRIPT;
use floo_reference::value::Object;
use floo_reference::{print, read_token, run, Answer, Sizes};

const USAGE: &str = "usage: floo-reference [--fuel N] [--stack N] [--exec N] [--dictionary N] \
[--cells N] [--log N] [--outcome N] [--token OFFSET] [--state] < script";

struct Options {
    fuel: u64,
    sizes: Sizes,
    token: Option<usize>,
    state: bool,
}

fn main() -> ExitCode {
    let Some(options) = parse(std::env::args().skip(1)) else {
        eprintln!("{USAGE}");
        return ExitCode::from(2);
    };
    match read_script().and_then(|script| io::stdout().write_all(&answer(&script, &options))) {
        Ok(()) => ExitCode::SUCCESS,
        Err(error) => {
            eprintln!("floo-reference: {error}");
            ExitCode::FAILURE
        }
    }
}

/// The options, or nothing if one is unknown or lacks its number.
fn parse(mut arguments: impl Iterator<Item = String>) -> Option<Options> {
    let mut options = Options {
        fuel: 1_000_000,
        sizes: Sizes::default(),
        token: None,
        state: false,
    };
    let mut outcome = None;
    while let Some(option) = arguments.next() {
        if option == "--state" {
            options.state = true;
            continue;
        }
        let number = arguments.next()?;
        match option.strip_prefix("--")? {
            "fuel" => options.fuel = number.parse().ok()?,
            "outcome" => outcome = Some(number.parse().ok()?),
            "token" => options.token = Some(number.parse().ok()?),
            name => options.sizes.set(name, &number)?,
        }
    }
    let least = Sizes::least_outcome(options.sizes.stack);
    options.sizes.outcome = outcome.unwrap_or(least);
    Some(options)
}

/// Standard input. Of a script that is refused for its length, one byte too many is enough.
fn read_script() -> io::Result<Vec<u8>> {
    let mut script = Vec::new();
    let mut input = io::stdin().lock();
    let enough = u64::try_from(LONGEST_SCRIPT + 1).expect("the limit is small");
    input.by_ref().take(enough).read_to_end(&mut script)?;
    io::copy(&mut input, &mut io::sink())?;
    Ok(script)
}

fn answer(script: &[u8], options: &Options) -> Vec<u8> {
    if let Some(offset) = options.token {
        return print::token_line(read_token(script, offset));
    }
    let mut answer = run(script, options.fuel, &options.sizes);
    let mut output = answer.printed();
    if let (true, Answer::Run(ran)) = (options.state, &mut answer) {
        output.extend(state_lines(&mut ran.machine).into_bytes());
    }
    output
}

/// A line for each held object, in the order of making.
fn state_lines(machine: &mut Machine) -> String {
    let mut lines = String::new();
    for held in machine.held() {
        let object = match &machine.store[held.id] {
            Object::Array(elements) => format!("kind=array length={}", elements.len()),
            Object::String(bytes) => format!("kind=string maximum={}", bytes.len()),
        };
        lines += &format!("object {object} count={}\n", held.count);
    }
    lines
}
