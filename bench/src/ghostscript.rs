//! Ghostscript on the text of a Floo program. `#FLOO` is a name there, which is bound to nothing; the text is scanned and executed anew for each run, in an
//! interpreter that has started already and does not leave its state, so that neither its start nor a `restore` is counted.

use std::io;
use std::process::{Command, Stdio};

const ROUNDS: usize = 3;
const ROUND_MILLISECONDS: f64 = 200.0;

pub fn version() -> io::Result<String> {
    let output = Command::new("gs").arg("--version").output()?;
    Ok(String::from_utf8_lossy(&output.stdout).trim().to_owned())
}

/// A program, and how many runs of it make a round.
pub struct Program {
    text: String,
    count: u32,
}

/// What a program came to: the integer that it leaves, and the seconds of a run.
pub struct Timed {
    pub result: String,
    pub seconds: f64,
}

impl Program {
    pub fn new(program: &[u8]) -> io::Result<Program> {
        let text = program.iter().map(|byte| format!("{byte:02x}")).collect();
        let mut own = Program { text, count: 1 };
        // found by shorter rounds
        loop {
            let milliseconds = own.round(1)?.milliseconds;
            if milliseconds >= ROUND_MILLISECONDS / 4.0 {
                own.count = (f64::from(own.count) * ROUND_MILLISECONDS / milliseconds).ceil() as u32;
                return Ok(own);
            }
            own.count *= 4;
        }
    }

    pub fn time(&self) -> io::Result<Timed> {
        let best = self.round(ROUNDS)?;
        Ok(Timed {
            result: best.result,
            seconds: best.milliseconds / 1000.0 / f64::from(self.count),
        })
    }

    /// The best of so many rounds, timed by Ghostscript's own clock.
    fn round(&self, rounds: usize) -> io::Result<Round> {
        let Program { text, count } = self;
        let driver = format!(
            "/#FLOO {{ }} def /bench.text <{text}> def /bench.run {{ bench.text cvx exec /bench.result exch def }} bind def bench.run \
             {rounds} {{ realtime {count} {{ bench.run }} repeat realtime exch sub = }} repeat bench.result = quit"
        );
        let output = batch().args(["-c", &driver]).output()?;
        let said = String::from_utf8_lossy(&output.stdout).into_owned();
        let mut lines: Vec<&str> = said.lines().collect();
        let result = lines.pop().unwrap_or_default().to_owned();
        let times: Option<Vec<f64>> = lines.iter().map(|line| line.parse().ok()).collect();
        match times {
            Some(times) if times.len() == rounds => Ok(Round {
                result,
                milliseconds: times.into_iter().fold(f64::INFINITY, f64::min),
            }),
            _ => Err(io::Error::other(format!("gs said: {said}"))),
        }
    }
}

struct Round {
    result: String,
    milliseconds: f64,
}

/// Ghostscript without a page or a prompt.
pub fn batch() -> Command {
    let mut command = Command::new("gs");
    command.args(["-q", "-dNODISPLAY", "-dBATCH", "-dNOPAUSE"]).stdin(Stdio::null());
    command
}
