//! `floo FILE`: a run, its log on standard output.

use floo::Runner;

use crate::options::Room;
use crate::screen::Screen;
use crate::source::Source;
use crate::{verdict, Answer};

/// Runs the script. With `outcome` the outcome's lines follow the log, as the proved program on standard input prints them.
pub fn run(source: &Source, room: &Room, outcome: bool, screen: &mut Screen) -> Answer {
    let mut runner = Runner::new(room.sizes);
    let report = match runner.run(&source.bytes, room.fuel) {
        Ok(report) => report,
        Err(refusal) => return Err(verdict::refused(source, refusal).into()),
    };
    screen.print(report.log())?;
    if outcome {
        screen.print(report.outcome().as_bytes())?;
    }
    if let Some(message) = verdict::message(source, &report) {
        screen.say(&message);
    }
    Ok(verdict::status(&report))
}
