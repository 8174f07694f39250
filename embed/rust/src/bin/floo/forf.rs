//! `floo forf FILE`: a Forf script with a memory of zeros, its outcome on standard output.

use floo::forf::{Display, Ending};

use crate::message::Message;
use crate::screen::Screen;
use crate::source::Source;
use crate::{status, Answer};

pub fn run(source: &Source, fuel: u32, screen: &mut Screen) -> Answer {
    let mut display = Display::new();
    let report = display
        .run(&source.bytes, fuel)
        .map_err(|refusal| Message::at(&source.name, refusal.to_string()))?;
    screen.print(report.outcome().as_bytes())?;
    Ok(match report.ending() {
        Ending::Finished => status::FINISHED,
        Ending::Error => status::ERROR,
        Ending::Fuel => status::FUEL,
    })
}
