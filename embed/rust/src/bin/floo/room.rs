//! `--room`: the least size of each part with which the run comes to the same log and outcome.
//!
//! What a run does before a part is full does not depend on the part's size, so with more room it stays the same, and the least size is found by halving. That is
//! what is wanted of each part at most: for cells, those held before a step and those that the step makes.
//!
//! A script that handles overflows may do other things in less room and come to the same. Then the size found is one with which the run is the same and with one less
//! is not, and each part is measured in what was found for those before it, so that all together are enough.

use floo::{ErrorName, Runner, Sizes};

use crate::options::Room;
use crate::screen::Screen;
use crate::source::Source;
use crate::{verdict, Answer};

/// A part of the room: its option, its size, the least that setup accepts, and the error that asks for more of it.
struct Part {
    name: &'static str,
    size: fn(&mut Sizes) -> &mut usize,
    least: usize,
    error: Option<ErrorName>,
}

const PARTS: [Part; 5] = [
    Part {
        name: "stack",
        size: |sizes| &mut sizes.stack,
        least: 8,
        error: Some(ErrorName::StackOverflow),
    },
    Part {
        name: "exec",
        size: |sizes| &mut sizes.execution,
        least: 4,
        error: Some(ErrorName::ExecStackOverflow),
    },
    Part {
        name: "dictionary",
        size: |sizes| &mut sizes.dictionary,
        least: floo::PREDEFINED_NAMES,
        error: None,
    },
    Part {
        name: "cells",
        size: |sizes| &mut sizes.cells,
        least: 1,
        error: Some(ErrorName::VmError),
    },
    Part {
        name: "log",
        size: |sizes| &mut sizes.log,
        least: 0,
        error: Some(ErrorName::IoError),
    },
];

pub fn measure(source: &Source, room: &Room, screen: &mut Screen) -> Answer {
    let mut runner = Runner::new(room.sizes);
    let report = runner
        .run(&source.bytes, room.fuel)
        .map_err(|refusal| verdict::refused(source, refusal))?;
    let expected = (report.log().to_vec(), report.outcome().to_owned());
    let same = |sizes: Sizes| {
        let mut runner = Runner::new(sizes);
        let report = runner.run(&source.bytes, room.fuel);
        report.is_ok_and(|report| {
            (report.log(), report.outcome()) == (&expected.0[..], &expected.1[..])
        })
    };
    let mut lines = "part          used    lent\n".to_owned();
    let mut options = String::new();
    let mut sizes = room.sizes;
    for part in &PARTS {
        let lent = *(part.size)(&mut sizes);
        let used = least(part.least, lent, |size| {
            *(part.size)(&mut sizes) = size;
            same(sizes)
        });
        *(part.size)(&mut sizes) = used;
        let more = match part.error.is_some() && report.error() == part.error {
            true => "  more is wanted",
            false => "",
        };
        lines += &format!("{:<11}{used:>7} {lent:>7}{more}\n", part.name);
        options += &format!(" --{} {used}", part.name);
    }
    lines += &format!("{:<11}{:>7} {:>7}\n", "fuel", report.steps(), room.fuel);
    lines += &format!("the same run:{options} --fuel {}\n", report.steps());
    screen.print(lines.as_bytes())?;
    if let Some(message) = verdict::message(source, &report) {
        screen.say(&message);
    }
    Ok(verdict::status(&report))
}

/// The least size from `low` on that is enough. `high` is, and what is more than enough is enough.
fn least(mut low: usize, mut high: usize, mut enough: impl FnMut(usize) -> bool) -> usize {
    while low < high {
        let middle = low + (high - low) / 2;
        if enough(middle) {
            high = middle;
        } else {
            low = middle + 1;
        }
    }
    high
}
