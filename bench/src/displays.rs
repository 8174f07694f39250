//! A counted loop of words on a shelf display, in Forf.

use floo::forf::Display;

use crate::timing::seconds;

/// The least that is asked, a second.
const STEPS_A_SECOND: f64 = 50e6;

/// Fewer than the script would make.
const STEPS: u32 = 1_000_000;

/// Prints the table; the steps a second.
pub fn table() -> f64 {
    let script = include_bytes!("../programs/counted.forf");
    let mut display = Display::new();
    let time = seconds(|| {
        let report = display.run(script, STEPS).expect("the script is short");
        assert_eq!(report.steps(), STEPS);
    });
    println!("\n| Forf, counted loop of words | Nanoseconds a step | Million steps a second |");
    println!("|---|---|---|");
    let speed = f64::from(STEPS) / time;
    println!("| {STEPS} steps | {:.1} | {:.0} |", 1e9 / speed, speed / 1e6);
    speed
}

pub fn is_met(speed: f64) -> bool {
    speed >= STEPS_A_SECOND
}
