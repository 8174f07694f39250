//! Scripts that leave circles behind: arrays and strings that name each other and lose their names.

use crate::random::Random;

const NAMES: [&str; 3] = ["a", "b", "c"];

/// No step of it fails, where there is room: a put goes to an element that is there.
pub fn script(random: &mut Random) -> Vec<u8> {
    let mut script = String::from("#FLOO\n");
    // how many elements the array has that each name is bound to, if it is one
    let mut sizes = [0; NAMES.len()];
    for name in NAMES {
        script += &format!("/{name} null def ");
    }
    for _ in 0..random.below(80) {
        let (x, y) = (random.below(NAMES.len()), random.below(NAMES.len()));
        let (to, from) = (NAMES[x], NAMES[y]);
        match random.below(12) {
            0..=2 => {
                sizes[x] = random.below(4);
                script += &format!("/{to} {} array def ", sizes[x]);
            }
            3 => {
                sizes[x] = 0;
                script += &format!("/{to} {} string def ", random.below(20));
            }
            4 => {
                sizes[x] = sizes[y];
                script += &format!("/{to} {from} def ");
            }
            _ if sizes[x] > 0 => script += &format!("{to} {} {from} put ", random.below(sizes[x])),
            _ => {}
        }
    }
    script.into_bytes()
}
