//! `--room`: the least size of each part with which the run is the same. The numbers are worked out from the paper's room rule.

use crate::script;
use floo::PREDEFINED_NAMES as NAMES;

/// The column `used`: stack, exec, dictionary, cells, log and fuel.
fn used(text: &str, options: &[&str]) -> [usize; 6] {
    let said = script(text, &[&["--room"], options].concat());
    let mut lines = said.output.lines();
    assert_eq!(lines.next(), Some("part          used    lent"));
    ["stack", "exec", "dictionary", "cells", "log", "fuel"].map(|name| {
        let mut words = lines.next().unwrap().split_whitespace();
        assert_eq!(words.next(), Some(name));
        words.next().unwrap().parse().unwrap()
    })
}

#[test]
fn each_part() {
    assert_eq!(used("#FLOO", &[]), [8, 4, NAMES, 1, 0, 0]);
    // nine items at once, and then none
    let nine = "#FLOO\n1 1 1 1 1 1 1 1 1 pop pop pop pop pop pop pop pop pop";
    assert_eq!(used(nine, &[]), [9, 4, NAMES, 1, 0, 27]);
    // five procedures run, each in the one before it, with no slot more for the 1 that is pushed. 1 for the group and 2 + 1 for exec and the procedure's
    // becoming a running one; each of the four inner ones the same; the 1; five drops. Cells: 2 for the innermost, 3 for each other
    let nested = "#FLOO\n{ { { { { 1 } exec } exec } exec } exec } exec";
    assert_eq!(used(nested, &[]), [8, 5, NAMES, 14, 0, 26]);
    // two names, one of them twice
    assert_eq!(
        used("#FLOO\n/a /b /a pop pop pop", &[]),
        [8, 4, NAMES + 2, 1, 0, 9]
    );
    assert_eq!(
        used("#FLOO\n\"shelf\" print 9 echo", &[]),
        [8, 4, NAMES, 2, 7, 6]
    );
}

/// "Operands count as held when their operator asks for room": the array's 4 cells and the interval's 3.
#[test]
fn cells_are_those_wanted_at_once() {
    assert_eq!(used("#FLOO\n[1 2 3] 0 2 getinterval", &[])[3], 7);
    assert_eq!(used("#FLOO\n[1 2 3] pop [4 5 6]", &[])[3], 4);
    // a circle stays held
    assert_eq!(
        used("#FLOO\n/a 1 array def a 0 a put /a 0 def [ 1 ]", &[])[3],
        4
    );
}

/// A handler is held, and an error that is handled makes other steps: the two arrays' 20 cells and the handler's 7. A command takes a slot, but what is popped again shows
/// nowhere, so it may as well find none.
#[test]
fn handlers() {
    let again =
        "#FLOO\n/VMerror { /x null def command cvx exec } onerror /x 9 array def 9 array pop";
    assert_eq!(used(again, &[]), [8, 4, NAMES + 2, 27, 0, 15]);
    let command = "#FLOO\n/undefined { command pop } onerror frob";
    assert_eq!(used(command, &[]), [8, 4, NAMES + 1, 3, 0, 11]);
}

/// With the sizes that are named the run is the same, and with one less of any part it is not.
#[test]
fn the_sizes_are_enough_and_not_too_much() {
    let label = include_str!("../../../../examples/label.floo");
    let fails =
        "#FLOO\n/a [ 1 2 3 4 5 6 7 8 9 ] def /f { a aload pop \"so\" print [ 1 2 ] foo } def f";
    for (text, expected) in [(label, 0), (fails, 1)] {
        let plain = script(text, &["--outcome"]);
        assert_eq!(plain.status, expected);
        let said = script(text, &["--room"]);
        let same = said.output.lines().last().unwrap();
        let options: Vec<&str> = same
            .strip_prefix("the same run: ")
            .unwrap()
            .split(' ')
            .collect();
        let again = |options: &[&str]| script(text, &[&["--outcome"], options].concat());
        assert_eq!(again(&options), plain);
        for i in (0..options.len()).step_by(2) {
            let fewer = options[i + 1].parse::<usize>().unwrap() - 1;
            let fewer = fewer.to_string();
            let mut options = options.clone();
            options[i + 1] = &fewer;
            assert_ne!(again(&options), plain, "{options:?}");
        }
    }
}

#[test]
fn more_is_wanted() {
    for (text, part) in [
        ("#FLOO\n{ 1 } loop", "stack"),
        ("#FLOO\n/f { f 1 } def f", "exec"),
        ("#FLOO\n5000 array", "cells"),
        ("#FLOO\n{ \"a long line of a log\" print } loop", "log"),
    ] {
        let said = script(text, &["--room"]);
        assert_eq!(said.status, 1, "{text}");
        let full: Vec<&str> = said
            .output
            .lines()
            .filter(|line| line.contains("more is wanted"))
            .collect();
        assert!(full.len() == 1 && full[0].starts_with(part), "{full:?}");
    }
    let said = script("#FLOO\n1 2 add", &["--room"]);
    assert!(!said.output.contains("more is wanted"));
}
