//! `--steps`: the state after each number of steps, by the paper's rules for steps.

use crate::script;

fn lines(text: &str, range: &str, options: &[&str]) -> (i32, Vec<String>) {
    let said = script(text, &[&["--steps", range], options].concat());
    (
        said.status,
        said.output.lines().map(str::to_owned).collect(),
    )
}

/// "So `1 2 add` costs 4 steps."
#[test]
fn a_sum() {
    let (status, lines) = lines("#FLOO\n1 2 add", "0..9", &[]);
    let expected = [
        "after    held  next                      stack",
        "    0       0  2:1 1",
        "    1       0  2:3 2                     1",
        "    2       0  2:5 add                   1 2",
        "    3       0  in 2:5 add                1 2",
        "    4       0  finished                  3",
    ];
    assert_eq!((status, &lines[..]), (0, &expected.map(str::to_owned)[..]));
}

#[test]
fn a_part_of_a_run() {
    // the 2, the group of 2 and its 3 cells, repeat's name, repeat itself
    let text = "#FLOO\n2 { 7 pop } repeat 5";
    let (status, part) = lines(text, "1..4", &[]);
    let expected = [
        "    1       0  2:3 {..}                  2",
        "    2       3  2:13 repeat               2 procedure:2",
        "    3       3  in 2:13 repeat            2 procedure:2",
        "    4       3  in 2:13 repeat",
    ];
    assert_eq!((status, &part[1..]), (0, &expected.map(str::to_owned)[..]));
    // a turn makes the body pending; it runs; 7 is pushed; the name pop, pop itself; the procedure is dropped
    let (_, all) = lines(text, "0..1000000", &[]);
    let steps = 4 + 2 * 6 + 1 + 1;
    assert_eq!(all.len(), 1 + steps + 1);
    assert_eq!(all[steps], format!("{:>5}       0  2:20 5", steps - 1));
    assert_eq!(
        all[steps + 1],
        format!("{steps:>5}       0  finished                  5")
    );
    // one number is one state, and past the end there is the end
    assert_eq!(lines(text, "4", &[]).1[1..], expected[3..]);
    assert_eq!(lines(text, "900..999", &[]).1[1..], all[steps + 1..]);
}

#[test]
fn the_end_of_a_run_is_said() {
    let said = script("#FLOO\n1 ad", &["--steps", "1..9"]);
    assert_eq!(said.status, 1);
    let last = said.output.lines().last();
    assert_eq!(last, Some("    2       0  error                     1"));
    assert_eq!(said.error(), "label.floo:2:3: undefined in ad");
    // up to a state before it, the run has not failed yet
    let said = script("#FLOO\n1 ad", &["--steps", "0..1"]);
    assert_eq!((said.status, &said.errors[..]), (0, ""));
    // a token that is none is the next one too
    let said = script("#FLOO\n1 5a", &["--steps", "1..1"]);
    assert!(
        said.output
            .ends_with("    1       0  2:3 no token              1\n"),
        "{}",
        said.output
    );
    let said = script("#FLOO\n{ } loop", &["--steps", "0..9", "--fuel", "3"]);
    assert_eq!((said.status, said.output.lines().count()), (3, 5));
    assert_eq!(said.output.lines().last(), Some("    3       1  fuel"));
}

/// The last step, which takes the last token or takes none, ends the run at once.
#[test]
fn the_last_step() {
    for (text, steps, next) in [
        ("#FLOO\n7 # a comment", "0", "2:1 7"),
        ("#FLOO\n7 { 8 { 9 } } # a comment\n", "1", "2:3 {..}"),
        ("#FLOO\n7 { 8 { 9 } } pop # a comment", "3", "in 2:15 pop"),
        ("#FLOO\n{ 8 } exec", "5", "in 2:7 exec"),
    ] {
        let (_, lines) = lines(text, steps, &[]);
        let words: Vec<&str> = lines[1]
            .split("  ")
            .filter(|part| !part.is_empty())
            .collect();
        assert_eq!(words[2].trim(), next, "{text}");
    }
}

#[test]
fn items_of_every_kind() {
    let text = "#FLOO\n-5 true null [ \"ab\" /x /x cvx /add load 2 array { 1 }";
    let (_, lines) = lines(text, "1000", &[]);
    let stack = "-5 true null -mark- string:2/2 /x x operator:add array:2 procedure:1";
    assert!(
        lines[1].ends_with(&format!(" finished                  {stack}")),
        "{}",
        lines[1]
    );
}

/// The step that fails takes its token and leaves the stack; the handler's steps are the token's.
#[test]
fn a_handled_error() {
    let (status, lines) = lines("#FLOO\n/undefined 7 onerror frob 8", "4..9", &[]);
    let expected = [
        "    4       0  2:22 frob",
        "    5       0  in 2:22 frob",
        "    6       0  2:27 8                    7",
        "    7       0  finished                  7 8",
    ];
    assert_eq!((status, &lines[1..]), (0, &expected.map(str::to_owned)[..]));
}
