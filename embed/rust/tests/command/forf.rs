//! `floo forf`: the outcome of a Forf script, and the exit status.

use crate::{floo, floo_with, Folder, Said};

fn forf(script: &str, options: &[&str]) -> Said {
    let folder = Folder::new();
    folder.put("shelf.forf", script.as_bytes());
    floo(&folder, &[&["forf"], options, &["shelf.forf"]].concat())
}

#[test]
fn the_outcome_is_printed() {
    let said = forf("5 8 < { 50 8 + } { 50 8 - } ifelse", &[]);
    let outcome =
        "ending=finished\nerror=none\ncommand=\nat=34\nsteps=11\ndepth=1\nitem=integer:58\n";
    assert_eq!((said.status, said.output.as_str()), (0, outcome));
}

#[test]
fn an_error_and_spent_fuel_have_their_status() {
    let said = forf("1 0 /", &[]);
    assert_eq!(said.status, 1);
    assert!(said
        .output
        .starts_with("ending=error\nerror=undefinedresult\ncommand=/\nat=4\nsteps=3\n"));
    let said = forf("1 2 3", &["--fuel", "2"]);
    assert_eq!(said.status, 3);
    assert!(said.output.starts_with("ending=fuel\n"));
}

#[test]
fn what_is_refused() {
    let said = forf("1", &["--fuel", "1000001"]);
    assert_eq!(
        (said.status, said.error()),
        (2, "shelf.forf: the fuel is over 1,000,000")
    );
    let said = forf(&" ".repeat(32_769), &[]);
    assert_eq!(
        (said.status, said.error()),
        (2, "shelf.forf: the script has over 32,768 bytes")
    );
    let said = forf("1", &["--tokens"]);
    assert_eq!(
        (said.status, said.error()),
        (2, "floo: `floo forf` has no --tokens")
    );
}

#[test]
fn standard_input_serves_too() {
    let said = floo_with(&Folder::new(), &["forf"], b"7 dup *");
    assert!(
        said.output.ends_with("depth=1\nitem=integer:49\n"),
        "{said:?}"
    );
}
