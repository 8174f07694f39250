//! A label script with three typing slips, mended one after another by what the command says of each; and the notes for what is written otherwise in PostScript.

use crate::script;

const SLIPS: &str = "#FLOO
# SOCKET:PLACE, the place from the colon on
/label (0417:rack B-7) def
/place {
    label 5 label lenght 5 sub getinterval
def
place print
";

#[test]
fn three_slips() {
    // a string as PostScript writes it is names here
    let said = script(SLIPS, &[]);
    assert_eq!(said.error(), "label.floo:3:8: undefined in (0417:rack");
    assert!(said
        .errors
        .contains(" 3 | /label (0417:rack B-7) def\n   |        ^\n"));
    assert!(said.errors.contains("note: a string is written \"so\"\n"));
    let text = SLIPS.replace("(0417:rack B-7)", "\"0417:rack B-7\"");

    let said = script(&text, &[]);
    assert_eq!(said.error(), "label.floo:4:8: badbrace");
    assert!(said.errors.contains(" 4 | /place {\n   |        ^\n"));
    assert!(said.errors.contains("note: nothing closes this brace\n"));
    let text = text.replace("\ndef", "\n} def");

    let said = script(&text, &[]);
    assert_eq!(said.error(), "label.floo:7:1: undefined in lenght");
    assert!(said.errors.contains("note: is it length?\n"));
    assert!(said
        .errors
        .contains("note: lenght is run by place and stands at 5:19;"));
    let text = text.replace("lenght", "length");

    let said = script(&text, &[]);
    assert_eq!((said.status, &said.errors[..]), (0, ""));
    assert_eq!(said.output, "rack B-7");
}

#[test]
fn names_of_postscript() {
    for (text, note) in [
        ("%comment", "a comment begins with #"),
        ("1 ==", "Floo has echo"),
        ("pstack", "Floo has echostack"),
        ("7 2 div", "Floo has idiv"),
        ("{ 1 } stopped", "Floo has onerror"),
        ("getintervall", "is it getinterval?"),
        ("ehco", "is it echo?"),
        ("1 2 ad", "is it add or and?"),
        ("/colon 1 def colno", "is it colon?"),
    ] {
        let said = script(&format!("#FLOO\n{text}"), &[]);
        assert_eq!(said.status, 1, "{text}");
        assert!(
            said.errors.contains(&format!("note: {note}\n")),
            "{text}: {}",
            said.errors
        );
    }
    // nothing looks like it
    let said = script("#FLOO\nwarehouse", &[]);
    assert!(!said.errors.contains("note"), "{}", said.errors);
}

#[test]
fn a_handler_for_no_error() {
    let said = script("#FLOO\n/rangechek { } onerror", &[]);
    assert_eq!(said.error(), "label.floo:2:16: rangecheck in onerror");
    let note =
        "note: onerror wants the name of an error as it is told here, /undefined or /VMerror\n";
    assert!(said.errors.contains(note), "{}", said.errors);
    // another error of onerror has no such note
    let said = script("#FLOO\n1 { } onerror", &[]);
    assert_eq!(said.error(), "label.floo:2:7: typecheck in onerror");
    assert!(!said.errors.contains("wants"), "{}", said.errors);
}

#[test]
fn a_string_of_a_procedure() {
    let said = script("#FLOO\n/tag { \"rack\" } def tag 0 82 put", &[]);
    assert_eq!(said.error(), "label.floo:2:30: invalidaccess in put");
    let note = "note: what braces make is read only, and what readonly was given; getinterval makes a copy that is not\n";
    assert!(said.errors.contains(note), "{}", said.errors);
}
