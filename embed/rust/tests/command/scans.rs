//! `floo scan`: the answers of the floor rule, the book in its file, and what leaves it as it was.

use crate::{floo, floo_with, Folder, Said};

const SCAN: &[u8] = include_bytes!("../../../../examples/scan.floo");
const HEADER: &str = "socket,place,time\r\n";

fn folder(book: &str) -> Folder {
    let folder = Folder::new();
    folder.put("scan.floo", SCAN);
    folder.put("book.csv", book.as_bytes());
    folder
}

fn scan(folder: &Folder, labels: &[&str]) -> Said {
    floo(
        folder,
        &[&["scan", "scan.floo", "book.csv"], labels].concat(),
    )
}

fn book(folder: &Folder) -> String {
    String::from_utf8(folder.get("book.csv")).unwrap()
}

#[test]
fn new_later_and_late() {
    let folder = folder(HEADER);
    let labels = [
        "0417:rack B-7:10",
        "0388:row 2, shelf 9:20",
        "0417:tester 3:30",
        "0417:shelf A-2:15",
    ];
    let said = scan(&folder, &labels);
    let expected = "0417:rack B-7:10 -> added: socket 417 at rack B-7 since 10\n\
                    0388:row 2, shelf 9:20 -> added: socket 388 at row 2, shelf 9 since 20\n\
                    0417:tester 3:30 -> replaced: socket 417 at tester 3 since 30\n\
                    0417:shelf A-2:15 -> late: the book has socket 417 at tester 3 since 30\n";
    assert_eq!(
        (said.status, &said.output[..], &said.errors[..]),
        (0, expected, "")
    );
    let expected = "socket,place,time\r\n417,tester 3,30\r\n388,\"row 2, shelf 9\",20\r\n";
    assert_eq!(book(&folder), expected);
    assert_eq!(folder.names(), ["book.csv", "scan.floo"]);
}

#[test]
fn labels_of_standard_input() {
    let folder = folder(HEADER);
    let said = floo_with(
        &folder,
        &["scan", "scan.floo", "book.csv"],
        b"1:a:1\r\n2:b:2\n3:c:3",
    );
    assert_eq!((said.status, said.output.lines().count()), (0, 3));
    assert_eq!(
        book(&folder),
        format!("{HEADER}1,a,1\r\n2,b,2\r\n3,c,3\r\n")
    );
}

#[test]
fn a_label_that_is_none_leaves_the_book() {
    let before = format!("{HEADER}417,tester 3,30\r\n");
    let folder = folder(&before);
    // no colon: the script stops. The labels after it are still answered, and the status is the first one's.
    let said = scan(&folder, &["0417", "0502::40"]);
    assert_eq!((said.status, &said.output[..]), (4, ""));
    assert_eq!(said.error(), "scan.floo:20:10: stopped");
    assert!(said
        .errors
        .contains("the label is 0417; the book stays as it was"));
    // an empty place
    assert!(said.errors.contains("scan.floo: stack not of this form\n"));
    assert!(said.errors.contains("the script left 502 string:0/0 40\n"));
    assert_eq!(scan(&folder, &["0502::40"]).status, 2);
    let long = "x".repeat(513);
    let said = scan(&folder, &[&long]);
    assert_eq!(
        (said.status, said.error()),
        (2, "scan.floo: label over 512 bytes")
    );
    assert_eq!(book(&folder), before);
    folder.put("scan.floo", b"#FLOO\nlabel 0 3 getintervl");
    let said = scan(&folder, &["abc"]);
    assert_eq!(
        (said.status, said.error()),
        (1, "scan.floo:2:11: undefined in getintervl")
    );
    assert_eq!(book(&folder), before);
}

#[test]
fn a_book_that_is_full() {
    let mut lines = HEADER.to_owned();
    for number in 0..64 {
        lines += &format!("{number},rack,1\r\n");
    }
    let folder = folder(&lines);
    let said = scan(&folder, &["64:rack:2"]);
    assert_eq!(
        (said.status, said.error()),
        (2, "scan.floo: no room for a new socket")
    );
    assert_eq!(book(&folder), lines);
    assert_eq!(scan(&folder, &["63:tester:2"]).status, 0);
}

#[test]
fn a_file_that_is_no_ledger() {
    let twice = format!("{HEADER}1,a,1\r\n1,b,2\r\n");
    for (text, what) in [
        ("", "bad header"),
        ("socket,place,time\n", "bad header"),
        (&twice, "socket twice"),
    ] {
        let folder = folder(text);
        let said = scan(&folder, &["1:a:1"]);
        assert_eq!((said.status, &said.output[..]), (2, ""));
        assert_eq!(said.error(), format!("book.csv: not a ledger: {what}"));
        assert_eq!(book(&folder), text);
    }
}

#[test]
fn a_book_is_begun_when_that_is_asked() {
    let folder = Folder::new();
    folder.put("scan.floo", SCAN);
    let said = scan(&folder, &["1:a:1"]);
    assert_eq!((said.status, &said.output[..]), (2, ""));
    assert_eq!(
        said.error(),
        "book.csv: No such file or directory (os error 2)"
    );
    assert!(said.errors.contains("--new begins a book"));
    let new = ["scan", "--new", "scan.floo", "book.csv", "1:a:1"];
    assert_eq!(floo(&folder, &new).status, 0);
    assert_eq!(book(&folder), format!("{HEADER}1,a,1\r\n"));
    let said = floo(&folder, &new);
    assert_eq!(
        (said.status, said.error()),
        (2, "book.csv: File exists (os error 17)")
    );
    assert_eq!(book(&folder), format!("{HEADER}1,a,1\r\n"));
}

#[test]
fn sizes_are_those_asked_for() {
    let folder = folder(HEADER);
    let small = |option: &str| floo(&folder, &["scan", option, "scan.floo", "book.csv", "1:a:1"]);
    assert_eq!(
        small(&format!("--dictionary={}", floo::PREDEFINED_NAMES)).error(),
        "scan.floo: no slot for label"
    );
    assert_eq!(small("--cells=1").error(), "scan.floo: no cells for label");
    assert_eq!(
        small("--fuel=1000001").error(),
        "scan.floo: refused=3: the fuel is over 1000000"
    );
    assert_eq!(small("--fuel=20").status, 3);
    assert_eq!(book(&folder), HEADER);
}

/// The log of each scan comes before its answer.
#[test]
fn a_script_that_writes() {
    let folder = folder(HEADER);
    folder.put("scan.floo", b"#FLOO\nlabel echo 7 label 9");
    let said = scan(&folder, &["shelf"]);
    assert_eq!(
        said.output,
        "\"shelf\"\nshelf -> added: socket 7 at shelf since 9\n"
    );
}
