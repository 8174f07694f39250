//! The sentences of the scope paper on the second public reading (Setup), one after another, and those of the change request on what is wrong with a token.

use floo::{token, token_reply, Kind, Refusal, TokenError};

const SCRIPT: &[u8] = b"#FLOO\n-7 \"a\\n\\101\" /x add [ { } # the end\n";

/// A script of so many blanks.
fn blanks(length: usize) -> Vec<u8> {
    vec![b' '; length]
}

/// "for a script and an offset, the next token's kind (..), the offset after it, and its own bytes as a part of the script (a string's without quotes, escapes
/// unread; a literal name's without its slash)"
#[test]
fn kinds_offsets_and_parts() {
    let expected: [(Kind, usize, &[u8]); 8] = [
        (Kind::Integer, 8, b"-7"),
        (Kind::String, 18, b"a\\n\\101"),
        (Kind::LiteralName, 21, b"x"),
        (Kind::ExecutableName, 25, b"add"),
        (Kind::ExecutableName, 27, b"["),
        (Kind::OpenBrace, 29, b"{"),
        (Kind::CloseBrace, 31, b"}"),
        (Kind::End, SCRIPT.len(), b""),
    ];
    let mut offset = 0;
    for (kind, next, part) in expected {
        let read = token(SCRIPT, offset).unwrap();
        assert_eq!((read.kind, read.next, read.part), (kind, next, part));
        offset = read.next;
    }
}

/// "its own bytes as a part of the script": no copy, but the caller's bytes.
#[test]
fn a_part_is_the_scripts_own() {
    for (offset, start) in [(0, 6), (8, 10), (18, 20), (21, 22), (27, 28)] {
        let read = token(SCRIPT, offset).unwrap();
        assert!(
            std::ptr::eq(read.part, &SCRIPT[start..start + read.part.len()]),
            "{offset}"
        );
    }
}

/// "It answers 1 as above, then 10 if the offset exceeds the length"
#[test]
fn refusals() {
    let long = blanks(32_769);
    for offset in [0, 32_769, 32_770, usize::MAX] {
        assert_eq!(
            token(&long, offset),
            Err(TokenError::Refused(Refusal::ScriptTooLong))
        );
    }
    let most = blanks(32_768);
    assert_eq!(token(&most, 32_768).map(|read| read.kind), Ok(Kind::End));
    for (script, offset) in [
        (&most[..], 32_769),
        (SCRIPT, SCRIPT.len() + 1),
        (b"", 1),
        (b"", usize::MAX),
    ] {
        assert_eq!(
            token(script, offset),
            Err(TokenError::Refused(Refusal::OffsetPastEnd))
        );
    }
}

/// "or syntaxerror or limitcheck", which the change request splits: "badnumber, badescape, openstring, badbrace and badbyte, and give the offset of the first byte
/// that could not be accepted, limits aside (the 4 of `\\400`), or the script's length if it ended first"
#[test]
fn faults() {
    use TokenError::{BadByte, BadEscape, BadNumber, OpenString};
    let bad: [(&[u8], TokenError); 33] = [
        (b"5a", BadNumber(1)),
        (b"1.5", BadNumber(1)),
        (b"00x1", BadNumber(2)),
        (b"-5a", BadNumber(2)),
        (b"-0x10", BadNumber(2)),
        (b"0x", BadNumber(2)),
        (b"0x ", BadNumber(2)),
        (b"0xg", BadNumber(2)),
        (b"0x1g", BadNumber(3)),
        (b"99999999999a", BadNumber(11)),
        (b"0x1FFFFFFFFg", BadNumber(11)),
        (b" # 1a\n 2a", BadNumber(8)),
        (b"/", BadByte(1)),
        (b"/ x", BadByte(1)),
        (b"//x", BadByte(1)),
        (b"/5", BadByte(1)),
        (b"/-5", BadByte(2)),
        (b"\x00", BadByte(0)),
        (b"\t\x7f", BadByte(1)),
        (b"\xff", BadByte(0)),
        (b"\"a\\q\"", BadEscape(3)),
        (b"\"\\\\\"", BadEscape(2)),
        (b"\"\\400\"", BadEscape(2)),
        (b"\"\\4", BadEscape(2)),
        (b"\"\\38\"", BadEscape(3)),
        (b"\"\\01\"", BadEscape(4)),
        (b"\"a", OpenString(0)),
        (b"  \"a\nb\"", OpenString(2)),
        (b"\"a\rb\"", OpenString(0)),
        (b"\"\\", OpenString(0)),
        (b"\"\\3\n77\"", OpenString(0)),
        (b"\"\\37", OpenString(0)),
        (b"\"\\\n\rx\"", OpenString(0)),
    ];
    for (script, error) in bad {
        assert_eq!(token(script, 0), Err(error), "{}", script.escape_ascii());
    }
    let over: [&[u8]; 4] = [b"2147483648", b"-2147483649", b"0x100000000", &[b'n'; 32]];
    for script in over {
        assert_eq!(token(script, 0), Err(TokenError::LimitCheck), "{script:?}");
    }
    assert_eq!(token(&[b'n'; 31], 0).map(|read| read.next), Ok(31));
}

/// The name and the offset, as a message and by themselves.
#[test]
fn a_fault_says_its_name_and_place() {
    let said = |script: &[u8]| {
        let error = token(script, 1).unwrap_err();
        (error.to_string(), error.place())
    };
    let at = |name: &str, place| (format!("{name} at offset {place}"), Some(place));
    assert_eq!(said(b" 5a"), at("badnumber", 2));
    assert_eq!(said(b" \"\\q\""), at("badescape", 3));
    assert_eq!(said(b" \"a"), at("openstring", 1));
    assert_eq!(said(b" /"), at("badbyte", 2));
    assert_eq!(said(b" 2147483648"), ("limitcheck".to_owned(), None));
    assert_eq!(said(b"").1, None);
}

/// "in those cases the offset after is the one given. There and at end, where it is the length, the part is empty."
#[test]
fn no_token_moves_no_offset() {
    let long = blanks(32_769);
    let without: [(&[u8], usize, [u32; 3]); 8] = [
        (&long, 7, [1, 0, 0]),
        (&long, usize::MAX, [1, 0, 0]),
        (b"add", 4, [10, 0, 0]),
        (b"add 9999999999", 3, [0, 2, 0]),
        (b"add  99x", 3, [0, 13, 7]),
        (b"add \"\\400\"", 3, [0, 14, 6]),
        (b"add \"", 3, [0, 15, 4]),
        (b"add /", 3, [0, 17, 5]),
    ];
    for (script, offset, numbers) in without {
        let reply = token_reply(script, offset);
        assert_eq!([reply.refused, reply.fault, reply.place], numbers);
        assert_eq!((reply.kind, reply.next, reply.size), (0, offset, 0));
    }
    assert_eq!(token_reply(SCRIPT, 0).place, 0);
    for offset in [3, 5, 8] {
        let end = token(b"add  # x", offset).unwrap();
        assert_eq!((end.kind, end.next, end.part), (Kind::End, 8, &b""[..]));
    }
}

/// "Matching of braces is left to the runner."
#[test]
fn braces_need_no_partner() {
    assert_eq!(token(b"}", 0).map(|read| read.kind), Ok(Kind::CloseBrace));
    assert_eq!(token(b"{", 0).map(|read| read.kind), Ok(Kind::OpenBrace));
    let deep = [b'{'; 17];
    assert_eq!(token(&deep, 16).map(|read| read.kind), Ok(Kind::OpenBrace));
}
