//! Random texts to be read as ledgers: good ones, with needless quotes, leading zeros and a missing last line break, and such that one thing was done to.

use floo::floor::Record;

use crate::random::Random;

/// What is done to a text.
pub const DAMAGES: [&str; 20] = [
    "nothing done",
    "header changed",
    "quote inside a field",
    "quote not doubled",
    "quote not closed",
    "byte after a closing quote",
    "line feed alone",
    "carriage return alone",
    "field left out",
    "field more",
    "empty line",
    "no number",
    "number too great",
    "place empty",
    "place too long",
    "socket twice",
    "cut short",
    "byte changed",
    "byte left out",
    "byte put in",
];

/// What the damages of whole texts begin with.
const CUT: usize = 16;

const HEADER: &[u8] = b"socket,place,time";

/// Bytes that quoting asks about, and others.
const SPICES: &[u8] = b",,\"\"\r\n\r\n  ab;'1\t\x00\xFF";

/// What is no number.
const NO_NUMBERS: &[&str] = &["", "+1", "-1", " 1", "1 ", "1.0", "x", "0x1", "1e3", "1,0", "1\n", "/", ":", "\"1\""];

/// Numbers that are too great, some of which are small in 32 or in 64 bits.
const TOO_GREAT: &[&str] = &["2147483648", "4294967295", "4294967296", "4294967303", "21474836470", "99999999999999999999", "18446744073709551617", "0002147483648"];

/// Places with bytes that quoting asks about.
pub fn spice(records: &mut [Record], random: &mut Random) {
    for record in records {
        for byte in &mut record.place {
            *byte = SPICES[random.below(SPICES.len())];
        }
    }
}

/// The `n`-th text, what was done to it, and its lines before that.
pub fn text(n: usize, random: &mut Random) -> (usize, usize, Vec<u8>) {
    let damage = n % DAMAGES.len();
    let mut rows = rows(random);
    let mut breaks = vec![&b"\r\n"[..]; rows.len() + 1];
    if damage > 0 && damage < CUT && rows.is_empty() {
        rows = vec![row(1, random)];
        breaks.push(b"\r\n");
    }
    let mut header = HEADER.to_vec();
    let lines = rows.len();
    let at = random.below(lines.max(1));
    match damage {
        1 => change(&mut header, random),
        6 | 7 => {
            let at = random.below(breaks.len() - 1) + 1;
            breaks[at] = if damage == 6 { b"\n" } else { b"\r" };
        }
        8..=10 => count_damage(damage, &mut rows, &mut breaks, at, random),
        15 => twice(&mut rows, &mut breaks, at, random),
        2..=5 | 11..=14 => {
            let row = &mut rows[at];
            let field = match damage {
                11 | 12 => 2 * random.below(2),
                13 | 14 => 1,
                _ => random.below(row.len()),
            };
            row[field] = field_damage(damage, &row[field], random);
        }
        _ => {}
    }
    let mut text = header;
    let last = breaks.len() - 1;
    let ends = random.below(3) > 0 || damage == 6 || damage == 7;
    for (i, line_break) in breaks.into_iter().enumerate() {
        if i > 0 {
            text.extend(rows[i - 1].join(&b','));
        }
        if i < last || ends {
            text.extend(line_break);
        }
    }
    if damage >= CUT {
        byte_damage(damage, &mut text, random);
    }
    (damage, lines, text)
}

/// Rows of written fields, of different sockets: few, about as many as fit, or more.
fn rows(random: &mut Random) -> Vec<Vec<Vec<u8>>> {
    let count = match random.below(12) {
        0 => 0,
        1 => 62 + random.below(6),
        2 => 65 + random.below(140),
        _ => 1 + random.below(12),
    };
    let step = [1, 7, 10_000_000][random.below(3)];
    (0..count).map(|i| row((i as u32 * step) & 0x7FFF_FFFF, random)).collect()
}

fn row(number: u32, random: &mut Random) -> Vec<Vec<u8>> {
    let length = match random.below(8) {
        0 => 31,
        1 => 1,
        _ => 1 + random.below(31),
    };
    let spiced = random.below(2) == 0;
    let place: Vec<u8> = (0..length)
        .map(|_| match spiced {
            true => SPICES[random.below(SPICES.len())],
            false => random.byte(),
        })
        .collect();
    let time = match random.below(6) {
        0 => 0,
        1 => 0x7FFF_FFFF,
        _ => random.below(2_000_000_000),
    };
    let number = zeros(&number.to_string(), random);
    let time = zeros(&time.to_string(), random);
    [&number[..], &place, &time].map(|field| written(field, random)).to_vec()
}

/// Now and then with zeros before it.
fn zeros(number: &str, random: &mut Random) -> Vec<u8> {
    let count = match random.below(8) {
        0 => 1 + random.below(30),
        _ => 0,
    };
    [vec![b'0'; count], number.as_bytes().to_vec()].concat()
}

/// A field with quotes where it needs them, and now and then where it does not.
fn written(field: &[u8], random: &mut Random) -> Vec<u8> {
    let special = field.iter().any(|byte| b",\"\r\n".contains(byte));
    match special || random.below(6) == 0 {
        true => quoted(field),
        false => field.to_vec(),
    }
}

fn quoted(field: &[u8]) -> Vec<u8> {
    let mut text = vec![b'"'];
    for &byte in field {
        text.extend(match byte {
            b'"' => &b"\"\""[..],
            _ => std::slice::from_ref(&byte),
        });
    }
    text.push(b'"');
    text
}

/// What a field becomes.
fn field_damage(damage: usize, field: &[u8], random: &mut Random) -> Vec<u8> {
    let middle = random.below(field.len().max(1));
    let (left, right) = field.split_at(middle.min(field.len()));
    match damage {
        2 => [&b"a"[..], left, b"\"", right].concat(),
        3 => [&b"\""[..], left, b"a\"b", right, b"\""].concat(),
        4 => {
            let mut text = quoted(field);
            text.pop();
            text
        }
        5 => {
            let byte = match random.below(2) {
                0 => SPICES[random.below(SPICES.len())],
                _ => random.byte(),
            };
            let mut text = quoted(b"7");
            text.push(byte);
            text
        }
        11 => written(random.choose(NO_NUMBERS).as_bytes(), random),
        12 => written(&zeros(random.choose(TOO_GREAT), random), random),
        13 => written(b"", random),
        _ => {
            let length = 32 + random.below(3) * random.below(300);
            let place: Vec<u8> = (0..length).map(|_| SPICES[random.below(SPICES.len())]).collect();
            written(&place, random)
        }
    }
}

/// A line that has not three fields.
fn count_damage(damage: usize, rows: &mut Vec<Vec<Vec<u8>>>, breaks: &mut Vec<&[u8]>, at: usize, random: &mut Random) {
    match damage {
        8 => {
            for _ in 0..1 + random.below(2) {
                let field = random.below(rows[at].len());
                rows[at].remove(field);
            }
        }
        9 => {
            for _ in 0..1 + random.below(3) {
                let field = random.below(rows[at].len() + 1);
                let more = random.choose(&["", "7"]);
                rows[at].insert(field, written(more.as_bytes(), random));
            }
        }
        _ => {
            rows.insert(at, vec![written(b"", random)]);
            breaks.push(b"\r\n");
        }
    }
}

/// One row more, with the number of another.
fn twice(rows: &mut Vec<Vec<Vec<u8>>>, breaks: &mut Vec<&[u8]>, at: usize, random: &mut Random) {
    let mut again = row(0, random);
    again[0] = rows[at][0].clone();
    if random.below(2) == 0 && again[0][0] != b'"' {
        again[0].insert(0, b'0');
    }
    let place = random.below(rows.len() + 1);
    rows.insert(place, again);
    breaks.push(b"\r\n");
}

fn byte_damage(damage: usize, text: &mut Vec<u8>, random: &mut Random) {
    match damage {
        CUT => text.truncate(random.below(text.len() + 1)),
        _ => change_by(damage, text, random),
    }
}

/// One byte changed, left out or put in.
fn change(text: &mut Vec<u8>, random: &mut Random) {
    change_by(CUT + 1 + random.below(3), text, random);
}

fn change_by(damage: usize, text: &mut Vec<u8>, random: &mut Random) {
    let at = random.below(text.len());
    let byte = match random.below(3) {
        0 => random.byte(),
        _ => SPICES[random.below(SPICES.len())],
    };
    match damage - CUT {
        1 => text[at] = byte,
        2 => {
            text.remove(at);
        }
        _ => text.insert(at, byte),
    }
}
