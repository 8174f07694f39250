//! A line of a script with a caret under a place in it, and bytes made fit for a terminal.

/// Characters of a line that are shown before and after the place.
const BEFORE: usize = 60;
const AFTER: usize = 40;

/// Two lines: the one of the offset, and the caret's. Tabs are kept in both, so the caret stands right whatever they are.
pub fn excerpt(script: &[u8], offset: usize, line: usize) -> String {
    let ends = |byte: &u8| matches!(byte, b'\n' | b'\r');
    let offset = offset.min(script.len());
    let start = script[..offset]
        .iter()
        .rposition(ends)
        .map_or(0, |at| at + 1);
    let end = script[offset..]
        .iter()
        .position(ends)
        .map_or(script.len(), |more| offset + more);
    let mut before: Vec<char> = characters(&script[start..offset]).collect();
    if before.len() > BEFORE {
        before.splice(..before.len() - BEFORE, "..".chars());
    }
    let mut after: Vec<char> = characters(&script[offset..end]).collect();
    if after.len() > AFTER {
        after.truncate(AFTER);
        after.extend("..".chars());
    }
    let blanks = before.iter().map(|&c| if c == '\t' { c } else { ' ' });
    let caret: String = blanks.collect();
    let shown: String = before.iter().chain(&after).collect();
    let margin = " ".repeat(line.to_string().len());
    format!(" {line} | {shown}\n {margin} | {caret}^\n")
}

/// Bytes on one line: UTF-8 as it is, and what a terminal would act on as U+FFFD.
pub fn printable(bytes: &[u8]) -> String {
    characters(bytes)
        .map(|c| if c == '\t' { ' ' } else { c })
        .collect()
}

fn characters(bytes: &[u8]) -> impl Iterator<Item = char> {
    let text = String::from_utf8_lossy(bytes).into_owned();
    let shown = |c: char| match c.is_control() && c != '\t' {
        true => char::REPLACEMENT_CHARACTER,
        false => c,
    };
    text.chars().map(shown).collect::<Vec<_>>().into_iter()
}
