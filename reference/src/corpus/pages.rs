//! Reads the examples of the documents and the scripts of ../examples, in the forms of ../corpus/README.md.

use std::fs;
use std::path::{Path, PathBuf};

use super::{repository, sizes_of, texts, Case, Question};
use crate::Sizes;

/// The documents whose examples are run.
pub const PAGES: [&str; 2] = ["docs/LANGUAGE.md", "docs/COOKBOOK.md"];

/// Run by the floor rule: what stands beside it is printed by another program.
const SCANNED: &str = "scan.floo";

/// What a document holds beside its prose.
pub struct Page {
    /// An example each. `gives` is the log, and those lines of the outcome that the document shows.
    pub cases: Vec<Case>,
    /// Rows of tables.
    pub rows: Vec<Row>,
    /// Blocks that show a file.
    pub shown: Vec<Shown>,
}

/// A row's cells, each with the head of its column.
pub struct Row {
    pub place: String,
    cells: Vec<(String, String)>,
}

pub struct Shown {
    pub place: String,
    pub file: String,
    pub text: Vec<u8>,
}

struct Block {
    place: String,
    words: String,
    text: Vec<u8>,
}

impl Row {
    pub fn cell(&self, head: &str) -> Option<&str> {
        let cell = self.cells.iter().find(|(name, _)| name == head);
        cell.map(|(_, text)| text.as_str())
    }
}

/// The documents of `PAGES`, or what is malformed.
pub fn read_pages() -> Result<Vec<Page>, String> {
    let read = |name| {
        let file = repository().join(name);
        let text = fs::read_to_string(&file).map_err(|error| format!("{name}: {error}"))?;
        read_page(&file, name, &text)
    };
    PAGES.into_iter().map(read).collect()
}

/// The scripts of ../examples that have beside them what the program prints for them.
pub fn read_scripts() -> Result<Vec<Case>, String> {
    let folder = repository().join("examples");
    let mut cases = Vec::new();
    for (file, script) in texts(&folder, "floo")? {
        let title = file.file_name().unwrap_or_default().to_string_lossy();
        let title = title.into_owned();
        if title == SCANNED {
            continue;
        }
        let gives = fs::read(file.with_extension("expected"))
            .map_err(|error| format!("what {title} gives: {error}"))?;
        let (fuel, sizes) = program();
        cases.push(Case {
            file,
            title,
            question: Question::Run { fuel, sizes },
            script,
            gives,
        });
    }
    Ok(cases)
}

/// The program's own fuel and sizes.
fn program() -> (u64, Sizes) {
    sizes_of("".split(' ')).expect("nothing is named")
}

pub fn read_page(file: &Path, name: &str, text: &str) -> Result<Page, String> {
    let (rows, blocks) = parts(name, text)?;
    let mut page = Page {
        cases: Vec::new(),
        rows,
        shown: Vec::new(),
    };
    for row in &page.rows {
        page.cases.extend(row.example(file)?);
    }
    page.add_blocks(file, blocks)?;
    Ok(page)
}

impl Page {
    /// A script and what it gives are two blocks; a block with a path in its first line shows that file.
    fn add_blocks(&mut self, file: &Path, blocks: Vec<Block>) -> Result<(), String> {
        let mut blocks = blocks.into_iter();
        while let Some(block) = blocks.next() {
            let malformed = |what| Err(format!("{}: {what}", block.place));
            let (kind, rest) = block.words.split_once(' ').unwrap_or((&block.words, ""));
            let shows = rest.contains('/');
            match kind {
                "floo" | "text" if shows => self.shown.push(Shown {
                    file: rest.to_string(),
                    place: block.place,
                    text: block.text,
                }),
                "floo" => {
                    let Some(lent) = sizes_of(rest.split(' ')) else {
                        return malformed("expected `floo KEY=N ..`");
                    };
                    match blocks.next() {
                        Some(gives) if gives.words == "text" => {
                            let case = example(file, &block.place, lent, block.text, gives.text);
                            self.cases.push(case);
                        }
                        _ => return malformed("no block `text` follows"),
                    }
                }
                "text" => return malformed("it follows no block `floo`"),
                _ => {}
            }
        }
        Ok(())
    }
}

fn example(
    file: &Path,
    place: &str,
    (fuel, sizes): (u64, Sizes),
    script: Vec<u8>,
    gives: Vec<u8>,
) -> Case {
    Case {
        file: PathBuf::from(file),
        title: place.to_string(),
        question: Question::Run { fuel, sizes },
        script,
        gives,
    }
}

/// The rows of all tables but their heads, and the fenced blocks.
fn parts(name: &str, text: &str) -> Result<(Vec<Row>, Vec<Block>), String> {
    let (mut rows, mut blocks) = (Vec::new(), Vec::new());
    let mut heads: Vec<String> = Vec::new();
    let mut lines = (1..).zip(text.lines());
    while let Some((number, line)) = lines.next() {
        let place = format!("{name}:{number}");
        if let Some(words) = line.strip_prefix("```") {
            let mut inside = String::new();
            loop {
                match lines.next() {
                    Some((_, "```")) => break,
                    Some((_, line)) => inside += &format!("{line}\n"),
                    None => return Err(format!("{place}: the block is not closed")),
                }
            }
            let (words, text) = (words.to_string(), inside.into_bytes());
            blocks.push(Block { place, words, text });
            heads.clear();
            continue;
        }
        let Some(cells) = line
            .strip_prefix('|')
            .and_then(|line| line.strip_suffix('|'))
        else {
            heads.clear();
            continue;
        };
        let cells: Vec<String> = cells.split('|').map(|cell| cell.trim().into()).collect();
        if heads.is_empty() {
            heads = cells;
        } else if cells.len() != heads.len() {
            return Err(format!("{place}: another number of cells than in the head"));
        } else if !cells[0].starts_with("---") {
            let cells = heads.iter().cloned().zip(cells).collect();
            rows.push(Row { place, cells });
        }
    }
    Ok((rows, blocks))
}

impl Row {
    /// The case of a row with an example. `echostack` follows the example, unless lines of the outcome are what is
    /// shown.
    fn example(&self, file: &Path) -> Result<Option<Case>, String> {
        let (Some(asked), Some(result)) = (self.cell("Example"), self.cell("Result")) else {
            return Ok(None);
        };
        let malformed = || format!("{}: expected `EXAMPLE` and `RESULT` ..", self.place);
        let (examples, mut results) = (spans(asked), spans(result));
        if examples.is_empty() && results.is_empty() {
            return Ok(None);
        }
        let [line] = examples[..] else {
            return Err(malformed());
        };
        let last = results.pop().ok_or_else(malformed)?;
        let of_outcome = last.starts_with("ending=") || last.starts_with("error=");
        let mut script = format!("#FLOO\n{line}");
        let mut gives: String = results.iter().map(|line| format!("{line}\n")).collect();
        if of_outcome {
            gives += &last.replace(' ', "\n");
        } else {
            script += " echostack";
            gives += last;
        }
        script.push('\n');
        gives.push('\n');
        let (script, gives) = (script.into_bytes(), gives.into_bytes());
        let case = example(file, &self.place, program(), script, gives);
        Ok(Some(case))
    }
}

/// The code spans of a cell.
pub fn spans(cell: &str) -> Vec<&str> {
    cell.split('`').skip(1).step_by(2).collect()
}

#[test]
fn rows_and_blocks_are_examples() {
    let text = "| A | Example | Result |\n|---|---|---|\n| x | `1 2` | `1 2` |\n| | `1 echo 2` | `1` `2` |\n| | `1 stop` | `ending=stopped depth=1` |\n| no | | |\n\n\
                ```floo fuel=3\n#FLOO\n1\n```\nand\n```text\nsteps=1\n```\n```sh\nls\n```\n```floo a/b\nx\n```\n";
    let page = read_page(Path::new("f"), "f", text).unwrap();
    let told: Vec<(&[u8], &[u8])> = page
        .cases
        .iter()
        .map(|case| (&case.script[..], &case.gives[..]))
        .collect();
    let expected: [(&[u8], &[u8]); 4] = [
        (b"#FLOO\n1 2 echostack\n", b"1 2\n"),
        (b"#FLOO\n1 echo 2 echostack\n", b"1\n2\n"),
        (b"#FLOO\n1 stop\n", b"ending=stopped\ndepth=1\n"),
        (b"#FLOO\n1\n", b"steps=1\n"),
    ];
    assert_eq!(told, expected);
    assert!(matches!(
        page.cases[3].question,
        Question::Run { fuel: 3, .. }
    ));
    assert_eq!(page.rows.len(), 4);
    assert_eq!(page.rows[0].cell("A"), Some("x"));
    assert_eq!(
        (&page.shown[0].file[..], &page.shown[0].text[..]),
        ("a/b", &b"x\n"[..])
    );
}

#[test]
fn malformed_pages_are_told_by_place() {
    for (text, told) in [
        ("```floo\nx\n", "f:1: the block is not closed"),
        ("a\n```floo\nx\n```\n", "f:2: no block `text` follows"),
        (
            "```floo\n```\n```floo\n```\n",
            "f:1: no block `text` follows",
        ),
        ("```text\n```\n", "f:1: it follows no block `floo`"),
        ("```floo fuel\n```\n", "f:1: expected `floo KEY=N ..`"),
        ("| a | b |\n|---|---|\n| c |\n", "f:3: another number"),
        (
            "| Example | Result |\n|---|---|\n| `1` | |\n",
            "f:3: expected `EXAMPLE`",
        ),
        (
            "| Example | Result |\n|---|---|\n| `1` `2` | `3` |\n",
            "f:3: expected `EXAMPLE`",
        ),
    ] {
        let error = read_page(Path::new("f"), "f", text).err().unwrap();
        assert!(error.starts_with(told), "{error}");
    }
}
