//! Every example of ../docs/LANGUAGE.md and ../docs/COOKBOOK.md gives what the page says, and every script of
//! ../examples what stands beside it. The table of operators has all of them, with the errors that the corpus shows.

use std::collections::BTreeSet;

use floo_reference::corpus::{
    read_all, read_pages, read_scripts, repository, spans, Case, Page, Question, Row,
};
use floo_reference::error;
use floo_reference::machine::Machine;
use floo_reference::operators;
use floo_reference::setup::PREDEFINED_NAMES;
use floo_reference::{printed, Sizes};

const FEWEST_EXAMPLES: usize = 150;
const FEWEST_SCRIPTS: usize = 10;

/// 01, "Order within a step", of what an operator can give.
const ORDER: [&str; 13] = [
    "undefined",
    "stackunderflow",
    "typecheck",
    "invalidaccess",
    "rangecheck",
    "undefinedresult",
    "stackunderflow of items",
    "unmatchedmark",
    "limitcheck",
    "execstackoverflow",
    "stackoverflow",
    "VMerror",
    "ioerror",
];

fn pages() -> Vec<Page> {
    read_pages().unwrap_or_else(|malformed| panic!("malformed page: {malformed}"))
}

fn examples() -> Vec<Case> {
    pages().into_iter().flat_map(|page| page.cases).collect()
}

fn output(case: &Case) -> String {
    let Question::Run { fuel, sizes } = &case.question else {
        unreachable!("an example is a run");
    };
    String::from_utf8(printed(&case.script, *fuel, sizes)).expect("examples print text")
}

/// Whether `shown` is the log, and then lines of the outcome in their order. An ending other than finished must be
/// among them.
fn tells(shown: &str, output: &str) -> bool {
    let ending = output.rfind("ending=");
    let Some((log, outcome)) = ending.and_then(|end| output.split_at_checked(end)) else {
        return shown == output;
    };
    let Some(chosen) = shown.strip_prefix(log) else {
        return false;
    };
    let mut lines = outcome.lines();
    let in_order = chosen.lines().all(|line| lines.any(|other| other == line));
    let told = |key| chosen.lines().any(|line| line.starts_with(key));
    let silent = outcome.starts_with("ending=finished\n") || told("error=") || told("ending=");
    in_order && silent && (chosen.is_empty() || chosen.ends_with('\n'))
}

#[test]
fn every_example_gives_what_the_page_says() {
    let examples = examples();
    for case in &examples {
        let (shown, output) = (String::from_utf8_lossy(&case.gives), output(case));
        assert!(
            tells(&shown, &output),
            "{}\nthe page says:\n{shown}\nthe run gives:\n{output}",
            case.title
        );
    }
    println!("{} examples", examples.len());
    assert!(examples.len() >= FEWEST_EXAMPLES, "only {}", examples.len());
}

#[test]
fn every_script_prints_what_stands_beside_it() {
    let scripts = read_scripts().expect("the examples can be read");
    for case in &scripts {
        assert_eq!(output(case).as_bytes(), case.gives, "{}", case.title);
    }
    println!("{} scripts", scripts.len());
    assert!(scripts.len() >= FEWEST_SCRIPTS, "only {}", scripts.len());
}

/// A block that names a script has all of it; one that names what is printed may leave lines of the outcome out.
#[test]
fn shown_files_are_the_files() {
    let mut files = BTreeSet::new();
    for shown in pages().iter().flat_map(|page| &page.shown) {
        let kept = std::fs::read(repository().join(&shown.file)).unwrap_or_default();
        if shown.file.ends_with(".floo") {
            assert!(shown.text == kept, "{}: not {}", shown.place, shown.file);
        } else {
            let [text, kept] = [&shown.text, &kept].map(|bytes| String::from_utf8_lossy(bytes));
            let of = &shown.file;
            assert!(tells(&text, &kept), "{}: not as {of} has it", shown.place);
        }
        files.insert(shown.file.clone());
    }
    for case in read_scripts().expect("the examples can be read") {
        // the README's, which the tests of embed/rust hold to the file
        if case.title == "place.floo" {
            continue;
        }
        let script = format!("examples/{}", case.title);
        let expected = script.replace(".floo", ".expected");
        assert!(files.contains(&script), "no page shows {script}");
        assert!(files.contains(&expected), "no page shows {expected}");
    }
}

/// The rows of the tables of names, a row for each name.
fn named_rows(pages: &[Page]) -> Vec<(&str, &Row)> {
    let rows = pages.iter().flat_map(|page| &page.rows);
    rows.filter_map(|row| {
        let [name] = spans(row.cell("Name")?)[..] else {
            return None;
        };
        Some((name, row))
    })
    .collect()
}

#[test]
fn the_table_has_every_predefined_name_once() {
    let pages = pages();
    let mut named: Vec<&str> = named_rows(&pages).iter().map(|(name, _)| *name).collect();
    named.sort();
    let start = Machine::new(&Sizes::default());
    let slots = start.dictionary.iter();
    let mut names: Vec<String> = slots
        .map(|slot| String::from_utf8_lossy(&slot.name).into_owned())
        .collect();
    names.sort();
    assert_eq!(named, names);
    let is_operator = |name: &&str| operators::all().any(|operator| operator.name() == *name);
    let operators = operators::all().count();
    assert_eq!(named.into_iter().filter(is_operator).count(), operators);
    assert_eq!(names.len(), PREDEFINED_NAMES);
    let page = std::fs::read_to_string(repository().join("docs/LANGUAGE.md")).unwrap_or_default();
    let told = |text: &str, times| assert_eq!(page.matches(text).count(), times, "{text}");
    told(
        &format!("There are {operators} operators and {PREDEFINED_NAMES} predefined names"),
        1,
    );
    told(&format!("{PREDEFINED_NAMES} to 512"), 2);
}

#[test]
fn each_name_stands_in_its_example() {
    let pages = pages();
    for (name, row) in named_rows(&pages) {
        let example = row.cell("Example").unwrap_or_default();
        assert!(
            example.split([' ', '`']).any(|token| token == name),
            "{name}"
        );
    }
}

/// The errors of a name's row, in the row's order.
fn errors_of(row: &Row) -> Vec<&str> {
    match row.cell("Errors, in order") {
        Some("none") => Vec::new(),
        Some(errors) => errors.split(", ").collect(),
        None => panic!("{}: no errors", row.place),
    }
}

/// What the corpus, the pages and the scripts show: a command with its error.
fn shown_errors() -> BTreeSet<(String, String)> {
    let mut cases = read_all().expect("the corpus can be read");
    cases.extend(examples());
    let mut shown = BTreeSet::new();
    for case in cases {
        let text = String::from_utf8_lossy(&case.gives).into_owned();
        let line = |key: &str| text.lines().rev().find_map(|line| line.strip_prefix(key));
        if let (Some(error), Some(command)) = (line("error="), line("command=")) {
            shown.insert((command.to_string(), error.to_string()));
        }
    }
    shown
}

#[test]
fn errors_stand_in_the_papers_order_and_are_those_of_the_corpus() {
    let pages = pages();
    let shown = shown_errors();
    for (name, row) in named_rows(&pages) {
        let errors = errors_of(row);
        let ranks: Vec<Option<usize>> = errors
            .iter()
            .map(|error| ORDER.iter().position(|other| other == error))
            .collect();
        assert!(ranks.iter().all(Option::is_some), "{name}: {errors:?}");
        assert!(ranks.is_sorted(), "{name}: {errors:?}");
        // `[` is another name of mark. Every name needs an execution slot, also those that list no execstackoverflow.
        let command = if name == "[" { "mark" } else { name };
        let told = |error: &str| {
            errors
                .iter()
                .any(|listed| listed.strip_suffix(" of items").unwrap_or(listed) == error)
        };
        for error in ORDER {
            let pair = (command.to_string(), error.to_string());
            match (told(error), shown.contains(&pair)) {
                (true, false) => panic!("{name}: no case gives {error}"),
                (false, true) => assert_eq!(error, "execstackoverflow", "{name}"),
                _ => {}
            }
        }
    }
}

/// The glossary has a row for each error and each fault of a token, and an example ends with each.
#[test]
fn the_glossary_has_every_error() {
    let pages = pages();
    let rows = pages.iter().flat_map(|page| &page.rows);
    let mut listed: Vec<&str> = rows
        .filter_map(|row| row.cell("Error"))
        .flat_map(spans)
        .collect();
    listed.sort();
    listed.dedup();
    let mut names = error::NAMES;
    names.sort();
    assert_eq!(listed, names);
    let examples = examples();
    for name in names {
        let ends = |case: &Case| {
            let text = String::from_utf8_lossy(&case.gives).into_owned();
            text.lines()
                .any(|line| line.strip_prefix("error=") == Some(name))
        };
        assert!(examples.iter().any(ends), "no example ends with {name}");
    }
}

/// What the comparison accepts, and what it does not.
#[test]
fn a_page_may_leave_lines_out_but_tell_nothing_else() {
    let finished = "7\nending=finished\nerror=none\ncommand=\nat=9\nwhere=\nsteps=3\n";
    for shown in ["7\n", "7\nsteps=3\n", "7\nerror=none\nat=9\n", finished] {
        assert!(tells(shown, finished), "{shown}");
    }
    for shown in [
        "",
        "8\n",
        "7\n7\n",
        "7\nsteps=4\n",
        "7\nat=9\nerror=none\n",
        "steps=3\n",
        "7",
    ] {
        assert!(!tells(shown, finished), "{shown}");
    }
    let failed = "ending=error\nerror=typecheck\ncommand=add\nat=9\nwhere=\nsteps=3\n";
    assert!(tells("error=typecheck\nat=9\n", failed));
    for shown in [
        "",
        "at=9\n",
        "error=rangecheck\n",
        "error=typecheck\ncommand=\n",
    ] {
        assert!(!tells(shown, failed), "{shown}");
    }
    assert!(tells("refused=2\n", "refused=2\n") && !tells("refused=1\n", "refused=2\n"));
}
