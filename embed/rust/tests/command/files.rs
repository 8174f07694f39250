//! What names the operators beside the library: each predefined name is bound, and the editors' files have them all and no other. And what names the options:
//! the manual page has those of `--help`.

use std::collections::BTreeSet;
use std::fs;

use floo::{Runner, Sizes, NAMES};

use crate::{floo, Folder};

fn read(path: &str) -> String {
    let path = format!("{}/../../{path}", env!("CARGO_MANIFEST_DIR"));
    fs::read_to_string(&path).unwrap_or_else(|error| panic!("{path}: {error}"))
}

#[test]
fn the_predefined_names() {
    let mut runner = Runner::new(Sizes::default());
    let different: BTreeSet<&str> = NAMES.into_iter().collect();
    assert_eq!(different.len(), floo::PREDEFINED_NAMES);
    for name in NAMES {
        // brackets are no literal names
        let text = match name {
            "[" | "]" => format!("#FLOO\n\"{name}\" cvn load"),
            _ => format!("#FLOO\n/{name} load"),
        };
        let report = runner.run(text.as_bytes(), 100).unwrap();
        assert_eq!(report.error(), None, "{name}");
    }
}

/// Words of the lines between two marks.
fn words(text: &str, from: &str, to: &str) -> BTreeSet<String> {
    let (_, rest) = text.split_once(from).expect("the mark is there");
    let (part, _) = rest.split_once(to).expect("the second mark is there");
    let word = |c: char| c.is_ascii_alphabetic();
    part.split(|c| !word(c))
        .filter(|word| !word.is_empty())
        .map(str::to_owned)
        .collect()
}

#[test]
fn the_editors_know_the_names() {
    let expected: BTreeSet<String> = NAMES
        .into_iter()
        .filter(|name| !matches!(*name, "[" | "]"))
        .map(str::to_owned)
        .collect();
    let vim = read("editors/vim/syntax/floo.vim");
    let vim: BTreeSet<String> = vim
        .lines()
        .filter_map(|line| line.strip_prefix("syn keyword floo"))
        .flat_map(|line| {
            line.split_whitespace()
                .skip(1)
                .map(str::to_owned)
                .collect::<Vec<_>>()
        })
        .collect();
    assert_eq!(vim, expected);
    let grammar = read("editors/vscode/syntaxes/floo.tmLanguage.json");
    let code: BTreeSet<String> = ["operators", "constants"]
        .into_iter()
        .flat_map(|name| {
            words(
                &grammar,
                &format!("\"{name}\": {{ \"match\": \"(?<![!$-.0-Z\\\\\\\\^-z|~/])("),
                ")",
            )
        })
        .collect();
    assert_eq!(code, expected);
}

/// The README's first screen: the script, what it prints, and what is said of a slip in it.
#[test]
fn the_readme_shows_what_is_printed() {
    let (readme, text) = (read("README.md"), read("examples/place.floo"));
    let slip = text.replace("length", "lenght");
    let folder = Folder::new();
    for (script, status) in [(&text, 0), (&slip, 1)] {
        folder.put("place.floo", script.as_bytes());
        let said = floo(&folder, &["place.floo"]);
        assert_eq!(said.status, status);
        let shown = format!("$ floo place.floo\n{}{}", said.output, said.errors);
        let indented: String = shown.lines().map(|line| format!("    {line}\n")).collect();
        assert!(readme.contains(&indented), "{indented}");
    }
    let indented: String = text.lines().map(|line| format!("    {line}\n")).collect();
    assert!(readme.contains(&indented));
}

#[test]
fn the_manual_page_has_the_options() {
    let help = floo(&Folder::new(), &["--help"]).output;
    let page = read("docs/floo.1").replace("\\-", "-");
    let options: BTreeSet<&str> = help
        .split(|c: char| !(c.is_ascii_lowercase() || c == '-'))
        .filter(|word| word.starts_with("--"))
        .collect();
    assert_eq!(options.len(), 14);
    for option in options {
        assert!(page.contains(option), "{option}");
    }
}
