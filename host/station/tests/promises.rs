//! The pages that map the repository name what is there: each file, statement, test and wrong program; no wrong program is left out.

use std::collections::BTreeSet;
use std::fs;
use std::path::{Path, PathBuf};

/// The pages whose names are looked up.
const PAGES: [&str; 3] = [
    "docs/PROMISES.md",
    "docs/WRONG-PROGRAMS.md",
    "docs/ADDING-A-CALL.md",
];

/// The page with a row for each wrong program.
const WRONG_PROGRAMS: &str = PAGES[1];

/// Pages whose links are followed besides.
const LINKING: [&str; 2] = ["README.md", "docs/ARCHITECTURE.md"];

/// Words that may stand before the name that a line defines.
const KEYWORDS: &str =
    "abbrev unfoldable pub pub(crate) record data extern \"C\" fn const struct enum";

/// The repository's folder.
fn repository() -> PathBuf {
    Path::new(env!("CARGO_MANIFEST_DIR")).join("../..")
}

/// The text of a page.
fn page(name: &str) -> String {
    let text = fs::read_to_string(repository().join(name));
    text.unwrap_or_else(|error| panic!("{name}: {error}"))
}

/// The files below a folder, but for what is built there.
fn files_below(folder: &Path, found: &mut Vec<PathBuf>) {
    for entry in fs::read_dir(folder).expect("a folder") {
        let path = entry.expect("an entry").path();
        if !path.is_dir() {
            found.push(path);
        } else if !["target", "out"].iter().any(|built| path.ends_with(built)) {
            files_below(&path, found);
        }
    }
}

/// A file of the proved code or of the host programs.
struct Source {
    /// Its path in the repository.
    path: String,
    text: String,
}

impl Source {
    /// Whether a line of the file starts with this name, behind keywords: whether it is defined there.
    fn defines(&self, name: &str) -> bool {
        self.text.lines().any(|line| {
            let mut words = line.split_whitespace();
            let is_keyword = |word: &str| KEYWORDS.split(' ').any(|keyword| keyword == word);
            let head = words.find(|word| !is_keyword(word)).unwrap_or("");
            head.split(['(', '<', ':', '{']).next() == Some(name)
        })
    }

    /// Whether a name is the path or the end of it, with or without the file's ending.
    fn is_named(&self, name: &str) -> bool {
        let endings = ["", ".antt", ".rt", ".rs"].into_iter();
        let rests = endings.filter_map(|ending| self.path.strip_suffix(ending)?.strip_suffix(name));
        rests
            .into_iter()
            .any(|rest| rest.is_empty() || rest.ends_with('/'))
    }
}

/// The files of the proved code and of the host programs, and what builds them, without this one.
fn sources() -> Vec<Source> {
    let (root, mut found) = (repository(), vec![]);
    for folder in ["crates", "host", "examples", "include"] {
        files_below(&root.join(folder), &mut found);
    }
    found.extend(["Makefile", "crates.txt"].map(|file| root.join(file)));
    found.retain(|path| !path.ends_with("host/station/tests/promises.rs"));
    let source = |path: PathBuf| {
        let text = fs::read(&path).expect("a file");
        let below = path.strip_prefix(&root).expect("a path below the root");
        Source {
            path: below.to_string_lossy().into_owned(),
            text: String::from_utf8_lossy(&text).into_owned(),
        }
    };
    found.into_iter().map(source).collect()
}

/// The must-fail edits, each as crate/edit.
fn edits(sources: &[Source]) -> BTreeSet<String> {
    let name = |source: &Source| {
        let edit = source.path.strip_prefix("crates/")?.strip_suffix(".edit")?;
        Some(edit.replace("/must-fail/", "/"))
    };
    sources.iter().filter_map(name).collect()
}

/// The words of a text: letters, digits, `_` and `-`.
fn words(text: &str) -> impl Iterator<Item = &str> {
    text.split(|c: char| !(c.is_alphanumeric() || c == '_' || c == '-'))
}

/// What stands between backquotes, each with what stands before it.
fn quoted(text: &str) -> Vec<(&str, &str)> {
    let pieces: Vec<&str> = text.split('`').collect();
    pieces.chunks_exact(2).map(|two| (two[0], two[1])).collect()
}

/// The statements of a text, each with its file: what follows a file and a colon, one or more by commas.
fn statements(text: &str) -> Vec<(&str, &str)> {
    let (mut found, mut file, mut last) = (vec![], None, "");
    for (before, name) in quoted(text) {
        file = match before {
            ": " => Some(last),
            ", " => file,
            _ => None,
        };
        found.extend(file.map(|file| (file, name)));
        last = name;
    }
    found
}

/// Nothing, or a byte in hexadecimal.
fn is_byte(word: &str) -> bool {
    word.is_empty() || word.len() == 2 && u8::from_str_radix(word, 16).is_ok()
}

/// Whether a name is a command.
fn is_command(name: &str) -> bool {
    let program = name.split(' ').next();
    ["make", "cargo", "rt", "git"].map(Some).contains(&program)
}

/// Whether a file whose path starts with one of the folders defines the name; none where there is no such file.
fn defined_below(sources: &[Source], folders: &[String], name: &str) -> Option<bool> {
    let below = |source: &&Source| folders.iter().any(|folder| source.path.starts_with(folder));
    let mut files = sources.iter().filter(below).peekable();
    files.peek()?;
    Some(files.any(|source| source.defines(name)))
}

/// Whether a function is there that is written crate::function; none where the name is not so written.
fn function_is_there(sources: &[Source], name: &str) -> Option<bool> {
    let (krate, function) = name.split_once("::")?;
    let folders = ["crates", "host"].map(|folder| format!("{folder}/{krate}/src/"));
    defined_below(sources, &folders, function)
}

/// What a name in backquotes lacks, if it lacks anything.
fn lack(sources: &[Source], there: &BTreeSet<&str>, name: &str) -> Option<String> {
    if repository().join(name).exists() || is_command(name) {
        return None;
    }
    if function_is_there(sources, name) == Some(false) {
        return Some(format!("no such function: {name}"));
    }
    if name.contains('/') && !sources.iter().any(|source| source.is_named(name)) {
        return Some(format!("no such file or edit: {name}"));
    }
    let is_missing = |word: &&str| !is_byte(word) && !there.contains(word);
    let word = words(name).find(is_missing)?;
    Some(format!("nothing is named {word}: {name}"))
}

/// The edit whose row a line is.
fn edit_of(line: &str) -> Option<&str> {
    Some(line.strip_prefix("| `")?.split_once('`')?.0)
}

/// What is wrong with the row of an edit below a heading, if anything is.
fn fault_of_row(sources: &[Source], heading: &str, edit: &str, line: &str) -> Option<String> {
    if edit.split('/').next() != Some(heading) {
        return Some(format!("{edit} below {heading}"));
    }
    let row: Vec<&str> = line.trim_matches('|').split('|').map(str::trim).collect();
    if row.len() != 4 || row.contains(&"") {
        return Some(format!("not four cells with something in them: {edit}"));
    }
    let folder = [format!("crates/{heading}/")];
    let is_missing = |name: &&str| defined_below(sources, &folder, name) != Some(true);
    let names = quoted(row[2]).into_iter().map(|(_, name)| name);
    let missing = names.filter(|name| !name.contains('/')).find(is_missing)?;
    Some(format!(
        "{edit} is not refused by {missing}, which {heading} has not"
    ))
}

/// A heading as the end of a link.
fn anchor(heading: &str) -> String {
    let kept = |c: &char| c.is_alphanumeric() || [' ', '-', '_'].contains(c);
    let title = heading.trim_start_matches('#').trim().to_lowercase();
    let title: String = title.chars().filter(kept).collect();
    title.replace(' ', "-")
}

/// Whether a link on a page leads to a page, and to a heading of it where it names one.
fn leads_there(from: &str, target: &str) -> bool {
    let (file, wanted) = target.split_once('#').unwrap_or((target, ""));
    let path = match file {
        "" => repository().join(from),
        file => repository().join(from).with_file_name(file),
    };
    let linked = fs::read_to_string(path).unwrap_or_default();
    let mut headings = linked.lines().filter(|line| line.starts_with('#'));
    !linked.is_empty() && (wanted.is_empty() || headings.any(|line| anchor(line) == wanted))
}

/// Demands that there is no fault, and else tells all.
fn none(faults: Vec<String>) {
    assert!(faults.is_empty(), "\n{}", faults.join("\n"));
}

/// Each edit has one row, below the heading of its crate: what is wrong, what of the crate refuses it, and the rule.
#[test]
fn every_edit_has_its_row() {
    let (sources, text) = (sources(), page(WRONG_PROGRAMS));
    let (mut without, mut heading, mut faults) = (edits(&sources), "", vec![]);
    for line in text.lines() {
        heading = line.strip_prefix("## ").unwrap_or(heading);
        let Some(edit) = edit_of(line) else { continue };
        if !without.remove(edit) {
            faults.push(format!("no such edit, or a second row: {edit}"));
        }
        faults.extend(fault_of_row(&sources, heading, edit, line));
    }
    faults.extend(without.iter().map(|edit| format!("no row: {edit}")));
    none(faults);
}

/// Each name in backquotes is a path, the end of one, an edit, a command, a function of a crate, or made of words that are there.
#[test]
fn every_name_is_there() {
    let (sources, texts) = (sources(), PAGES.map(page));
    let edits = edits(&sources);
    let all = sources.iter().flat_map(|s| [&s.path, &s.text]);
    let there: BTreeSet<&str> = all.flat_map(|text| words(text)).collect();
    let names = texts.iter().flat_map(|text| quoted(text));
    let names: BTreeSet<&str> = names.map(|(_, name)| name).collect();
    let others = names.into_iter().filter(|&name| !edits.contains(name));
    none(
        others
            .filter_map(|name| lack(&sources, &there, name))
            .collect(),
    );
}

/// Each statement that is named with its file is defined there.
#[test]
fn every_statement_is_in_its_file() {
    let sources = sources();
    let is_there = |&(file, name): &(&str, &str)| {
        let mut files = sources.iter().filter(|source| source.is_named(file));
        files.any(|source| source.defines(name))
    };
    let texts = PAGES.map(page).map(|text| text.replace('\n', " "));
    let named: BTreeSet<_> = texts.iter().flat_map(|text| statements(text)).collect();
    let missing = named.into_iter().filter(|named| !is_there(named));
    none(
        missing
            .map(|(file, name)| format!("{file} has no {name}"))
            .collect(),
    );
}

/// No public function of the proved code has a `requires`, so that each takes all input.
#[test]
fn no_public_function_requires() {
    let (sources, mut faults) = (sources(), vec![]);
    for source in sources.iter().filter(|source| source.path.ends_with(".rt")) {
        let mut function = "";
        for line in source.text.lines().map(str::trim_start) {
            if ["fn ", "pub fn ", "pub(crate) fn ", "pub extern "]
                .iter()
                .any(|start| line.starts_with(start))
            {
                function = line;
            }
            if function.starts_with("pub ") && line.starts_with("requires") {
                faults.push(format!("{}: {function}", source.path));
            }
        }
    }
    none(faults);
}

/// Each link to another page or to a heading leads there.
#[test]
fn every_link_leads_there() {
    let mut faults = vec![];
    for from in PAGES.into_iter().chain(LINKING) {
        let text = page(from);
        let ends = text.split("](").skip(1);
        let targets = ends.filter_map(|rest| rest.split(')').next());
        let lost = targets.filter(|target| !target.contains("://") && !leads_there(from, target));
        faults.extend(lost.map(|target| format!("{from} links to {target}")));
    }
    none(faults);
}
