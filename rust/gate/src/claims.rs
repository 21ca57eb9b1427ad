//! Whether what docs/CLAIMS.md names is there.
//!
//! Looked up is every word between back quotes in a table of the document, that is, in a line that begins with a bar. The forms:
//!
//! | Word | Stands for |
//! |---|---|
//! | `crate::item` | a function, type or constant of crates/CRATE/src, or of rust/CRATE/src; `crate::Type::method` too |
//! | `crate/label` | the must-fail edit of this label in crates/CRATE/must-fail |
//! | `crate/specs/File`, `crate/proofs/File`, each also with `.name` | a file of a crate, and a name that it declares |
//! | `specs/File`, `proofs/File` | the file of each crate that the cell has named |
//! | `File.name`, `File.Record.field` | a name that File.antt declares, in crates/model/specs, crates/theory/proofs or crates/theory/specs |
//! | `Record.field` | a record of one of these files, and its field |
//! | `file.rs`, `folder/file.h` | a file, by its name, or by its path from the top of the repository |
//! | `test`, `file::test` | a test of a file below rust/, or a function of a C test below tests/ |
//! | `File`, `crate` | a file of the model or the theory, a crate |
//! | `name` | a name that is declared by one of the files or crates that the cell has named before, or, where it has named none, the row |
//!
//! A word that has a space or begins with a bracket is a piece of a text and is not looked up. A link to a section, `[..](FILE.md#section)`,
//! needs the file and a heading of that name. And every must-fail edit of the tree has to stand in some table.

use std::collections::{BTreeMap, BTreeSet};
use std::path::{Path, PathBuf};

use crate::edit;
use crate::names::{self, Names};
use crate::tree::{self, files, files_below, stem};
use crate::Findings;

const DOCUMENT: &str = "docs/CLAIMS.md";

/// Looks up all that the document names.
pub fn resolve_all(root: &Path) -> Findings {
    let mut findings = Findings::default();
    let Some(text) = tree::read(&root.join(DOCUMENT)) else {
        findings.count(Err(format!("{DOCUMENT} is missing")));
        return findings;
    };
    let index = Index::of(root);
    let mut named = BTreeSet::new();
    for (number, line) in text.lines().enumerate() {
        let mut row = Scope::default();
        for cell in cells(line) {
            let mut scope = Scope::default();
            for word in quoted(cell) {
                named.insert(word.to_string());
                let found = index.resolve(word, &mut scope);
                let found = found.or_else(|why| match scope.is_empty() {
                    true if index.is_in(word, &row) => Ok(()),
                    _ => Err(why),
                });
                let line = |why| format!("{DOCUMENT}:{}: `{word}`: {why}", number + 1);
                findings.count(found.map_err(line));
            }
            for link in links(cell) {
                let found = follow(root, link);
                let line = |why| format!("{DOCUMENT}:{}: {link}: {why}", number + 1);
                findings.count(found.map_err(line));
            }
            row.files.append(&mut scope.files);
            row.crates.append(&mut scope.crates);
        }
    }
    for edit in &index.edits {
        let none = || format!("{DOCUMENT}: the edit {edit} has no row");
        findings.count(named.contains(edit).then_some(()).ok_or_else(none));
    }
    findings
}

/// The cells of a table row; none for another line.
fn cells(line: &str) -> Vec<&str> {
    match line.trim().strip_prefix('|') {
        Some(row) => row.split('|').collect(),
        None => Vec::new(),
    }
}

/// The words between back quotes that are looked up.
fn quoted(cell: &str) -> Vec<&str> {
    let words = cell.split('`').skip(1).step_by(2);
    let text = |word: &&str| word.is_empty() || word.contains(' ') || word.starts_with('(');
    words.filter(|word| !text(word)).collect()
}

/// The targets of the links of a cell that stay in the repository.
fn links(cell: &str) -> Vec<&str> {
    let ends = cell.split("](").skip(1);
    ends.filter_map(|rest| rest.split(')').next())
        .filter(|link| !link.contains("://"))
        .collect()
}

/// Whether a link of the document leads to a file, and to a heading of it.
fn follow(root: &Path, link: &str) -> Result<(), String> {
    let (file, section) = link.split_once('#').unwrap_or((link, ""));
    let path = match file {
        "" => root.join(DOCUMENT),
        file => root.join("docs").join(file),
    };
    let Some(text) = tree::read(&path) else {
        return Err("there is no such file".to_string());
    };
    let headings = text.lines().filter_map(|line| line.strip_prefix('#'));
    let has = headings
        .map(|line| anchor(line.trim_start_matches('#')))
        .any(|anchor| anchor == section);
    match has || section.is_empty() {
        true => Ok(()),
        false => Err("the file has no such heading".to_string()),
    }
}

/// The name of a heading in links.
fn anchor(heading: &str) -> String {
    let lower = heading.trim().to_lowercase();
    let kept = lower.chars().filter(|&letter| {
        letter.is_alphanumeric() || letter == ' ' || letter == '-' || letter == '_'
    });
    kept.map(|letter| if letter == ' ' { '-' } else { letter })
        .collect()
}

/// What a cell has named so far.
#[derive(Default)]
struct Scope {
    /// Files of the model and the theory, and of crates.
    files: Vec<PathBuf>,
    crates: Vec<String>,
}

impl Scope {
    fn is_empty(&self) -> bool {
        self.files.is_empty() && self.crates.is_empty()
    }
}

/// What the tree has.
struct Index {
    root: PathBuf,
    /// The .antt files of the model and the theory, by name.
    definitions: BTreeMap<String, Vec<PathBuf>>,
    /// The items of each crate of crates/, and of rust/.
    sources: BTreeMap<String, Names>,
    /// The tests of each file, by its name.
    tests: BTreeMap<String, Names>,
    /// The names of all files outside build folders.
    files: BTreeSet<String>,
    /// The must-fail edits, each as `crate/label`.
    edits: BTreeSet<String>,
}

impl Index {
    fn of(root: &Path) -> Self {
        let mut index = Index {
            root: root.to_path_buf(),
            definitions: BTreeMap::new(),
            sources: BTreeMap::new(),
            tests: BTreeMap::new(),
            files: BTreeSet::new(),
            edits: edit::all(root).iter().map(ToString::to_string).collect(),
        };
        for folder in [
            "crates/model/specs",
            "crates/theory/proofs",
            "crates/theory/specs",
        ] {
            for path in files(&root.join(folder), "antt") {
                index.definitions.entry(stem(&path)).or_default().push(path);
            }
        }
        for folder in ["crates", "rust"] {
            for krate in tree::entries(&root.join(folder)) {
                index.add_sources(&krate);
            }
        }
        for folder in [
            "rust", "tests", "docs", "include", "examples", "crates", ".ci",
        ] {
            for path in files_below(&root.join(folder)) {
                index.add_file(&path);
            }
        }
        index
    }

    fn add_sources(&mut self, krate: &Path) {
        let name = krate.file_name().unwrap_or_default();
        let name = name.to_string_lossy().into_owned();
        for path in files_below(&krate.join("src")) {
            let text = tree::read(&path).unwrap_or_default();
            let names = names::of_source(&text);
            self.sources.entry(name.clone()).or_default().extend(names);
        }
    }

    fn add_file(&mut self, path: &Path) {
        let name = path.file_name().unwrap_or_default();
        self.files.insert(name.to_string_lossy().into_owned());
        let end = path.extension().unwrap_or_default().to_string_lossy();
        let read = || tree::read(path).unwrap_or_default();
        let names = match &*end {
            "rs" => names::of_tests(&read()),
            "c" => names::of_c(&read()),
            _ => return,
        };
        self.tests.entry(stem(path)).or_default().extend(names);
    }

    /// Looks a word up, and adds to the scope what later words of the cell may belong to.
    fn resolve(&self, word: &str, scope: &mut Scope) -> Result<(), String> {
        if word.contains("::") {
            return self.item(word, scope);
        }
        if word.contains('/') {
            return self.path(word, scope);
        }
        if self.files.contains(word) {
            return Ok(());
        }
        if let Some((file, name)) = word.split_once('.').filter(|(file, _)| !file.is_empty()) {
            return self.definition(file, name, scope);
        }
        self.name(word, scope)
    }

    /// `crate::item`, `crate::Type::method` or `file::test`.
    fn item(&self, word: &str, scope: &mut Scope) -> Result<(), String> {
        let mut parts = word.split("::");
        let first = parts.next().unwrap_or_default();
        let rest: Vec<&str> = parts.collect();
        let has = |names: Option<&Names>| {
            names.is_some_and(|names| rest.iter().all(|part| names.contains(*part)))
        };
        if has(self.sources.get(first)) {
            scope.crates.push(first.to_string());
            return Ok(());
        }
        if has(self.tests.get(first)) {
            return Ok(());
        }
        match self.sources.contains_key(first) || self.tests.contains_key(first) {
            true => Err(format!("{first} has no {}", rest.join("::"))),
            false => Err(format!("there is no crate and no test file {first}")),
        }
    }

    /// An edit, a path, or a file of a crate with or without a name.
    fn path(&self, word: &str, scope: &mut Scope) -> Result<(), String> {
        if self.root.join(word).exists() {
            return Ok(());
        }
        let (first, rest) = word.split_once('/').unwrap_or((word, ""));
        let krate = self.root.join("crates").join(first);
        if rest.starts_with("specs/") || rest.starts_with("proofs/") {
            let (file, name) = rest.split_once('.').unwrap_or((rest, ""));
            let path = krate.join(format!("{file}.antt"));
            if !path.exists() {
                return Err("there is no such file".to_string());
            }
            let missing = || format!("the file declares no {name}");
            let has = name.is_empty() || declares(&path, name);
            scope.files.push(path);
            return has.then_some(()).ok_or_else(missing);
        }
        if (first == "specs" || first == "proofs") && !scope.crates.is_empty() {
            return self.files_of_crates(word, scope);
        }
        if self.edits.contains(word) {
            return Ok(());
        }
        Err("there is no such edit, file or folder".to_string())
    }

    /// `specs/File` or `proofs/File` of each crate that the cell has named.
    fn files_of_crates(&self, word: &str, scope: &mut Scope) -> Result<(), String> {
        for krate in &scope.crates {
            let path = format!("crates/{krate}/{word}.antt");
            let path = self.root.join(path);
            if !path.exists() {
                return Err(format!("the crate {krate} has no such file"));
            }
            scope.files.push(path);
        }
        Ok(())
    }

    /// `File.name`, `File.Record.field` or `Record.field`.
    fn definition(&self, first: &str, rest: &str, scope: &mut Scope) -> Result<(), String> {
        let parts: Vec<&str> = rest.split('.').collect();
        let all = |path: &&PathBuf| parts.iter().all(|part| declares(path, part));
        if let Some(paths) = self.definitions.get(first) {
            scope.files.extend(paths.iter().cloned());
            return match paths.iter().find(all) {
                Some(_) => Ok(()),
                None => Err(format!("{first} declares no {rest}{}", self.hint(rest))),
            };
        }
        let mut paths = self.definitions.values().flatten();
        match paths.find(|path| declares(path, first) && all(path)) {
            Some(path) => {
                scope.files.push(path.clone());
                Ok(())
            }
            None => Err("there is no such file, definition or field".to_string()),
        }
    }

    /// A name of what the cell has named, a file, a crate or a test.
    fn name(&self, word: &str, scope: &mut Scope) -> Result<(), String> {
        if self.is_in(word, scope) {
            return Ok(());
        }
        if let Some(paths) = self.definitions.get(word) {
            scope.files.extend(paths.iter().cloned());
            return Ok(());
        }
        if self.root.join("crates").join(word).is_dir() {
            scope.crates.push(word.to_string());
            return Ok(());
        }
        if self.tests.values().any(|names| names.contains(word)) {
            return Ok(());
        }
        let hint = self.hint(word);
        match scope.is_empty() {
            true => Err(format!("there is no such file, crate or test{hint}")),
            false => Err(format!(
                "nothing that the cell names before declares it{hint}"
            )),
        }
    }

    /// Whether something of a scope declares a name.
    fn is_in(&self, word: &str, scope: &Scope) -> bool {
        scope.files.iter().any(|path| declares(path, word))
            || scope.crates.iter().any(|krate| self.crate_has(krate, word))
    }

    /// Whether a crate declares a name in its sources, specs or proofs.
    fn crate_has(&self, krate: &str, name: &str) -> bool {
        let folder = self.root.join("crates").join(krate);
        let mut paths = files(&folder.join("specs"), "antt");
        paths.extend(files(&folder.join("proofs"), "antt"));
        let sources = self.sources.get(krate);
        sources.is_some_and(|names| names.contains(name))
            || paths.iter().any(|path| declares(path, name))
    }

    /// Which files of the model and the theory declare a name, for whoever mends the document.
    fn hint(&self, name: &str) -> String {
        let all = self.definitions.iter();
        let having: Vec<&str> = all
            .filter(|(_, paths)| paths.iter().any(|path| declares(path, name)))
            .map(|(stem, _)| stem.as_str())
            .collect();
        match having[..] {
            [] => String::new(),
            _ => format!("; it is in {}", having.join(", ")),
        }
    }
}

/// Whether an .antt file declares a name.
fn declares(path: &Path, name: &str) -> bool {
    tree::read(path).is_some_and(|text| names::of_antt(&text).contains(name))
}

#[cfg(test)]
mod tests {
    use super::*;
    use crate::tree::Sample;

    fn sample(table: &str) -> Sample {
        let document = format!("# Claims\n\n`not in a table`\n\n{table}");
        Sample::of(&[
            ("docs/CLAIMS.md", &document),
            ("docs/RULES.md", "# Rules\n\n## Task text: lines, words\n"),
            (
                "crates/model/specs/Text.antt",
                "pub lineOf : ℕ\nabbrev pub bytes : ℕ\n",
            ),
            (
                "crates/model/specs/Limits.antt",
                "abbrev pub mostBytes : ℕ\n",
            ),
            ("crates/model/src/lib.rt", "pub struct Limits;\n"),
            (
                "crates/theory/proofs/Text.antt",
                "pub record Read (t : Task) : Type 0 where\n  pub whole : ℕ\n",
            ),
            (
                "crates/line/src/lib.rt",
                "pub enum Found {\n    At(u32),\n}\npub fn read_line(a: u32)\n",
            ),
            ("crates/line/proofs/Laws.antt", "pub first-line : ℕ\n"),
            ("crates/line/must-fail/one_more.edit", ""),
            (
                "rust/tests/tests/rows.rs",
                "#[test]\nfn damaged_texts() {\n}\n",
            ),
            ("rust/felknost/src/lib.rs", "pub fn check(text: &[u8])\n"),
            ("tests/c/check.c", "static void limits(void)\n"),
            ("include/felknost.h", ""),
        ])
    }

    fn findings(table: &str) -> Findings {
        resolve_all(sample(table).root())
    }

    #[test]
    fn every_form_is_found() {
        let table = "\
| Sentence | Names |
|---|---|
| `(stack 5)` and `a b` are text | `Text.lineOf`, `bytes` |
| a [link](RULES.md#task-text-lines-words) | `Text.Read.whole`, `Read.whole`, `whole` |
| functions | `line::read_line` (`Found`, `first-line`), `line::Found::At`, `felknost::check` |
| edits | `line/one_more` |
| files | `crates/line`, `include/felknost.h`, `felknost.h`, `rows.rs`, `CLAIMS.md` |
| laws | `line/proofs/Laws` (`first-line`), `line/proofs/Laws.first-line` |
| laws | `line`, `proofs/Laws` |
| tests | `damaged_texts`, `rows::damaged_texts`, `limits` |
| files of the model: `Limits` | `mostBytes` |
";
        let findings = findings(table);
        assert_eq!(findings.lines, Vec::<String>::new());
        assert_eq!((findings.passed, findings.failed), (28, 0));
    }

    #[test]
    fn what_is_missing_is_told_with_its_line() {
        let table = "\
| Names |
|---|
| `Text.lineOff`, `mostBytes` |
| `line::read_lines`, `lines::read`, `first_line` |
| `line/one_less`, `line/proofs/Laws.last-line`, `line/proofs/Lawful` |
| `undamaged_texts`, `Nowhere.name` |
| [one](RULES.md#no-such), [two](NONE.md) |
";
        let findings = findings(table);
        assert_eq!(
            findings.lines,
            [
                "docs/CLAIMS.md:7: `Text.lineOff`: Text declares no lineOff",
                "docs/CLAIMS.md:7: `mostBytes`: nothing that the cell names before declares it; it is in Limits",
                "docs/CLAIMS.md:8: `line::read_lines`: line has no read_lines",
                "docs/CLAIMS.md:8: `lines::read`: there is no crate and no test file lines",
                "docs/CLAIMS.md:8: `first_line`: there is no such file, crate or test",
                "docs/CLAIMS.md:9: `line/one_less`: there is no such edit, file or folder",
                "docs/CLAIMS.md:9: `line/proofs/Laws.last-line`: the file declares no last-line",
                "docs/CLAIMS.md:9: `line/proofs/Lawful`: there is no such file",
                "docs/CLAIMS.md:10: `undamaged_texts`: there is no such file, crate or test",
                "docs/CLAIMS.md:10: `Nowhere.name`: there is no such file, definition or field",
                "docs/CLAIMS.md:11: RULES.md#no-such: the file has no such heading",
                "docs/CLAIMS.md:11: NONE.md: there is no such file",
                "docs/CLAIMS.md: the edit line/one_more has no row",
            ]
        );
        assert_eq!((findings.passed, findings.failed), (0, 13));
    }

    #[test]
    fn a_missing_document_fails() {
        let sample = Sample::of(&[("crates/line/must-fail/one.edit", "")]);
        let findings = resolve_all(sample.root());
        assert_eq!((findings.passed, findings.failed), (0, 1));
    }
}
