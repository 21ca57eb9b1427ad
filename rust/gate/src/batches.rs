//! Whether the edits of a file may share a check, before anything is proved.
//!
//! The proof of a function rests on the contracts of what it calls and on no body but its own. So edits of the bodies of different functions do not touch each
//! other's proof, and each of them is judged by the errors of its own function (edits.rs). What changes more than one body, as a contract, a constant or a
//! definition does, has a check of its own. So has an edit of one of several functions that call each other: they are proved together.
//!
//! Held here, of every edit:
//! - An edit of the body of one function that is proved by itself names that function; an edit of anything else names none.
//! - In a file with several edits each has a label and names its function, and these functions differ.
//! - Two files whose edits are all of different functions are one file, unless an edit says why it is alone.
//! - A label stands once in a crate.

use std::collections::{BTreeMap, BTreeSet};
use std::path::Path;

use crate::edit::{self, Edit, Texts};
use crate::functions;
use crate::Findings;

/// Judges how the edits of the tree are put together.
pub fn judge_all(root: &Path) -> Findings {
    let mut findings = Findings::default();
    let edits = edit::all(root);
    let mut crates: BTreeMap<&str, BTreeMap<&str, Vec<&Edit>>> = BTreeMap::new();
    for edit in &edits {
        let files = crates.entry(&edit.krate).or_default();
        files.entry(&edit.file).or_default().push(edit);
        let named = names_its_function(root, edit);
        findings.count(named.map_err(|why| format!("{edit}: {why}")));
    }
    let mut checks = 0;
    for (krate, files) in &crates {
        checks += files.len();
        for (file, edits) in files {
            let may = may_share(edits);
            findings.count(may.map_err(|why| format!("{krate}/must-fail/{file}.edit: {why}")));
        }
        for why in repeated(files).into_iter().chain(could_share(files)) {
            findings.count(Err(format!("{krate}/must-fail: {why}")));
        }
    }
    let all = format!("{} edits, {checks} checks", edits.len());
    findings.lines.push(all);
    findings
}

/// Whether an edit names the function that it makes wrong, where this is one that is proved by itself, and no other.
fn names_its_function(root: &Path, edit: &Edit) -> Result<(), String> {
    let edited = edited_function(root, edit)?;
    match (&edit.function, edited) {
        (Some(named), Some(found)) if *named == found => Ok(()),
        (None, None) => Ok(()),
        (_, Some(found)) => Err(format!("it needs the line '# function: {found}'")),
        (Some(named), None) => Err(format!(
            "it names {named}, and is not an edit of that body alone, or the function is in a cycle"
        )),
    }
}

/// The function in whose body all of an edit lies, if there is one and it is proved by itself.
fn edited_function(root: &Path, edit: &Edit) -> Result<Option<String>, String> {
    let folder = root.join("crates").join(&edit.krate);
    let mut texts = Texts::new();
    let mut found = BTreeSet::new();
    for change in &edit.replacements {
        let (place, text) = change.make(&folder, &mut texts)?;
        let functions = functions::of_source(&change.file, &text).into_iter();
        let mut around = functions.filter(|f| f.body.start < place.start && place.end < f.body.end);
        let around = around.next().filter(|function| function.cycle.is_none());
        found.insert(around.map(|function| function.path));
    }
    let mut found = found.into_iter();
    match (found.next(), found.next()) {
        (Some(function), None) => Ok(function),
        _ => Ok(None),
    }
}

/// Whether the edits of one file may share its check.
fn may_share(edits: &[&Edit]) -> Result<(), String> {
    if edits.iter().any(|edit| edit.replacements.is_empty()) {
        return Err("an edit replaces nothing".to_string());
    }
    if edits.len() == 1 {
        return Ok(());
    }
    let mut functions = BTreeSet::new();
    for edit in edits {
        let label = &edit.label;
        match &edit.function {
            None => {
                return Err(format!(
                    "{label} is of no single function, so it has to be alone"
                ))
            }
            Some(_) if edit.alone => return Err(format!("{label} is not alone")),
            Some(name) if !functions.insert(name) => {
                return Err(format!("{label} is the second edit of {name}"))
            }
            Some(_) => {}
        }
    }
    Ok(())
}

/// The labels that stand more than once in a crate.
fn repeated(files: &BTreeMap<&str, Vec<&Edit>>) -> Vec<String> {
    let mut seen = BTreeSet::new();
    let labels = files.values().flatten().map(|edit| &edit.label);
    labels
        .filter(|label| !seen.insert(*label))
        .map(|label| format!("the label {label} stands twice"))
        .collect()
}

/// The pairs of files of a crate that could be one.
fn could_share(files: &BTreeMap<&str, Vec<&Edit>>) -> Vec<String> {
    let mut found: Vec<String> = Vec::new();
    let mut before: Vec<(&str, BTreeSet<&str>)> = Vec::new();
    for (file, edits) in files {
        let functions = edits.iter().map(|edit| match edit.alone {
            true => None,
            false => edit.function.as_deref(),
        });
        let Some(functions) = functions.collect::<Option<BTreeSet<&str>>>() else {
            continue;
        };
        for (other, theirs) in &before {
            if theirs.is_disjoint(&functions) {
                found.push(format!(
                    "{other}.edit and {file}.edit are of different functions, so they are one check: put them into one file"
                ));
            }
        }
        before.push((file, functions));
    }
    found
}

#[cfg(test)]
mod tests {
    use super::*;
    use crate::tree::Sample;

    const SOURCE: &str = "\
const MOST: usize = 4;

fn put(a: usize) -> usize {
    a + MOST
}

fn take(a: usize) -> usize
    ensures { result ≡ a }
{
    let b = a;
    b - 1
}

fn small(a: usize) -> usize {
    a / 2
}

#[cycle(turns)]
fn here(a: usize) -> usize {
    there(a - 3)
}
";

    fn findings(edits: &[(&str, &str)]) -> Findings {
        let edits: Vec<(String, &str)> = edits
            .iter()
            .map(|(name, text)| (format!("crates/list/must-fail/{name}.edit"), *text))
            .collect();
        let mut files = vec![
            ("crates/list/src/lib.rt", SOURCE),
            ("crates/list/specs/List.antt", "most = 4\n"),
            ("crates/list/proofs/put/Answers.antt", ""),
        ];
        files.extend(edits.iter().map(|(path, text)| (&path[..], *text)));
        judge_all(Sample::of(&files).root())
    }

    const PUT: &str = "# edit: sum\n# function: put\nfile: src/lib.rt\nold: a + MOST\nnew: a + 3\n";
    const TAKE: &str = "# edit: less\n# function: take\nfile: src/lib.rt\nold: b - 1\nnew: b - 2\n";

    #[test]
    fn edits_of_two_functions_share_a_file() {
        let both = format!("{PUT}\n{TAKE}");
        let findings = findings(&[("batch", &both)]);
        assert_eq!(findings.lines, ["2 edits, 1 checks"]);
        assert_eq!((findings.passed, findings.failed), (3, 0));
    }

    #[test]
    fn what_is_of_no_single_function_is_alone_and_names_none() {
        let of =
            |file: &str, old: &str, new: &str| format!("file: {file}\nold: {old}\nnew: {new}\n");
        let constant = of("src/lib.rt", "usize = 4", "usize = 5");
        let contract = of("src/lib.rt", "result ≡ a", "result ≡ b");
        let definition = of("specs/List.antt", "4", "5");
        let together = of("src/lib.rt", "a - 3", "a - 4");
        let two = of("src/lib.rt", "a + MOST\nold: x\nnew: y", "");
        let two = two.replace("old: x\nnew: y", "new: a\nold: b - 1");
        let all = [
            ("constant", &constant[..]),
            ("contract", &contract),
            ("definition", &definition),
            ("together", &together),
            ("two", &two),
        ];
        let findings = findings(&all);
        assert_eq!(findings.lines, ["5 edits, 5 checks"]);
        assert_eq!((findings.passed, findings.failed), (10, 0));
    }

    #[test]
    fn a_function_is_named_where_it_is_made_wrong() {
        let unnamed = PUT.replace("# function: put\n", "");
        let other = TAKE.replace("take", "put");
        let here = "# function: here\nfile: src/lib.rt\nold: a - 3\nnew: a - 4\n";
        let small = "file: src/lib.rt\nold: a / 2\nnew: a / 3\n";
        let contract = "# function: take\nfile: src/lib.rt\nold: result ≡ a\nnew: result ≡ b\n";
        let gone = "file: src/lib.rt\nold: a + LEAST\nnew: a\n";
        let twice = "file: src/lib.rt\nold: -> usize\nnew: -> u8\n";
        let all = [
            ("a", &unnamed[..]),
            ("b", &other),
            ("c", here),
            ("d", contract),
            ("e", gone),
            ("f", twice),
            ("g", small),
        ];
        let findings = findings(&all);
        assert_eq!(
            findings.lines,
            [
                "list/sum: it needs the line '# function: put'",
                "list/less: it needs the line '# function: take'",
                "list/c: it names here, and is not an edit of that body alone, or the function is in a cycle",
                "list/d: it names take, and is not an edit of that body alone, or the function is in a cycle",
                "list/e: 'a + LEAST' does not stand once in src/lib.rt",
                "list/f: '-> usize' does not stand once in src/lib.rt",
                "list/g: it needs the line '# function: small'",
                "list/must-fail: b.edit and c.edit are of different functions, so they are one check: put them into one file",
                "list/must-fail: b.edit and d.edit are of different functions, so they are one check: put them into one file",
                "list/must-fail: c.edit and d.edit are of different functions, so they are one check: put them into one file",
                "7 edits, 7 checks",
            ]
        );
    }

    #[test]
    fn edits_that_may_not_share() {
        let second = PUT.replace("sum", "again").replace("a + 3", "a + 2");
        let constant = "# edit: most\nfile: src/lib.rt\nold: usize = 4\nnew: usize = 5\n";
        let of = |texts: &[&str]| texts.concat();
        let cases = [
            (of(&[PUT, &second]), "again is the second edit of put"),
            (
                of(&[PUT, constant]),
                "most is of no single function, so it has to be alone",
            ),
            (
                of(&[PUT, "# edit: none\n# function: take\n"]),
                "an edit replaces nothing",
            ),
            (
                of(&[PUT, &format!("{TAKE}# alone: it calls put\n")]),
                "less is not alone",
            ),
        ];
        for (text, why) in &cases {
            let findings = findings(&[("batch", text)]);
            let line = format!("list/must-fail/batch.edit: {why}");
            assert!(findings.lines.contains(&line), "{:?}", findings.lines);
        }
    }

    #[test]
    fn files_that_could_be_one() {
        let apart = [("one", PUT), ("two", TAKE)];
        let line = "list/must-fail: one.edit and two.edit are of different functions, so they are one check: put them into one file";
        let found = findings(&apart);
        assert_eq!(found.lines, [line, "2 edits, 2 checks"]);
        // with a reason they stay apart
        let alone = format!("# alone: take calls put\n{TAKE}");
        let alone = alone.replacen(
            "# alone: take calls put\n# edit: less\n",
            "# edit: less\n# alone: take calls put\n",
            1,
        );
        let found = findings(&[("one", PUT), ("two", &alone)]);
        assert_eq!(found.lines, ["2 edits, 2 checks"]);
        // and so do two edits of one function
        let second = PUT.replace("sum", "again").replace("a + 3", "a + 2");
        let found = findings(&[("one", PUT), ("two", &second)]);
        assert_eq!(found.lines, ["2 edits, 2 checks"]);
    }

    #[test]
    fn a_label_stands_once() {
        let found = findings(&[("one", PUT), ("two", PUT)]);
        assert!(found
            .lines
            .contains(&"list/must-fail: the label sum stands twice".to_string()));
    }
}
