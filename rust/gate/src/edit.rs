//! Must-fail edits, as the files crates/CRATE/must-fail/*.edit have them.
//!
//! An edit is one wrong program: one or more replacements of a text, with a label. `rt` applies all replacements of a file to one copy of the crate and checks
//! it once, so the edits of a file share a check. This tool does so too (tries.rs). The lines that it reads beside those of `rt`:
//!
//! | Line | Says |
//! |---|---|
//! | `# edit: LABEL` | here begins the edit of this label; a file without such a line has one edit, with the file's name as its label |
//! | `# function: PATH` | the function that the edit makes wrong: `reserve`, `Machine::reserve`, or `calls::mark` of src/calls.rt |
//! | `# alone: WHY` | why the edit shares no check with the edits of other functions |

use std::collections::BTreeMap;
use std::ops::Range;
use std::path::Path;

use crate::tree;

/// The files of a function's proof, in its folder.
pub const PROOFS: &[&str] = &["Answers.antt", "Invariants.antt", "Proof.antt"];

/// A must-fail edit.
#[derive(Clone, Debug, Default, PartialEq, Eq)]
pub struct Edit {
    pub krate: String,
    pub label: String,
    /// The file that holds it, without `.edit`. This is what `rt` calls the check.
    pub file: String,
    pub function: Option<String>,
    pub alone: bool,
    pub replacements: Vec<Replacement>,
}

/// A text of a file of the crate that stands there once, and what it becomes.
#[derive(Clone, Debug, PartialEq, Eq)]
pub struct Replacement {
    pub file: String,
    pub old: String,
    pub new: String,
}

impl std::fmt::Display for Edit {
    fn fmt(&self, out: &mut std::fmt::Formatter) -> std::fmt::Result {
        write!(out, "{}/{}", self.krate, self.label)
    }
}

/// The files of a crate that replacements change, by their path in the crate, as they are so far.
pub type Texts = BTreeMap<String, String>;

impl Replacement {
    /// Makes it in what those before it left, as `rt` does. Returns where its old text stood, and the text of the file before it.
    pub fn make(&self, krate: &Path, texts: &mut Texts) -> Result<(Range<usize>, String), String> {
        let read = || tree::read(&krate.join(&self.file)).unwrap_or_default();
        let text = texts.entry(self.file.clone()).or_insert_with(read);
        let mut places = text.match_indices(&self.old);
        let (Some((start, _)), None) = (places.next(), places.next()) else {
            let file = &self.file;
            return Err(format!("'{}' does not stand once in {file}", self.old));
        };
        let place = start..start + self.old.len();
        let before = text.clone();
        text.replace_range(place.clone(), &self.new);
        Ok((place, before))
    }
}

/// Where the proof of a function is, in the folder of its crate.
pub fn proof_folder(function: &str) -> String {
    format!("proofs/{}", function.replace("::", "/"))
}

/// Whether this is a file of the proof of a function.
pub fn is_proof_of(file: &str, function: &str) -> bool {
    let Some((folder, name)) = file.rsplit_once('/') else {
        return false;
    };
    let whole = format!("/{folder}");
    PROOFS.contains(&name) && whole.ends_with(&format!("/{}", proof_folder(function)))
}

/// All must-fail edits of the tree, crate by crate and file by file.
pub fn all(root: &Path) -> Vec<Edit> {
    let mut edits = Vec::new();
    for folder in tree::entries(&root.join("crates")) {
        let krate = folder.file_name().unwrap_or_default();
        let krate = krate.to_string_lossy().into_owned();
        for path in tree::files(&folder.join("must-fail"), "edit") {
            let text = tree::read(&path).unwrap_or_default();
            edits.extend(of_file(&krate, &tree::stem(&path), &text));
        }
    }
    edits
}

/// The edits of one file.
pub fn of_file(krate: &str, file: &str, text: &str) -> Vec<Edit> {
    let empty = |label: &str| Edit {
        krate: krate.to_string(),
        label: label.to_string(),
        file: file.to_string(),
        ..Edit::default()
    };
    let mut edits = vec![empty(file)];
    let (mut name, mut old) = ("", "");
    for line in text.lines() {
        if let Some(label) = line.strip_prefix("# edit: ") {
            edits.push(empty(label.trim()));
            continue;
        }
        let edit = edits.last_mut().expect("a file has an edit");
        if let Some(path) = line.strip_prefix("# function: ") {
            edit.function = Some(path.trim().to_string());
        } else if line.starts_with("# alone: ") {
            edit.alone = true;
        } else if let Some(path) = line.strip_prefix("file: ") {
            name = path;
        } else if let Some(text) = line.strip_prefix("old: ") {
            old = text;
        } else if let Some(text) = line.strip_prefix("new:") {
            edit.replacements.push(Replacement {
                file: name.to_string(),
                old: old.to_string(),
                new: text.strip_prefix(' ').unwrap_or(text).to_string(),
            });
            old = "";
        }
    }
    // What stands before the first label is a comment on the file, unless it replaces something.
    if edits.len() > 1 && edits[0].replacements.is_empty() {
        edits.remove(0);
    }
    edits
}

#[cfg(test)]
mod tests {
    use super::*;

    #[test]
    fn one_edit_has_the_name_of_its_file() {
        let text = "# why\n# function: Machine::reserve\nfile: src/lib.rt\nold:     a\nnew:     b\nold: c\nnew:\n";
        let edits = of_file("machine", "one", text);
        assert_eq!(edits.len(), 1);
        let edit = &edits[0];
        assert_eq!(
            (edit.to_string(), &edit.file[..]),
            ("machine/one".to_string(), "one")
        );
        assert_eq!(edit.function.as_deref(), Some("Machine::reserve"));
        assert!(!edit.alone);
        let texts: Vec<(&str, &str, &str)> = edit
            .replacements
            .iter()
            .map(|r| (&r.file[..], &r.old[..], &r.new[..]))
            .collect();
        assert_eq!(
            texts,
            [("src/lib.rt", "    a", "    b"), ("src/lib.rt", "c", "")]
        );
    }

    #[test]
    fn labels_cut_a_file() {
        let text = "\
# on the file

# edit: first
# why
# function: put
file: src/lib.rt
old: a
new: b

# edit: second
# alone: it calls put
# function: take
old: c
new: d
";
        let edits = of_file("worklist", "batch", text);
        let read: Vec<(String, Option<&str>, bool, usize)> = edits
            .iter()
            .map(|e| {
                let function = e.function.as_deref();
                (e.to_string(), function, e.alone, e.replacements.len())
            })
            .collect();
        assert_eq!(
            read,
            [
                ("worklist/first".to_string(), Some("put"), false, 1),
                ("worklist/second".to_string(), Some("take"), true, 1),
            ]
        );
        // a `file:` line holds for the replacements after it, as `rt` reads it
        assert_eq!(edits[1].replacements[0].file, "src/lib.rt");
        assert!(edits.iter().all(|edit| edit.file == "batch"));
    }

    #[test]
    fn files_of_the_proof_of_a_function() {
        for (file, function, is) in [
            (
                "./proofs/Machine/reserve/Answers.antt",
                "Machine::reserve",
                true,
            ),
            ("proofs/take/Invariants.antt", "take", true),
            ("/a/crates/b/proofs/take/Proof.antt", "take", true),
            ("./proofs/Machine/reserve/Answers.antt", "reserve", false),
            ("./proofs/take/Laws.antt", "take", false),
            ("./proofs/mistake/Answers.antt", "take", false),
            ("Answers.antt", "take", false),
        ] {
            assert_eq!(is_proof_of(file, function), is, "{file} {function}");
        }
    }

    #[test]
    fn replacements_are_made_in_turn() {
        let sample = tree::Sample::of(&[("src/lib.rt", "a b a\n")]);
        let mut texts = Texts::new();
        let of = |old: &str, new: &str| Replacement {
            file: "src/lib.rt".to_string(),
            old: old.to_string(),
            new: new.to_string(),
        };
        let made = of("b a", "c").make(sample.root(), &mut texts);
        assert_eq!(made, Ok((2..5, "a b a\n".to_string())));
        let made = of("a", "").make(sample.root(), &mut texts);
        assert_eq!(made, Ok((0..1, "a c\n".to_string())));
        assert_eq!(texts["src/lib.rt"], " c\n");
        let made = of("b", "a").make(sample.root(), &mut texts);
        assert_eq!(
            made,
            Err("'b' does not stand once in src/lib.rt".to_string())
        );
    }

    #[test]
    fn a_replacement_before_the_first_label_is_an_edit() {
        let text = "file: src/lib.rt\nold: a\nnew: b\n# edit: second\nold: c\nnew: d\n";
        let labels: Vec<String> = of_file("bits", "batch", text)
            .into_iter()
            .map(|edit| edit.label)
            .collect();
        assert_eq!(labels, ["batch", "second"]);
    }
}
