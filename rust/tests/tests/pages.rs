//! Numbers that docs/TRUST.md states, against the sources that it counts: worked cases, generated texts, and lines of the files of its reading path.

use tests::source;

const TRUST: &str = "docs/TRUST.md";

/// How many equations the conclusions of a file have: each `refl` behind a line `unfolding opened` proves one.
fn equations(path: &str) -> usize {
    let text = source(path);
    let proofs = text.split("\nunfolding opened").skip(1);
    let proved = |proof: &str| {
        let paragraph = proof.split("\n\n").next().expect("a part of the text");
        paragraph.matches("refl").count()
    };
    let count = proofs.map(proved).sum();
    assert_ne!(count, 0, "{path} has no equation");
    count
}

/// Requires that the page says this.
fn says(sentence: &str) {
    let text = source(TRUST).replace('\n', " ");
    assert!(text.contains(sentence), "{TRUST} does not say: {sentence}");
}

#[test]
fn worked_cases_are_counted() {
    let starred = equations("crates/model/specs/Examples.antt");
    let more: usize = [
        "crates/model/specs/Cases.antt",
        "crates/model/specs/Coded.antt",
        "crates/cases/specs/Runs.antt",
        "crates/cases/specs/Without.antt",
        "crates/cases/specs/Limits.antt",
    ]
    .map(equations)
    .iter()
    .sum();
    says(&format!(
        "{starred} equations of the starred examples and {more} more cases are theorems"
    ));
    let lazy = equations("crates/model/specs/LazyCases.antt")
        + equations("crates/cases/specs/LazyRuns.antt");
    // one of them is a run of the other core
    says(&format!("{} runs of the lazy core", lazy - 1));
}

/// A file of the reading path: those without a folder are in the specs of the model.
fn path_of(name: &str) -> String {
    match name.contains('/') {
        true => name.to_string(),
        false => format!("crates/model/specs/{name}"),
    }
}

/// The files that the page names with how many lines they have: `FILE` and a cell `LINES` or `SOME of LINES`, or `FILE` (LINES ..).
fn files_with_lines(page: &str) -> Vec<(String, usize)> {
    let quoted = |text: &str| text.split('`').nth(1).map(str::to_string);
    let mut files = Vec::new();
    for line in page.lines() {
        let cells: Vec<&str> = line.split('|').map(str::trim).collect();
        if let [_, _, file, lines, ..] = cells[..] {
            let lines = lines.rsplit(" of ").next().unwrap_or(lines);
            if let (Some(file), Ok(lines)) = (quoted(file), lines.parse()) {
                files.push((file, lines));
            }
        }
        let parts: Vec<&str> = line.split('`').collect();
        for pair in parts.windows(2) {
            let bracket = pair[1].strip_prefix(" (").unwrap_or("");
            let digits: String = bracket.chars().take_while(char::is_ascii_digit).collect();
            let closed = bracket[digits.len()..].starts_with([')', ',']);
            if let (true, Ok(lines)) = (closed && pair[0].contains('.'), digits.parse()) {
                files.push((pair[0].to_string(), lines));
            }
        }
    }
    files
}

#[test]
fn lines_of_the_reading_path() {
    let page = source(TRUST);
    let part = page
        .split("\n## ")
        .find(|part| part.starts_with("2. A reading path"));
    let files = files_with_lines(part.expect("the reading path"));
    assert!(files.len() > 20, "{files:?}");
    for (name, lines) in files {
        assert_eq!(source(&path_of(&name)).lines().count(), lines, "{name}");
    }
}
