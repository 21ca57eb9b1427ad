//! The cases of the vectors folder, for tests.

#![forbid(unsafe_code)]
#![warn(missing_docs)]

use std::fs;
use std::path::{Path, PathBuf};

/// A folder of cases: `refused`, `report`, `run` or `once`.
pub fn folder(name: &str) -> PathBuf {
    Path::new(env!("CARGO_MANIFEST_DIR"))
        .join("../../vectors")
        .join(name)
}

/// The bytes of a file. Panics with the file's name where it cannot be read.
pub fn read(path: &Path) -> Vec<u8> {
    fs::read(path).unwrap_or_else(|error| panic!("{}: {error}", path.display()))
}

/// The text of a file.
pub fn read_text(path: &Path) -> String {
    String::from_utf8(read(path)).expect("the file is text")
}

/// The task files of a folder, in order.
pub fn tasks(name: &str) -> Vec<PathBuf> {
    let entries = fs::read_dir(folder(name)).expect("the folder is there");
    let mut paths: Vec<PathBuf> = entries
        .map(|entry| entry.expect("the entry is readable").path())
        .filter(|path| path.extension().is_some_and(|end| end == "task"))
        .collect();
    paths.sort();
    paths
}

/// The result of a task before request 4, in the file with this ending. No file of a report has once or the line with the total.
pub fn original(task: &Path, ending: &str) -> Vec<u8> {
    read(&task.with_extension(ending))
}

/// The result of a task since request 4, where it is another.
pub fn amended(task: &Path, ending: &str) -> Option<Vec<u8>> {
    let path = task.with_extension(format!("request-4.{ending}"));
    path.exists().then(|| read(&path))
}

/// The result of a task that is in force: the amended one where there is one.
pub fn in_force(task: &Path, ending: &str) -> Vec<u8> {
    amended(task, ending).unwrap_or_else(|| original(task, ending))
}

/// The file with the totals of the reports, a line of name and total for each case.
pub fn totals() -> String {
    read_text(&folder("report").join("totals"))
}

/// The file with once of every point of the reports, a line of name and numbers for each case.
pub fn once() -> String {
    read_text(&folder("report").join("once"))
}

/// The words behind the name of a task in a file with a line for each case.
fn of_case<'a>(file: &'a str, task: &Path) -> impl Iterator<Item = &'a str> {
    let name = task.file_stem().and_then(|name| name.to_str());
    let name = name.expect("a case has a name");
    let mut lines = file.lines().map(|line| line.split(' '));
    lines
        .find_map(|mut words| (words.next() == Some(name)).then_some(words))
        .unwrap_or_else(|| panic!("no line of {name}"))
}

/// The report that is expected of a task in blocks: the one in force, with once at the end of the line of each point, and with its total in a line before the
/// last.
pub fn expected(task: &Path) -> Vec<u8> {
    let report = String::from_utf8(in_force(task, "report")).expect("the file is text");
    let (once, totals) = (once(), totals());
    let mut once = of_case(&once, task);
    let total = of_case(&totals, task).next().expect("a total");
    let line = |line: &str| match line.strip_suffix(')') {
        Some("") => format!("  (total {total})\n)\n"),
        Some(point) if point.starts_with("  (at ") => {
            let once = once.next().expect("once of each point");
            format!("{point} {once})\n")
        }
        _ => format!("{line}\n"),
    };
    let expected: String = report.lines().map(line).collect();
    assert_eq!(once.next(), None, "once of no point");
    expected.into_bytes()
}

/// The refused cases: the name, the text, the code and the place.
pub fn refused() -> Vec<(String, Vec<u8>, u32, u32)> {
    read_text(&folder("refused").join("expected"))
        .lines()
        .map(|line| {
            let words: Vec<&str> = line.split(' ').collect();
            let text = read(&folder("refused").join(format!("{}.task", words[0])));
            let code = words[1].parse().expect("a code");
            let place = words[2].parse().expect("a place");
            (words[0].to_string(), text, code, place)
        })
        .collect()
}
