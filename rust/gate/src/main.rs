//! What the gate reads beside the proofs. The commands are run at the top of the repository, and their last line counts.
//!
//! - `gate batches`: before `rt ci`, whether the must-fail edits of each file may share a check.
//! - `gate edits [--show] [--again] [CRATE..]`: after `rt ci`, whether each must-fail edit is refused at a fact. `--show` prints the error of every edit,
//!   `--again` judges what the last run of it kept in `target/must-fail`, and names of crates take the edits of these alone.
//! - `gate claims`: whether what docs/CLAIMS.md names is there, and whether every edit has its row.

#![forbid(unsafe_code)]

mod batches;
mod claims;
mod edit;
mod edits;
mod errors;
mod functions;
mod names;
mod tree;
mod tries;

use std::path::Path;
use std::process::ExitCode;

/// Lines to print, and how many things were found good and bad.
#[derive(Debug, Default, PartialEq, Eq)]
pub struct Findings {
    pub lines: Vec<String>,
    pub passed: usize,
    pub failed: usize,
}

impl Findings {
    /// Counts one thing, and prints a line where it is bad.
    pub fn count(&mut self, good: Result<(), String>) {
        match good {
            Ok(()) => self.passed += 1,
            Err(line) => {
                self.failed += 1;
                self.lines.push(line);
            }
        }
    }
}

/// Says how to call the tool, and what was wrong.
fn usage(wrong: &str) -> ExitCode {
    eprintln!("gate: {wrong}");
    eprintln!("usage, at the top of the repository: gate batches | gate edits [--show] [--again] [CRATE..] | gate claims");
    ExitCode::from(2)
}

fn main() -> ExitCode {
    let arguments: Vec<String> = std::env::args().skip(1).collect();
    let words: Vec<&str> = arguments.iter().map(String::as_str).collect();
    let root = Path::new(".");
    let findings = match words[..] {
        ["batches"] => batches::judge_all(root),
        ["edits", ref rest @ ..] => {
            let (flags, crates): (Vec<&str>, Vec<&str>) =
                rest.iter().partition(|word| word.starts_with("--"));
            let has = |flag: &str| flags.contains(&flag);
            if let Some(flag) = flags
                .iter()
                .find(|flag| !["--show", "--again"].contains(flag))
            {
                return usage(&format!("edits takes no {flag}"));
            }
            edits::judge_all(root, &crates, has("--show"), has("--again"))
        }
        ["claims"] => claims::resolve_all(root),
        _ => return usage("one of these words is wanted"),
    };
    for line in &findings.lines {
        println!("{line}");
    }
    println!("{} passed, {} failed", findings.passed, findings.failed);
    match findings {
        Findings {
            failed: 0, passed, ..
        } if passed > 0 => ExitCode::SUCCESS,
        _ => ExitCode::FAILURE,
    }
}
