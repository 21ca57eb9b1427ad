//! Whether each must-fail edit is refused at a fact.
//!
//! `rt ci` counts a file of edits where the prover refuses the crate with all of them, whatever the reason. Here each edit is judged by itself, by the log of its
//! check (tries.rs). An error of a function is one in a file of its proof, or a goal of it that has no answer and that the kit's tactics do not prove.
//! - Of an edit that is alone in its check, the first error of the log has to be about a fact.
//! - Of an edit that names its function, alone or not, so has the first error of that function that is not the consequence of another error.
//!   That a caller is not proved, or calls what is not proved, shows nothing.
//! - In a check that edits share, other functions have consequences only; any other error there says that an edit reaches further than its function.

use std::path::Path;

use crate::edit::{self, Edit};
use crate::errors::{self, About, LogError};
use crate::tries::{self, Check, Log};
use crate::Findings;

/// Tries the edits of these crates, or of all, and judges each. Where `again`, an earlier run has tried them.
pub fn judge_all(root: &Path, crates: &[&str], show: bool, again: bool) -> Findings {
    let mut edits = edit::all(root);
    edits.retain(|edit| crates.is_empty() || crates.contains(&&edit.krate[..]));
    let checks = tries::checks(&edits);
    let logs = match again {
        true => tries::kept(root, &checks),
        false => tries::run_all(root, &checks),
    };
    judged(&checks, &logs, show)
}

/// Judges every edit of these checks by the log of its check.
fn judged(checks: &[Check], logs: &[Log], show: bool) -> Findings {
    let mut findings = Findings::default();
    for (check, log) in checks.iter().zip(logs) {
        for edit in check {
            let judged = judge(edit, check, log);
            if let Ok(error) = &judged {
                findings.lines.push(line(edit, error, show));
            }
            let nothing = |why| format!("{edit} SHOWS NOTHING: {why}");
            findings.count(judged.map(|_| ()).map_err(nothing));
        }
    }
    findings
}

/// What is printed of an edit that was refused at this error.
fn line(edit: &Edit, error: &LogError, show: bool) -> String {
    let side = match error.is_side_goal() {
        true => " (side goal)",
        false => "",
    };
    let open = match error.function {
        Some(_) => " (no answer)",
        None => "",
    };
    let mut line = format!("{edit}: refused at {}{side}{open}", error.goal());
    if edit.file != edit.label {
        line.push_str(&format!(", with {}", edit.file));
    }
    if show {
        line.push_str(&format!(": {}", errors::cut(&error.text, 240)));
    }
    line
}

/// The error at which an edit is refused, by the log of its check; else why it shows nothing.
fn judge(edit: &Edit, check: &Check, log: &Log) -> Result<LogError, String> {
    let whole = log.as_deref()?;
    if whole.contains("rattle build: nothing was built") {
        return Err("a library below its crate is not proved".to_string());
    }
    let log = errors::own_part(whole, &edit.krate);
    let says = |word: &str| log.lines().any(|line| line.starts_with(word));
    if says("logic=proved") {
        return Err("the crate is still proved with it".to_string());
    }
    let errors = errors::of_log(log);
    if !says("logic=not-proved") {
        let first = errors.first().map(|error| errors::cut(&error.text, 160));
        let first = first.unwrap_or_else(|| "its log has no error".to_string());
        return Err(format!("it did not reach the prover: {first}"));
    }
    let first = || about_a_fact(errors.first(), "its log has no error");
    let alone = check.len() == 1;
    if alone {
        first()?;
    } else {
        stays_inside(&errors, check)?;
    }
    match &edit.function {
        Some(own) => {
            let is_own = |error: &&LogError| is_of(error, own) && error.about() != About::Other;
            let none = format!("{own} has no error of its own");
            about_a_fact(errors.iter().find(is_own), &none)
        }
        None if alone => first(),
        None => Err("it names no function, and is not alone".to_string()),
    }
}

/// The error, if there is one and it is about a fact.
fn about_a_fact(error: Option<&LogError>, none: &str) -> Result<LogError, String> {
    let error = error.ok_or(none)?;
    let text = errors::cut(&error.text, 160);
    match error.about() {
        About::Fact => Ok(error.clone()),
        About::Other => Err(format!("what follows from another error: {text}")),
        About::Nothing(why) => Err(format!("{why}: {text}")),
    }
}

/// Whether the errors of a check are of the functions that it makes wrong, but for consequences.
fn stays_inside(errors: &[LogError], check: &Check) -> Result<(), String> {
    let functions: Vec<&str> = check
        .iter()
        .filter_map(|edit| edit.function.as_deref())
        .collect();
    let inside = |error: &LogError| functions.iter().any(|own| is_of(error, own));
    let mut outside = errors.iter().filter(|error| !inside(error));
    match outside.find(|error| error.about() != About::Other) {
        Some(error) => {
            let text = errors::cut(&error.text, 160);
            let place = error.function.as_deref().unwrap_or(&error.file);
            Err(format!(
                "an error that is not of its function, in {place}: {text}"
            ))
        }
        None => Ok(()),
    }
}

/// Whether an error is of a function.
fn is_of(error: &LogError, function: &str) -> bool {
    match &error.function {
        Some(own) => own == function,
        None => edit::is_proof_of(&error.file, function),
    }
}

#[cfg(test)]
mod tests {
    use super::*;

    /// Logs of checks of `bits` with the edits of three functions, lines cut at 260 characters and lines of advice left out. `transfer_of` calls `union_of`.
    const ALL: &str = include_str!("../logs/bits-all.log");
    /// With an edit of `top_of` that changes nothing: a constant by its number.
    const HARMLESS: &str = include_str!("../logs/bits-harmless.log");
    /// With an edit of `transfer_of` that changes nothing in place of the one of `top_of`.
    const CALLER: &str = include_str!("../logs/bits-caller.log");
    /// With an edit of `clear_marks` that makes an `if` of its loop, in place of the one of `top_of`: the proof file names what there is not.
    const SCOPE: &str = include_str!("../logs/bits-scope.log");
    /// With an edit of `lowest_of` that leaves out a branch, so that its proof file does not fit.
    const SHAPE: &str = include_str!("../logs/bits-shape.log");
    /// With an edit of `lowest_of` that names what there is not, so that nothing is proved.
    const FRONT: &str = include_str!("../logs/bits-front.log");
    /// As ALL, where `lowest_of` and `union_of` have no proof file.
    const OPEN: &str = include_str!("../logs/bits-open.log");

    const NOT_PROVED: &str = "logic=not-proved\n";
    const SCOPE_LINE: &str = "./proofs/lowest_of/Answers.antt:8:7: error: `returns`: `lowest-trailing` is not in scope\n";
    const LAWS: &str = "./proofs/Laws.antt:8:7: error: `lowest-trailing`: `omega`: the goal does not follow from what it read.\n";
    const OPEN_CALLER: &str = "note: src/lib.rt:1:1: it is not proved that x holds (`returns`)\nfn bits::transfer_of: not proved\n";

    /// A file of edits of these functions of `bits`.
    fn batch_of(functions: &[&str]) -> String {
        let edit =
            |f: &&str| format!("# edit: {f}\n# function: {f}\nfile: src/lib.rt\nold: a\nnew: b\n");
        functions.iter().map(edit).collect()
    }

    /// What is found of a file of edits of `bits`, by what was said of it.
    fn of(file: &str, text: &str, log: &Log) -> Findings {
        let edits = edit::of_file("bits", file, text);
        judged(&tries::checks(&edits), &[log.clone()], false)
    }

    fn batch(functions: &[&str], log: &str) -> Findings {
        of("batch", &batch_of(functions), &Ok(log.to_string()))
    }

    const THREE: &[&str] = &["lowest_of", "top_of", "union_of"];

    /// A function without a proof file is refused at a goal that the tactics do not prove.
    #[test]
    fn all_refused() {
        for (log, open) in [(ALL, ""), (OPEN, " (no answer)")] {
            let found = batch(THREE, log);
            let lines = [
                format!("bits/lowest_of: refused at returns-then-z-k{open}, with batch"),
                "bits/top_of: refused at returns, with batch".to_string(),
                format!("bits/union_of: refused at returns{open}, with batch"),
            ];
            assert_eq!(found.lines, lines);
            assert_eq!((found.passed, found.failed), (3, 0));
        }
    }

    #[test]
    fn one_of_three_is_harmless() {
        let found = batch(THREE, HARMLESS);
        assert_eq!((found.passed, found.failed), (2, 1));
        assert_eq!(
            found.lines[1],
            "bits/top_of SHOWS NOTHING: top_of has no error of its own"
        );
    }

    /// That a function calls what is not proved shows nothing of the function.
    #[test]
    fn one_is_refused_only_in_a_caller() {
        let found = batch(&["lowest_of", "union_of", "transfer_of"], CALLER);
        assert_eq!((found.passed, found.failed), (2, 1));
        assert_eq!(
            found.lines[2],
            "bits/transfer_of SHOWS NOTHING: transfer_of has no error of its own"
        );
    }

    /// A caller that is made wrong too has a fact of its own behind the consequence, or an open goal.
    #[test]
    fn a_caller_and_its_callee() {
        let fact = "./proofs/transfer_of/Answers.antt:9:3: error: `returns`: `search`: no proof of `x` was found.\n";
        for own in [fact, OPEN_CALLER] {
            let log = CALLER.replace(NOT_PROVED, &format!("{own}{NOT_PROVED}"));
            let found = batch(&["lowest_of", "union_of", "transfer_of"], &log);
            assert_eq!((found.passed, found.failed), (3, 0));
        }
    }

    #[test]
    fn one_has_a_name_out_of_scope() {
        let found = batch(&["clear_marks", "lowest_of", "union_of"], SCOPE);
        assert_eq!((found.passed, found.failed), (2, 1));
        let start =
            "bits/clear_marks SHOWS NOTHING: a goal that the function does not have: `invariant-loop-i`";
        assert!(found.lines[0].starts_with(start), "{}", found.lines[0]);
        // a fact behind it does not count
        let found = batch(THREE, &format!("{SCOPE_LINE}{ALL}"));
        assert_eq!((found.passed, found.failed), (2, 1));
        assert_eq!(
            found.lines[0],
            "bits/lowest_of SHOWS NOTHING: a name that is not in scope: `returns`: `lowest-trailing` is not in scope"
        );
    }

    /// Its open goal, which comes behind that, does not count.
    #[test]
    fn one_has_a_proof_file_that_does_not_fit() {
        let found = batch(THREE, SHAPE);
        assert_eq!((found.passed, found.failed), (2, 1));
        let start = "bits/lowest_of SHOWS NOTHING: a goal that the function does not have: `returns-then-z-k`";
        assert!(found.lines[0].starts_with(start), "{}", found.lines[0]);
    }

    /// An error in a law, or in the proof of a function that no edit names, says that an edit is not one of a body.
    #[test]
    fn one_reaches_further() {
        for (functions, log, place) in [
            (THREE, format!("{LAWS}{ALL}"), "./proofs/Laws.antt"),
            (
                &THREE[..2],
                ALL.to_string(),
                "./proofs/union_of/Answers.antt",
            ),
            (&THREE[..2], OPEN.to_string(), "union_of"),
            (THREE, format!("{OPEN_CALLER}{ALL}"), "transfer_of"),
        ] {
            let found = batch(functions, &log);
            assert_eq!((found.passed, found.failed), (0, functions.len()));
            let start = format!(
                "bits/top_of SHOWS NOTHING: an error that is not of its function, in {place}:"
            );
            assert!(found.lines[1].starts_with(&start), "{}", found.lines[1]);
        }
    }

    #[test]
    fn a_whole_batch_that_shows_nothing() {
        let built = "rattle build: nothing was built, since only a proved crate is built\n";
        for (log, why) in [
            (
                Ok("logic=proved\n".to_string()),
                "the crate is still proved with it",
            ),
            (
                Err("'a' does not stand once in src/lib.rt".to_string()),
                "'a' does not stand once in src/lib.rt",
            ),
            (
                Ok(FRONT.to_string()),
                "it did not reach the prover: [unknown-name]: cannot find value `zz` in this scope",
            ),
            (
                Ok("Killed\n".to_string()),
                "it did not reach the prover: its log has no error",
            ),
            (
                Ok(format!("{ALL}{built}")),
                "a library below its crate is not proved",
            ),
        ] {
            let found = of("batch", &batch_of(THREE), &log);
            assert_eq!((found.passed, found.failed), (0, 3));
            assert_eq!(
                found.lines[0],
                format!("bits/lowest_of SHOWS NOTHING: {why}")
            );
        }
    }

    /// Requires that the one edit shows nothing, for this reason.
    fn assert_nothing(found: &Findings, edit: &str, why: &str) {
        let start = format!("{edit} SHOWS NOTHING: {why}");
        assert_eq!((found.passed, found.failed), (0, 1));
        assert!(found.lines[0].starts_with(&start), "{}", found.lines[0]);
    }

    /// An edit that names no function is judged by the first error of the log.
    #[test]
    fn an_edit_alone() {
        let of = |errors: &[&str]| {
            let log = format!("{}{NOT_PROVED}", errors.concat());
            of(
                "lowest",
                "file: specs/Bits.antt\nold: a\nnew: b\n",
                &Ok(log),
            )
        };
        let consequence = "./proofs/top_of/Answers.antt:9:20: error: `returns`: `close` was not admitted (it has holes)\n";
        let found = of(&[LAWS, consequence]);
        assert_eq!(found.lines, ["bits/lowest: refused at lowest-trailing"]);
        let found = of(&[OPEN_CALLER]);
        assert_eq!(found.lines, ["bits/lowest: refused at returns (no answer)"]);
        let nothing = |errors: &[&str], why: &str| assert_nothing(&of(errors), "bits/lowest", why);
        nothing(
            &[consequence, LAWS],
            "what follows from another error: `returns`",
        );
        nothing(
            &[SCOPE_LINE, LAWS],
            "a name that is not in scope: `returns`",
        );
        nothing(&[], "its log has no error");
    }

    /// What is said of a library that had to be built first is not said of the crate.
    #[test]
    fn a_library_below_was_built() {
        let low =
            "fn low::a: proved\ncrate low: modules loaded=3 checked=1\nlogic=proved functions=1\n";
        let found = batch(THREE, &format!("{low}{ALL}"));
        assert_eq!((found.passed, found.failed), (3, 0));
        let found = batch(THREE, &format!("{low}{FRONT}"));
        assert_eq!((found.passed, found.failed), (0, 3));
        let why =
            "it did not reach the prover: [unknown-name]: cannot find value `zz` in this scope";
        assert_eq!(
            found.lines[0],
            format!("bits/lowest_of SHOWS NOTHING: {why}")
        );
    }

    /// One that names its function needs a fact there too.
    #[test]
    fn an_edit_of_a_function_alone() {
        let of = |log: &str| batch(&["top_of"], log);
        assert_eq!(
            of(ALL).lines,
            ["bits/top_of: refused at returns, with batch"]
        );
        let nothing = |log: &str, why: &str| assert_nothing(&of(log), "bits/top_of", why);
        nothing(HARMLESS, "top_of has no error of its own");
        nothing(
            &format!("{SCOPE_LINE}{ALL}"),
            "a name that is not in scope: `returns`",
        );
    }

    #[test]
    fn an_edit_of_no_function_in_a_batch() {
        let text = batch_of(THREE).replace("# function: union_of\n", "");
        let log = ALL.replace("/proofs/union_of/", "/proofs/top_of/");
        let found = of("batch", &text, &Ok(log));
        let line = "bits/union_of SHOWS NOTHING: it names no function, and is not alone";
        assert!(found.lines.contains(&line.to_string()), "{:?}", found.lines);
    }

    #[test]
    fn side_goals_are_marked() {
        let text = "# function: top_of\nfile: src/lib.rt\nold: a\nnew: b\n";
        let error = "./proofs/top_of/Answers.antt:9:3: error: `overflow_sub-t3`: `omega`: the goal does not follow from what it read.\n";
        let found = of("past", text, &Ok(format!("{error}{NOT_PROVED}")));
        assert_eq!(
            found.lines,
            ["bits/past: refused at overflow_sub-t3 (side goal)"]
        );
        assert_eq!((found.passed, found.failed), (1, 0));
    }
}
