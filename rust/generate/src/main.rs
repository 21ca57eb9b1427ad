//! Prints the case of a kind and a seed.

use std::io::Write;
use std::process::ExitCode;

use generate::{Case, RunCase, Small};

const USAGE: &str = "usage: generate valid|wrappers|near|damaged|unfit|small-wrapper SEED\n       \
                     generate run|wrapper-run SEED LIST\n       \
                     generate small SEED POINTS";

fn main() -> ExitCode {
    let arguments: Vec<String> = std::env::args().skip(1).collect();
    match case(&arguments) {
        Some((title, text)) => {
            eprintln!("{title}");
            match std::io::stdout().write_all(&text) {
                Ok(()) => ExitCode::SUCCESS,
                Err(_) => ExitCode::FAILURE,
            }
        }
        None => {
            eprintln!("{USAGE}");
            ExitCode::FAILURE
        }
    }
}

/// What the arguments name, and its text.
fn case(arguments: &[String]) -> Option<(String, Vec<u8>)> {
    let kind = arguments.first()?.as_str();
    let seed = arguments.get(1)?.parse().ok()?;
    let number = arguments.get(2).and_then(|number| number.parse().ok());
    let of_text = |case: Case| Some((case.to_string(), case.text));
    let of_run = |case: RunCase| Some((format!("{case}\n{:?}", case.lent), case.text));
    let of_small = |small: Small| Some((small.to_string(), small.text));
    match (kind, number) {
        ("valid", None) => of_text(generate::valid(seed)),
        ("wrappers", None) => of_text(generate::wrappers(seed)),
        ("near", None) => of_text(generate::near(seed)),
        ("damaged", None) => of_text(generate::damaged(seed)),
        ("unfit", None) => of_run(generate::unfit_run(seed)),
        ("run", Some(list)) => of_run(generate::runs(seed, list + 1).pop()?),
        ("wrapper-run", Some(list)) => of_run(generate::wrapper_runs(seed, list + 1).pop()?),
        ("small", Some(most)) => of_small(generate::small(seed, most)),
        ("small-wrapper", None) => of_small(generate::small_wrapper(seed)),
        _ => None,
    }
}
