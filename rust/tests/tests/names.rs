//! The rows of the table of refusals have the same names and codes in the model, in the binding and in the second implementation, and the
//! header declares the services and lists what each can return, and has the lengths and indices of the binding.

use tests::{header_numbers, source};

/// The variants `NAME = NUMBER` of the enum of rows, by code.
fn rows_in_code() -> Vec<(String, u32)> {
    let text = source("crates/model/src/lib.rt");
    let start = "pub enum Row {";
    let at = text.find(start).expect("the declaration is there") + start.len();
    let body = text[at..].split('}').next().expect("it ends");
    let variant = |line: &str| {
        let (name, number) = line.split_once(" = ").expect("each has its number");
        (name.to_string(), number.parse().expect("a number"))
    };
    let lines = body.split(',').map(str::trim);
    sorted(lines.filter(|line| !line.is_empty()).map(variant).collect())
}

/// Names with their codes, by code.
fn sorted(mut rows: Vec<(String, u32)>) -> Vec<(String, u32)> {
    rows.sort_by_key(|row| row.1);
    rows
}

/// The equations `code_of NAME = NUMBER` of the model.
fn in_model() -> Vec<(String, u32)> {
    let text = source("crates/model/specs/Rows.antt");
    let equation = |line: &str| {
        let (name, number) = line.strip_prefix("code_of ")?.split_once(" = ")?;
        Some((name.to_string(), number.parse().ok()?))
    };
    sorted(text.lines().filter_map(equation).collect())
}

#[test]
fn rows_agree() {
    let model = in_model();
    assert_eq!(model.len(), 23);
    assert_eq!(rows_in_code(), model);
    let binding = felknost::Row::ALL.map(|row| (format!("{row:?}"), row.code()));
    assert_eq!(binding.to_vec(), model);
    let second = second::Row::ALL.map(|row| (format!("{row:?}"), row.code()));
    assert_eq!(second.to_vec(), model);
}

/// The lines of the header that begin with a code: those of check, of report, and of run, which has 23 too.
#[test]
fn header_lists_the_codes() {
    let text = source("include/felknost.h");
    let codes: Vec<u32> = text
        .lines()
        .filter_map(|line| line.strip_prefix(" *")?.split_once("  "))
        .filter_map(|(_, rest)| rest.trim_start().split("  ").next()?.parse().ok())
        .collect();
    let wanted = (1..=15).chain([23, 23]).chain(16..=22);
    assert_eq!(codes, wanted.collect::<Vec<u32>>());
}

/// The lengths and indices that the header defines are those of the binding, by the same names. The stack of a call is in the header alone.
#[test]
fn lengths_agree() {
    let stacks = ["STACK", "THREAD_STACK"];
    let mut defined = header_numbers();
    defined.retain(|(name, _)| !stacks.contains(&&name[..]));
    let binding = [
        ("WORK", felknost::WORK),
        ("WRITE_RESULT", felknost::WRITE_RESULT),
        ("RESULT_CODE", felknost::RESULT_CODE),
        ("RESULT_PLACE", felknost::RESULT_PLACE),
        ("RESULT_WRITTEN", felknost::RESULT_WRITTEN),
        ("OUTPUT", felknost::OUTPUT),
        ("DEAREST_OUTPUT", felknost::DEAREST_OUTPUT),
        ("RUN_RESULT", felknost::RUN_RESULT),
        ("RESULT_DONE", felknost::RESULT_DONE),
        ("RESULT_MOVED", felknost::RESULT_MOVED),
        ("RESULT_ALLOWED", felknost::RESULT_ALLOWED),
    ];
    let binding = binding.map(|(name, number)| (name.to_string(), number));
    assert_eq!(defined, binding);
}

/// The functions that the header declares, each with its parameters.
fn declared() -> Vec<(String, String)> {
    let text = source("include/felknost.h");
    let declarations = text.split("\nuint32_t felknost_").skip(1);
    let one = |declaration: &str| {
        let (name, rest) = declaration.split_once('(').expect("parameters");
        let parameters = rest.split(");").next().expect("an end");
        let words: Vec<&str> = parameters.split_whitespace().collect();
        (name.to_string(), words.join(" "))
    };
    declarations.map(one).collect()
}

#[test]
fn header_declares_the_services() {
    let declared = declared();
    let names: Vec<&str> = declared.iter().map(|(name, _)| &name[..]).collect();
    assert_eq!(
        names,
        ["check", "report", "dearest_points", "run", "run_lazy"]
    );
    assert_eq!(declared[2].1, declared[1].1);
    assert_eq!(declared[4].1, declared[3].1);
}
