//! The lengths of output that the header and the binding call enough, against the most bytes that a report and a list are proved to have.

use tests::{header_number, source, spec_number};

/// A number with commas, as the pages have it.
fn grouped(number: usize) -> String {
    match number {
        0..=999 => number.to_string(),
        _ => format!("{},{:03}", grouped(number / 1_000), number % 1_000),
    }
}

/// Requires that the lengths of the header and of the binding are enough for the most bytes, and that both state this bound.
fn has_room(most: usize, macro_name: &str, binding: usize, printed: &str) {
    let header = header_number(macro_name);
    assert!(
        most <= header,
        "{most} bytes, FELKNOST_{macro_name} {header}"
    );
    assert!(
        most <= binding,
        "{most} bytes, felknost::{macro_name} {binding}"
    );
    let bound = format!("no {printed} has more than {}.", grouped(most));
    for path in ["include/felknost.h", "rust/felknost/src/lib.rs"] {
        assert!(
            source(path).contains(&bound),
            "{path} does not say: {bound}"
        );
    }
}

/// `most_report` is in the contract of `report::report_length`.
#[test]
fn every_report_has_room() {
    let most = spec_number("crates/report/specs/Report.antt", "most_report");
    has_room(most, "OUTPUT", felknost::OUTPUT, "report");
}

/// `most_list` is in the contract of `dearest::list_length`.
#[test]
fn every_list_has_room() {
    let most = spec_number("crates/dearest/specs/Ranking.antt", "most_list");
    has_room(most, "DEAREST_OUTPUT", felknost::DEAREST_OUTPUT, "list");
}
