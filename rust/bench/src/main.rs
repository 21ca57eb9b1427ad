//! Times the services on the texts of docs/BENCHMARKS.md and prints its tables: the proved archive against the second implementation, or, built by
//! `compare`, the services of a new archive against those of an old one.

#![cfg_attr(copies, allow(dead_code))]

mod check;
#[cfg(copies)]
mod copies;
mod dearest;
mod report;
mod run;
mod texts;
mod timing;
mod written;

use std::process::ExitCode;

/// The price of a move in all tables: blocks are counted.
const START: u32 = 0;
const EACH: u32 = 1;

fn main() -> ExitCode {
    #[cfg(copies)]
    return copies::compare();
    #[cfg(not(copies))]
    return tables();
}

/// The table or tables that the argument names.
fn tables() -> ExitCode {
    match std::env::args().nth(1).as_deref() {
        Some("check") => check::table(),
        Some("report") => report::table(),
        Some("dearest") => dearest::table(),
        Some("run") => run::tables(),
        _ => {
            eprintln!("usage: bench check | report | dearest | run");
            return ExitCode::from(2);
        }
    }
    ExitCode::SUCCESS
}

#[cfg(test)]
mod tests {
    use felknost::Row;

    use crate::dearest::Room;
    use crate::run;
    use crate::texts::{report_texts, texts};
    use crate::timing::grouped;

    /// The rows of the document's table whose head begins so.
    fn rows(head: &str) -> Vec<&'static str> {
        let document = include_str!("../../../docs/BENCHMARKS.md");
        let table = document.lines().skip_while(|line| !line.starts_with(head));
        table
            .skip(2)
            .take_while(|line| line.starts_with('|'))
            .collect()
    }

    /// The document's tables have the rows of the program, with their bytes.
    #[test]
    fn document_has_the_same_rows() {
        for (head, texts) in [
            ("| Text | Bytes |", texts()),
            ("| Text of a report |", report_texts()),
            ("| Text of a list |", report_texts()),
        ] {
            let rows = rows(head);
            assert_eq!(rows.len(), texts.len(), "{head}");
            for (row, (name, text)) in rows.iter().zip(texts) {
                let start = format!("| {name} | {} | ", grouped(text.len()));
                assert!(row.starts_with(&start), "{row} should start with {start}");
            }
        }
    }

    /// The document's tables of runs have the heads and the rows of the program.
    #[test]
    fn document_has_the_same_lists() {
        for head in [run::HEAD, run::LAZY_HEAD] {
            let rows = rows(head);
            let lists = run::lists();
            assert_eq!(rows.len(), lists.len(), "{head}");
            for (row, list) in rows.iter().zip(lists) {
                let start = format!("| {} | ", list.name);
                assert!(row.starts_with(&start), "{row} should start with {start}");
            }
        }
    }

    /// Row 19 refuses the run that is timed, unless the text is refused, or is empty and asks for no memory: no other row of a run comes before the figures.
    #[test]
    fn runs_without_memory_are_refused_after_the_figures() {
        for (name, text) in report_texts() {
            let ran = Room::of(&text).run(&text).map_err(|refusal| refusal.row);
            let checked = felknost::check(&text).map_err(|refusal| refusal.row);
            let wanted = match name {
                "empty text" => Ok(()),
                _ => checked.and(Err(Row::MemoryTooSmall)),
            };
            assert_eq!(ran, wanted, "{name}");
        }
    }

    /// What the names of the rows say.
    #[test]
    fn texts_are_what_they_are_called() {
        for (name, text) in report_texts() {
            let refusal = felknost::check(&text).err();
            let got = refusal.map(|refusal| (refusal.row.code(), refusal.place));
            let wanted = match name {
                "refused in line 1" => Some((3, 1)),
                "refused in line 3" => Some((5, 3)),
                "32,768 bytes, refused at the point after 1,024" => Some((6, 1_035)),
                "32,768 bytes, of which one line has 20,938" => Some((2, 1_033)),
                "32,769 bytes" => Some((1, 0)),
                _ => None,
            };
            assert_eq!(got, wanted, "{name}");
        }
    }
}
