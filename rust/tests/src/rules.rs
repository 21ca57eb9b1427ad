//! Report and run in the second implementation alone, by either rule for the shortest displacement, and the report with either last field and either foot.

use generate::Price;
use second::figures::{figures_by, Displacement, Figures};
use second::run::run_with;
use second::sheet::{print_with, Foot, Last};
use second::text::Task;
use second::{admit_at, WORK_MIN};

use crate::cores::{Lent, Ran};

/// An accepted text as read, a price that fits, and the figures by a rule.
fn ruled(rule: Displacement, text: &[u8], price: Price) -> (Task, second::Price, Figures) {
    let admitted = admit_at(text, price.start, price.each, WORK_MIN);
    let (task, price) = admitted.expect("an accepted text");
    let figures = figures_by(rule, &task, price);
    (task, price, figures)
}

/// The figures of an accepted text.
pub fn figures_of(rule: Displacement, text: &[u8], price: Price) -> Figures {
    ruled(rule, text, price).2
}

/// The report of an accepted text.
pub fn report_by(rule: Displacement, last: Last, foot: Foot, text: &[u8], price: Price) -> String {
    let (task, _, figures) = ruled(rule, text, price);
    print_with(last, foot, &task, &figures)
}

/// The run of an accepted text.
pub fn run_by(rule: Displacement, text: &[u8], price: Price, events: &[u32], lent: &Lent) -> Ran {
    let (task, price, figures) = ruled(rule, text, price);
    let mut lent = lent.clone();
    let result = run_with(
        &figures,
        &task,
        price,
        events,
        &mut lent.answers,
        &mut lent.cache,
        &mut lent.memory,
    );
    Ran { result, lent }
}
