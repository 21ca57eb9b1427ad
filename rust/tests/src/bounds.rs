//! What a sheet allows the events of a run, by its report as it is printed and by the plain stack alone.

use second::plain::{run_seen, Seen};

use crate::sheets::FuncLines;

/// What a sheet in blocks allows the events that are done.
#[derive(Clone, Copy, Debug, Default, PartialEq, Eq)]
pub struct Allowed {
    /// How many of them are preemptions.
    pub preemptions: u32,
    /// The spills of the calls and the fills of the ensures.
    pub steps: u64,
    /// The costs of the points preempted at.
    pub cost: u64,
    /// Once of the points preempted at.
    pub once: u64,
}

impl Allowed {
    /// What the events of a list are allowed, up to the first that is refused.
    pub fn of(sheet: &[FuncLines], text: &[u8], events: &[u32]) -> Self {
        let mut allowed = Allowed::default();
        let plain = run_seen(text, events, |seen| allowed.add(sheet, seen));
        plain.expect("an accepted text");
        allowed
    }

    fn add(&mut self, sheet: &[FuncLines], seen: Seen) {
        let at = &sheet[seen.func].points[seen.point];
        match (seen.kind, seen.words) {
            (0, ["call", callee]) => {
                let callee: usize = callee.parse().expect("a function");
                self.steps += u64::from(sheet[callee].spill);
            }
            (0, ["ensure", _]) => self.steps += u64::from(at.fill),
            (0, _) => {}
            _ => {
                self.preemptions += 1;
                self.cost += u64::from(at.cost);
                self.once += u64::from(at.once.expect("a report in blocks"));
            }
        }
    }

    /// With the cost of each preemption.
    pub fn with_cost(&self) -> u64 {
        self.steps + self.cost
    }

    /// With once of each preemption.
    pub fn with_once(&self) -> u64 {
        self.steps + self.once
    }
}
