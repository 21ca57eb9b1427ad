//! Run in both implementations, on the core without a lazy pointer and on the one with it.

use felknost::{raw, RUN_RESULT};
use generate::Price;
use second::lazy::{LazyCore, View};
use second::run::{run_lazy_seen, Service};
use second::{code_and_place, RunResult, WORK_MIN};

use crate::guarded::{noise, Guarded};
use crate::services::{assert_answered, assert_checked, assert_cleared};
use crate::texts::steps;

/// What a run is lent.
#[derive(Clone, Debug, PartialEq, Eq)]
pub struct Lent {
    pub answers: Vec<u32>,
    pub cache: Vec<u32>,
    pub memory: Vec<u32>,
}

impl Lent {
    /// Buffers of noise.
    pub fn noisy(answers: usize, cache: usize, memory: usize) -> Self {
        Lent {
            answers: noise(answers),
            cache: noise(cache),
            memory: noise(memory),
        }
    }
}

/// The result of a run whose events are all done.
pub fn all_done(done: u32, moved: u64, allowed: u64) -> RunResult {
    RunResult {
        ending: Ok(()),
        done,
        moved,
        allowed,
    }
}

/// What a run gives: its result and the buffers.
#[derive(Clone, Debug, PartialEq, Eq)]
pub struct Ran {
    pub result: RunResult,
    pub lent: Lent,
}

impl Ran {
    /// Code and place, 0 and 0 where all events are done.
    pub fn verdict(&self) -> (u32, u32) {
        code_and_place(self.result.ending)
    }
}

/// What the two cores give.
#[derive(Debug, PartialEq, Eq)]
pub struct BothRan {
    pub eager: Ran,
    pub lazy: Ran,
}

impl BothRan {
    /// Whether the core with a lazy pointer moves less.
    pub fn lazy_moves_less(&self) -> bool {
        self.lazy.result.moved < self.eager.result.moved
    }
}

/// Runs an event list on these buffers with a working space of this length, on both cores in both implementations. Blocks are counted. This gives what the
/// core without a lazy pointer gives.
pub fn run(text: &[u8], events: &[u32], lent: &Lent, work: usize) -> Ran {
    run_at(text, Price::BLOCKS, events, lent, work)
}

/// Runs an event list at a price.
pub fn run_at(text: &[u8], price: Price, events: &[u32], lent: &Lent, work: usize) -> Ran {
    run_both_at(text, price, events, lent, work).eager
}

/// Runs an event list at a price, and requires that the cores agree in all but moved, which is no more on the one with a lazy pointer.
pub fn run_both_at(text: &[u8], price: Price, events: &[u32], lent: &Lent, work: usize) -> BothRan {
    let [eager, lazy] = [EAGER, LAZY].map(|core| core.run(text, price, events, lent, work));
    let moved = lazy.result.moved;
    let wanted = RunResult {
        moved,
        ..eager.result
    };
    assert_eq!(lazy.result, wanted, "the lazy core (left) and the other");
    assert_eq!(lazy.lent, eager.lent, "the lazy core (left) and the other");
    assert!(moved <= eager.result.moved, "the lazy core moves more");
    BothRan { eager, lazy }
}

/// A core in the archive and in the second implementation.
struct Core {
    name: &'static str,
    proved: raw::Runner,
    second: Service,
}

const EAGER: Core = Core {
    name: "run",
    proved: raw::run,
    second: second::run,
};

const LAZY: Core = Core {
    name: "lazy run",
    proved: raw::run_lazy,
    second: |text, start, each, work, events, answers, cache, memory| {
        let see = assert_clean;
        run_lazy_seen(text, start, each, work, events, answers, cache, memory, see)
    },
};

/// Requires ST ≤ LP ≤ MT with no more addresses between ST and MT than the cache has blocks, and that each block from LP up to MT equals its memory number.
fn assert_clean(core: &LazyCore) {
    let view = core.view();
    let View { cache, memory, .. } = view;
    let ordered = view.stack_top <= view.lazy && view.lazy <= view.memory_top;
    let cached = view.memory_top - view.stack_top <= cache.len();
    assert!(ordered && cached, "pointers: {view:?}");
    for address in view.lazy..view.memory_top {
        let block = cache[address % cache.len()];
        assert_eq!(block, memory[address], "not clean at {address}: {view:?}");
    }
}

impl Core {
    fn run(&self, text: &[u8], price: Price, events: &[u32], lent: &Lent, work: usize) -> Ran {
        let mut after = lent.clone();
        let result = (self.second)(
            text,
            price.start,
            price.each,
            work,
            events,
            &mut after.answers,
            &mut after.cache,
            &mut after.memory,
        );
        assert_checked(text, price, work, result.ending);
        let ran = Ran {
            result,
            lent: after,
        };
        self.run_in_archive(text, price, events, lent, work, &ran);
        ran
    }

    fn run_in_archive(
        &self,
        text: &[u8],
        price: Price,
        events: &[u32],
        lent: &Lent,
        work: usize,
        wanted: &Ran,
    ) {
        let mut answers = Guarded::holding(&lent.answers);
        let mut cache = Guarded::holding(&lent.cache);
        let mut memory = Guarded::holding(&lent.memory);
        let mut space = Guarded::noisy(work);
        let mut result = Guarded::noisy(RUN_RESULT + text.len() % 3);
        let answer = (self.proved)(
            text,
            price.start,
            price.each,
            events,
            answers.lent(),
            cache.lent(),
            memory.lent(),
            space.lent(),
            result.lent(),
        );
        assert_answered(self.name, answer, &result, &wanted.result.numbers());
        assert_eq!(answers.held("the answers"), wanted.lent.answers);
        assert_eq!(cache.held("the cache"), wanted.lent.cache);
        assert_eq!(memory.held("the memory"), wanted.lent.memory);
        assert_cleared(&space);
    }
}

/// Requires that a function of the archive leaves all as it was where the result is too short. The buffers fit [`TWO`](crate::TWO).
pub fn assert_short_run_results(function: raw::Runner, text: &[u8]) {
    for length in 0..RUN_RESULT {
        let mut answers = Guarded::noisy(7);
        let mut cache = Guarded::noisy(5);
        let mut memory = Guarded::noisy(6);
        let mut work = Guarded::noisy(WORK_MIN);
        let mut result = Guarded::noisy(length);
        let answer = function(
            text,
            0,
            1,
            &steps(7, 3),
            answers.lent(),
            cache.lent(),
            memory.lent(),
            work.lent(),
            result.lent(),
        );
        assert_eq!(answer, 0);
        assert_eq!(answers.held("the answers"), noise::<u32>(7));
        assert_eq!(cache.held("the cache"), noise::<u32>(5));
        assert_eq!(memory.held("the memory"), noise::<u32>(6));
        assert_eq!(work.held("the working space"), noise::<u32>(WORK_MIN));
        assert_eq!(result.held("the result"), noise::<u64>(length));
    }
}
