//! A task without a stack, which is the text of no byte, in every service: with outputs, working spaces, prices, event lists, answers, caches and memories of the
//! lengths that count, on both cores and on the plain stack. What each has to give is written here by hand. Texts of few bytes are refused, in every service.

use felknost::RESULT_DONE;
use generate::Price;
use second::plain::{self, PlainResult};
use second::{code_and_place, WORK_MIN};
use tests::{
    dearest_points_at, report_at, run_both_at, steps, verdict, BothRan, Lent, Named, Written,
};

const EMPTY: &[u8] = b"";

/// Its report, and its list of the dearest points.
const REPORT: &[u8] = b"(report\n  (total 0)\n)\n";
const LIST: &[u8] = b"";

/// The most bytes of an output that is tried.
const OUTPUT: usize = 30;

/// The lengths of a working space that are tried, three that are too short and two that are not.
const WORKS: [usize; 5] = [0, 1, 16_383, 16_384, 16_385];

/// The lengths of a cache and of a memory: none, those of the smallest and of the largest cache of a task with a stack, and one more.
const LENGTHS: [usize; 4] = [0, 1, 64, 65];

/// Kinds and values of events, known and unknown ones.
const KINDS: [u32; 8] = [0, 1, 2, 3, 7, 256, 65_536, u32::MAX];
const VALUES: [u32; 5] = [0, 1, 2, 3, u32::MAX];

/// Code and place, 0 and 0 where nothing is refused.
type Answer = (u32, u32);

/// Events, how many answers are lent, and how the run ends.
type List = (&'static [u32], usize, Answer);

const LISTS: [List; 16] = [
    (&[], 0, (0, 0)),
    (&[], 2, (0, 0)),
    (&[0], 0, (16, 0)),
    (&[7], 1, (16, 0)),
    (&[0, 0, 1], 1, (16, 0)),
    (&[2, 2, 2], 2, (16, 0)),
    (&[0, 0], 0, (17, 1)),
    (&[0, 0], 1, (22, 0)),
    (&[0, 0], 2, (22, 0)),
    (&[1, 5], 1, (22, 0)),
    (&[7, 9], 0, (17, 1)),
    (&[7, 9], 1, (22, 0)),
    (&[1, 5, 0, 2, 2, 0], 0, (17, 3)),
    (&[1, 5, 0, 2, 2, 0], 2, (17, 3)),
    (&[1, 5, 0, 2, 2, 0], 3, (22, 0)),
    (&[1, 5, 0, 2, 2, 0], 4, (22, 0)),
];

/// Texts of few bytes, and lines that are no task, each with its refusal.
const NEARLY: [(&[u8], Answer); 18] = [
    (b"\n", (2, 1)),
    (b"\n\n", (2, 1)),
    (b"\r\n", (2, 1)),
    (b" ", (2, 1)),
    (b" \n", (2, 1)),
    (b"\t", (2, 1)),
    (b"\0", (2, 1)),
    (b"\xef\xbb\xbf", (2, 1)),
    (b")\n", (2, 1)),
    (b"(func 0\n", (2, 1)),
    (b"(func 0\n  (return)\n)\n", (2, 1)),
    (b"(report\n  (total 0)\n)\n", (2, 1)),
    (b"(stack 1)", (2, 1)),
    (b"(stack 1)\n", (2, 2)),
    (b"(stack 64)\n", (2, 2)),
    (b"(stack 1)\n\n", (2, 2)),
    (b"(stack 0)\n", (3, 1)),
    (b"(stack 65)\n", (3, 1)),
];

/// Hands every price at the ends of the ranges and past them, with every working space, to `take`, and the refusal that comes before the text: 15, then 23.
fn before_the_text(mut take: impl FnMut(Price, usize, Option<Answer>)) {
    for price in Price::at_ends() {
        for work in WORKS {
            let refusal = match (work < 16_384, price.fits()) {
                (true, _) => Some((15, 16_384)),
                (false, false) => Some((23, 0)),
                (false, true) => None,
            };
            take(price, work, refusal);
        }
    }
}

#[test]
fn check() {
    assert_eq!(verdict(EMPTY), (0, 0));
    for work in WORKS {
        let wanted = match work < 16_384 {
            true => (15, 16_384),
            false => (0, 0),
        };
        let checked = code_and_place(second::check(EMPTY, work));
        assert_eq!(checked, wanted, "{work}");
    }
}

/// Requires that a service writes this into every output that is long enough, and nothing into a shorter one, at every price and with every working space.
fn writes(service: fn(&[u8], Price, usize, usize) -> Written, wanted: &[u8]) {
    before_the_text(|price, work, refusal| {
        let case = format!("{price:?}, {work}");
        for output in 0..=OUTPUT {
            let written = service(EMPTY, price, output, work);
            match refusal {
                Some(refusal) => assert_eq!(written.refusal(&case), refusal, "{case}, {output}"),
                None => written.assert_whole_or_none(wanted, &case),
            }
        }
    });
}

#[test]
fn report() {
    assert_eq!(REPORT.len(), 22);
    writes(report_at, REPORT);
}

#[test]
fn dearest_points() {
    writes(dearest_points_at, LIST);
}

/// Code and place of a run with so many answers and a cache and a memory of these lengths. Requires of both cores that no event is done, that nothing is moved and
/// nothing allowed, and that answers, cache and memory are as they were.
fn ending(text: &[u8], price: Price, events: &[u32], lengths: [usize; 3], work: usize) -> Answer {
    let first = &events[..events.len().min(6)];
    let case = format!(
        "{:?} {price:?} {first:?}.. {lengths:?} {work}",
        text.escape_ascii().to_string()
    );
    let _named = Named(&case);
    let [answers, cache, memory] = lengths;
    let lent = Lent::noisy(answers, cache, memory);
    let BothRan { eager, lazy } = run_both_at(text, price, events, &lent, work);
    for ran in [&eager, &lazy] {
        assert_eq!(ran.result.numbers()[RESULT_DONE..], [0, 0, 0]);
        assert_eq!(ran.verdict(), eager.verdict());
        assert_eq!(ran.lent, lent);
    }
    eager.verdict()
}

/// The same of the empty text, in blocks.
fn ending_of(events: &[u32], lengths: [usize; 3]) -> Answer {
    ending(EMPTY, Price::BLOCKS, events, lengths, WORK_MIN)
}

/// Every pair of a cache and a memory will do, longer ones than any task asks for among them.
#[test]
fn runs_on_every_cache_and_memory() {
    let pairs = LENGTHS.map(|cache| LENGTHS.map(|memory| [cache, memory]));
    let long = [[5, 6], [4_097, 0], [0, 4_097], [5_000, 70_000]];
    for [cache, memory] in pairs.into_iter().flatten().chain(long) {
        for (events, answers, wanted) in LISTS {
            let lengths = [answers, cache, memory];
            assert_eq!(ending_of(events, lengths), wanted, "{events:?} {lengths:?}");
        }
    }
}

/// The first event comes after the finish. Neither its kind nor its value counts, nor do the events behind it.
#[test]
fn every_kind_and_value() {
    for kind in KINDS {
        for value in VALUES {
            let events = [kind, value, value, kind];
            for (events, answers) in [(&events[..2], 1), (&events, 2), (&events, 3)] {
                let lengths = [answers, 1, 0];
                assert_eq!(ending_of(events, lengths), (22, 0), "{events:?}");
            }
        }
    }
}

/// A list may have 131,072 numbers.
#[test]
fn longest_list() {
    let of = |numbers: usize, answers| ending_of(&vec![0; numbers], [answers, 3, 2]);
    assert_eq!(of(131_071, 65_536), (16, 0));
    assert_eq!(of(131_072, 65_536), (22, 0));
    assert_eq!(of(131_072, 65_537), (22, 0));
    assert_eq!(of(131_072, 65_535), (17, 65_536));
    assert_eq!(of(131_072, 0), (17, 65_536));
    assert_eq!(of(131_073, 65_537), (16, 0));
    assert_eq!(of(131_074, 65_537), (16, 0));
    assert_eq!(of(131_074, 0), (16, 0));
}

/// 15, 23, then 16, 17 and 22. No task with a stack takes a cache of 65 blocks.
#[test]
fn order_of_the_refusals() {
    before_the_text(|price, work, refusal| {
        for (events, answers, wanted) in LISTS {
            let lengths = [answers, 65, 0];
            let wanted = refusal.unwrap_or(wanted);
            let ending = ending(EMPTY, price, events, lengths, work);
            assert_eq!(ending, wanted, "{price:?} {work} {events:?} {answers}");
        }
    });
}

/// The plain stack of the empty text, which does no event.
fn plain_stack(events: &[u32]) -> Option<Answer> {
    let ran = plain::run_seen(EMPTY, events, |seen| panic!("{seen:?} is done"));
    ran.map(
        |PlainResult {
             ending,
             done,
             answers,
         }| {
            assert_eq!((done, answers), (0, vec![]));
            code_and_place(ending)
        },
    )
}

/// It has finished before the first event, as the runs have.
#[test]
fn plain_stack_has_finished() {
    assert_eq!(plain_stack(&[]), Some((0, 0)));
    assert_eq!(plain_stack(&steps(65_536, 0)), Some((22, 0)));
    for kind in KINDS {
        for value in VALUES {
            assert_eq!(plain_stack(&[kind, value, 0, 0]), Some((22, 0)));
        }
    }
    for (events, _, wanted) in LISTS {
        if matches!(wanted.0, 0 | 22) {
            assert_eq!(plain_stack(events), Some(wanted), "{events:?}");
        }
    }
    // A stack line asks for a function.
    assert_eq!(plain::run(b"(stack 1)\n", &[]), None);
}

/// Requires that every service refuses a text so, with all that the empty text asks for.
fn refused_by_every_service(text: &[u8], wanted: Answer) {
    let case = format!("{:?}", text.escape_ascii().to_string());
    assert_eq!(verdict(text), wanted, "{case}");
    for service in [report_at, dearest_points_at] {
        let written = service(text, Price::BLOCKS, OUTPUT, WORK_MIN);
        assert_eq!(written.refusal(&case), wanted, "{case}");
    }
    for events in [&[][..], &[0, 0]] {
        let ending = ending(text, Price::BLOCKS, events, [1, 1, 1], WORK_MIN);
        assert_eq!(ending, wanted, "{case} {events:?}");
    }
}

#[test]
fn nearly_empty_texts() {
    for (text, wanted) in NEARLY {
        refused_by_every_service(text, wanted);
    }
}

#[test]
fn every_text_of_one_byte() {
    for byte in 0..=255 {
        refused_by_every_service(&[byte], (2, 1));
    }
}

#[test]
fn every_text_of_two_bytes() {
    for bytes in 0..=u16::MAX {
        let text = bytes.to_le_bytes();
        assert_eq!(verdict(text), (2, 1), "{text:?}");
    }
}

/// What only the archive can show.
mod in_archive {
    use super::*;
    use felknost::{raw, Refusal, Row, RunResult};
    use tests::{assert_short_results, assert_short_run_results};

    #[test]
    fn a_result_that_is_too_short_leaves_all_as_it_was() {
        for function in [raw::report, raw::dearest_points] {
            assert_short_results(function, EMPTY);
        }
        for function in [raw::run, raw::run_lazy] {
            assert_short_run_results(function, EMPTY);
        }
    }

    fn refused<T>(row: Row, place: u32) -> Result<T, Refusal> {
        Err(Refusal { row, place })
    }

    #[test]
    fn binding() {
        let mut output = [7; OUTPUT];
        let mut work = vec![7; felknost::WORK];
        assert_eq!(felknost::check(EMPTY), Ok(()));
        let listed = felknost::dearest_points(EMPTY, 0, 1, &mut [], &mut work);
        assert_eq!(listed, Ok(0));
        let short = felknost::report(EMPTY, 0, 1, &mut output[..21], &mut work);
        assert_eq!(short, refused(Row::OutputTooSmall, 22));
        let reported = felknost::report(EMPTY, 0, 1, &mut output, &mut work);
        assert_eq!(reported, Ok(22));
        assert_eq!(output[..22], *REPORT);
        assert_eq!(output[22..], [7; 8]);
    }

    #[test]
    fn binding_of_the_runs() {
        let mut work = vec![7; felknost::WORK];
        for function in [felknost::run, felknost::run_lazy] {
            let (mut answers, mut cache, mut memory) = ([7; 2], [7; 3], [7]);
            let mut call = |events: &[u32]| {
                let (cache, memory) = (&mut cache, &mut memory);
                function(EMPTY, 0, 1, events, &mut answers, cache, memory, &mut work)
            };
            let ended = |ending| RunResult {
                ending,
                done: 0,
                moved: 0,
                allowed: 0,
            };
            assert_eq!(call(&[]), ended(Ok(())));
            let after = refused(Row::AfterFinish, 0);
            assert_eq!(call(&[1, 9, 0, 0]), ended(after));
            let odd = refused(Row::EventList, 0);
            assert_eq!(call(&[1]), ended(odd));
            let few = refused(Row::AnswersTooSmall, 3);
            assert_eq!(call(&[0; 6]), ended(few));
            assert_eq!((answers, cache, memory), ([7; 2], [7; 3], [7]));
        }
    }
}
