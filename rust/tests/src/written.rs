//! The services that write to an output, report and the dearest points, in both implementations.

use std::fmt::Display;

use felknost::{raw, Refusal, Row, WRITE_RESULT};
use generate::Price;
use second::figures::{figures, Figures};
use second::text::Task;
use second::{admit_at, code_and_place, dearest, sheet, WriteResult, WORK_MIN};

use crate::guarded::{is_noise_from, noise, Guarded};
use crate::services::{assert_answered, assert_checked, assert_cleared};
use crate::texts::TWO;

/// What a service gives: its result and the output, which held noise before.
#[derive(Debug, PartialEq, Eq)]
pub struct Written {
    pub result: WriteResult,
    pub output: Vec<u8>,
}

impl Written {
    /// Requires that these bytes were written and nothing behind them, or, where the output is shorter, nothing at all, with refusal 14.
    pub fn assert_whole_or_none(&self, bytes: &[u8], case: &impl Display) {
        let output = self.output.len();
        let wanted = bytes.len() as u64;
        let (numbers, bytes) = match bytes.len() <= output {
            true => ([0, 0, wanted], bytes),
            false => ([14, wanted, 0], &[][..]),
        };
        assert_eq!(self.result.numbers(), numbers, "{case}, {output}");
        let (front, rest) = self.output.split_at(bytes.len());
        assert!(front == bytes, "{case}, {output}");
        assert!(is_noise_from(bytes.len(), rest), "{case}, {output}");
    }

    /// Code and place. Requires that nothing was written.
    pub fn refusal(&self, case: &impl Display) -> (u32, u32) {
        assert_eq!(self.result.written, 0, "{case}");
        assert!(is_noise_from(0, &self.output), "{case}");
        code_and_place(self.result.verdict)
    }
}

/// A service in the archive and in the second implementation.
struct Service {
    name: &'static str,
    proved: raw::Writer,
    second: fn(&[u8], u32, u32, usize, &mut [u8]) -> WriteResult,
    print: fn(&Task, &Figures) -> String,
    /// The length of an output that is enough for every text and price.
    enough: usize,
}

const REPORT: Service = Service {
    name: "report",
    proved: raw::report,
    second: second::report,
    print: sheet::print,
    enough: felknost::OUTPUT,
};

const DEAREST_POINTS: Service = Service {
    name: "dearest points",
    proved: raw::dearest_points,
    second: second::dearest_points,
    print: dearest::print,
    enough: felknost::DEAREST_OUTPUT,
};

impl Service {
    fn write(&self, text: &[u8], price: Price, output: usize, work: usize) -> Written {
        let mut output = noise(output);
        let result = (self.second)(text, price.start, price.each, work, &mut output);
        assert_checked(text, price, work, result.verdict);
        let written = Written { result, output };
        self.write_in_archive(text, price, work, &written);
        written
    }

    fn write_in_archive(&self, text: &[u8], price: Price, work: usize, wanted: &Written) {
        let mut output = Guarded::noisy(wanted.output.len());
        let mut space = Guarded::noisy(work);
        let mut result = Guarded::noisy(WRITE_RESULT + text.len() % 3);
        let answer = (self.proved)(
            text,
            price.start,
            price.each,
            output.lent(),
            space.lent(),
            result.lent(),
        );
        assert_answered(self.name, answer, &result, &wanted.result.numbers());
        assert!(output.held("the output") == wanted.output, "the output");
        assert_cleared(&space);
    }
}

/// Reports into an output of this length with a working space of that length, in both implementations. Blocks are counted.
pub fn report(text: &[u8], output: usize, work: usize) -> Written {
    report_at(text, Price::BLOCKS, output, work)
}

/// Reports at a price.
pub fn report_at(text: &[u8], price: Price, output: usize, work: usize) -> Written {
    REPORT.write(text, price, output, work)
}

/// Lists the dearest points at a price.
pub fn dearest_points_at(text: &[u8], price: Price, output: usize, work: usize) -> Written {
    DEAREST_POINTS.write(text, price, output, work)
}

/// Requires that a function of the archive leaves all as it was where the result is too short.
pub fn assert_short_results(function: raw::Writer, text: &[u8]) {
    for length in 0..WRITE_RESULT {
        let mut output = Guarded::noisy(300);
        let mut work = Guarded::noisy(WORK_MIN);
        let mut result = Guarded::noisy(length);
        let answer = function(text, 0, 1, output.lent(), work.lent(), result.lent());
        assert_eq!(answer, 0);
        assert_eq!(output.held("the output"), noise::<u8>(300));
        assert_eq!(work.held("the working space"), noise::<u32>(WORK_MIN));
        assert_eq!(result.held("the result"), noise::<u64>(length));
    }
}

/// A function of the binding that writes.
type Binding = fn(&[u8], u32, u32, &mut [u8], &mut [u32]) -> Result<usize, Refusal>;

/// Requires of a function of the binding what is wanted of [`TWO`], in blocks, where it has this length, and at a start of 10; and the refusals 14, 15, 23 and 2.
pub fn assert_binding(function: Binding, length: u32, wanted: impl Fn(&[u8], Price) -> Vec<u8>) {
    let mut output = [7; 400];
    let mut work = vec![7; felknost::WORK];
    let text = TWO.as_bytes();
    for (start, each) in [(0, 1), (10, 1)] {
        let wanted = wanted(text, Price { start, each });
        let written = function(text, start, each, &mut output, &mut work);
        assert_eq!(written, Ok(wanted.len()));
        assert_eq!(output[..wanted.len()], wanted);
    }
    let refused = |row, place| Err(Refusal { row, place });
    let short = &mut output[..length as usize - 1];
    let no_room = function(text, 0, 1, short, &mut work);
    assert_eq!(no_room, refused(Row::OutputTooSmall, length));
    let no_space = function(text, 0, 1, &mut output, &mut work[1..]);
    assert_eq!(no_space, refused(Row::WorkTooSmall, 16_384));
    for (start, each) in [(256, 1), (0, 0)] {
        let no_price = function(text, start, each, &mut output, &mut work);
        assert_eq!(no_price, refused(Row::PriceRange, 0));
    }
    let no_task = function(b"\n", 0, 1, &mut [], &mut work);
    assert_eq!(no_task, refused(Row::Form, 1));
}

/// An accepted text, a price that fits, and the bytes that a service has to write of them.
pub struct Wanted<'a> {
    service: Service,
    text: &'a [u8],
    price: Price,
    pub bytes: Vec<u8>,
}

impl<'a> Wanted<'a> {
    /// The report.
    pub fn report(text: &'a [u8], price: Price) -> Self {
        Wanted::of(REPORT, text, price)
    }

    /// The list of the dearest points.
    pub fn dearest_points(text: &'a [u8], price: Price) -> Self {
        Wanted::of(DEAREST_POINTS, text, price)
    }

    /// What the second implementation prints.
    fn of(service: Service, text: &'a [u8], price: Price) -> Self {
        let admitted = admit_at(text, price.start, price.each, WORK_MIN);
        let (task, of) = admitted.expect("an accepted text");
        let bytes = (service.print)(&task, &figures(&task, of)).into_bytes();
        Wanted {
            service,
            text,
            price,
            bytes,
        }
    }

    /// Writes into an output of this length, and requires all bytes or refusal 14.
    pub fn write_into(&self, case: &impl Display, output: usize, work: usize) {
        let written = self.service.write(self.text, self.price, output, work);
        written.assert_whole_or_none(&self.bytes, case);
    }

    /// Writes into an output from four bytes too few to four too many, or one that is always enough, and with some working space to spare.
    pub fn write_around(&self, case: &impl Display, seed: u64) {
        let output = match seed as usize % 10 {
            9 => self.service.enough,
            near => self.bytes.len() + near - 4,
        };
        self.write_into(case, output, WORK_MIN + seed as usize % 5);
    }
}
