//! Report on generated texts, with outputs of every length around the one wanted, buffers that are not zero, and any price.

use std::ops::Range;

use generate::Price;
use second::WORK_MIN;
use tests::{report, report_at, rows, verdict, whole_report, Wanted};

/// How many texts of each kind are reported on.
const VALID: u64 = 50_000;
const WRAPPERS: u64 = 30_000;
const DAMAGED: u64 = 50_000;
const PRICED: u64 = 8_000;
const COMPARED: u64 = 2_000;

#[test]
fn reports_of_accepted_texts() {
    for seed in 0..VALID {
        let case = generate::valid(seed + 4_000_000);
        Wanted::report(&case.text, Price::BLOCKS).write_around(&case, seed);
    }
}

/// Every third at a price.
#[test]
fn reports_of_wrappers() {
    for seed in 0..WRAPPERS {
        let case = generate::wrappers(seed + 16_000_000);
        let price = match seed % 3 {
            0 => generate::price(seed),
            _ => Price::BLOCKS,
        };
        let named = format!("{case} {price:?}");
        Wanted::report(&case.text, price).write_around(&named, seed);
    }
}

#[test]
fn reports_of_damaged_texts() {
    for seed in 0..DAMAGED {
        let case = generate::damaged(seed + 5_000_000);
        let reported = report(&case.text, 40, WORK_MIN + seed as usize % 5);
        let refusal = reported.refusal(&case);
        let checked = verdict(&case.text);
        if checked != (0, 0) {
            assert_eq!(refusal, checked, "{case}");
        }
    }
}

#[test]
fn reports_at_any_price() {
    for seed in 0..PRICED {
        let case = generate::valid(seed + 8_000_000);
        let price = generate::any_price(seed);
        let named = format!("{case} {price:?}");
        if price.fits() {
            Wanted::report(&case.text, price).write_around(&named, seed);
        } else {
            let reported = report_at(&case.text, price, 40, WORK_MIN + seed as usize % 5);
            assert_eq!(reported.refusal(&named), (23, 0), "{named}");
        }
    }
}

/// Every length from 0 to some bytes too many, on small tasks.
#[test]
fn every_output_length() {
    for seed in 0..60 {
        let small = generate::small(seed + 6_000_000, 8);
        let price = match seed % 3 {
            0 => generate::price(seed),
            _ => Price::BLOCKS,
        };
        let sheet = Wanted::report(&small.text, price);
        for output in 0..sheet.bytes.len() + 8 {
            sheet.write_into(&small, output, WORK_MIN);
        }
    }
}

/// The columns of moves in a func line and in an at line. Those of an at line end before once, which is in blocks alone.
const MOVES: Range<usize> = 4..10;

/// What a line but that of the total says at a price, from the same line in blocks and the chain of the function.
fn priced(price: Price, word: &str, blocks: &[u32], chain: u32) -> Vec<u32> {
    let of = |blocks| price.of(blocks);
    match (word, blocks) {
        ("func", &[number, frame, shortest, longest, spill, _]) => {
            vec![number, frame, shortest, longest, of(spill), chain]
        }
        ("at", &[number, high, dead, need, save, reload, later, _, _, fill, once]) => {
            let parts = [of(save), of(reload), of(later), chain];
            let cost = parts.iter().sum();
            let mut line = [&[number, high, dead, need][..], &parts, &[cost, of(fill)]].concat();
            line.extend((price == Price::BLOCKS).then_some(once));
            line
        }
        _ => panic!("a line {word} {blocks:?}"),
    }
}

/// K, d, D, high, dead and need are those of the report in blocks, each move is the price of the one there, the total is the sum of the costs at the price,
/// and once is in blocks alone. The chain of a function, in all of its lines, is taken from the report; the test `figures_equal_a_search_over_walks` has another.
#[test]
fn blocks_are_kept_and_moves_are_priced() {
    let mut moves = 0;
    for seed in 0..COMPARED {
        let case = generate::valid(seed + 9_000_000);
        let price = generate::price(seed);
        let (mut chain, mut total) = (0, 0);
        let reports = [Price::BLOCKS, price].map(|price| whole_report(&case.text, price));
        let [blocks, prices] = reports.each_ref().map(|report| rows(report));
        assert_eq!(blocks.len(), prices.len(), "{case}");
        for ((word, blocks), line) in blocks.iter().zip(&prices) {
            if *word == "func" {
                chain = line.1[5];
                assert_eq!(chain > 0, blocks[5] > 0, "{case} {price:?}");
            }
            let wanted = match *word {
                "total" => vec![total],
                _ => priced(price, word, blocks, chain),
            };
            if *word == "at" {
                total += wanted[8];
            }
            assert_eq!(*line, (*word, wanted), "{case} {price:?}");
            let in_moves = blocks.iter().take(MOVES.end).skip(MOVES.start);
            moves += in_moves.filter(|&&blocks| blocks > 0).count();
        }
    }
    assert!(moves > 100_000);
}

/// What only the archive can show.
mod in_archive {
    use super::*;
    use felknost::raw;
    use tests::{assert_binding, assert_short_results, TWO};

    #[test]
    fn a_result_that_is_too_short_leaves_all_as_it_was() {
        assert_short_results(raw::report, TWO.as_bytes());
    }

    #[test]
    fn binding() {
        let wanted = |text: &[u8], price| Wanted::report(text, price).bytes;
        assert_binding(felknost::report, 297, wanted);
    }
}
