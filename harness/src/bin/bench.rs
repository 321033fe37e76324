//! Times the proved calls and the baseline's on the same inputs, in turn, and prints their ratio.
use harness::generate::{self, Random};
use harness::proved;
use harness::site::Site;
use harness::timed::{Calls, BASELINE, PROVED};
use std::hint::black_box;
use std::time::Instant;

/// Many short rounds: the least of them is the one that nothing else disturbed.
const ROUNDS: usize = 200;

/// The mean nanoseconds of one run. Never inlined, so that both sides run through the same code around the call.
#[inline(never)]
fn time(calls: &Calls, runs: u32, run: &mut impl FnMut(&Calls)) -> f64 {
    let start = Instant::now();
    for _ in 0..runs {
        run(black_box(calls));
    }
    start.elapsed().as_nanos() as f64 / f64::from(runs)
}

/// Both sides in turn, so that they see the same machine; the least round of each. `calls` in one run.
fn compare(name: &str, runs: u32, calls: usize, mut run: impl FnMut(&Calls)) -> f64 {
    let mut least = [f64::MAX; 2];
    for _ in 0..ROUNDS {
        for (side, least) in [&PROVED, &BASELINE].into_iter().zip(&mut least) {
            *least = least.min(time(side, runs, &mut run));
        }
    }
    let [proved, baseline] = least.map(|least| least / calls as f64);
    println!(
        "{name:<9} {proved:>12.1} {baseline:>12.1} {:>8.2}",
        proved / baseline
    );
    proved
}

/// A book of the middle year.
fn middle_book(site: &Site) -> Vec<u32> {
    let listing = &site.words();
    let mut book = vec![0; site.book_words()];
    let mut lines = vec![0; site.line_words()];
    assert_eq!(proved::open(listing, &mut book).number, 0);
    for _ in 0..50 {
        assert_eq!(proved::close(listing, &mut book, &mut lines).number, 0);
    }
    book
}

fn heading(cells: usize) {
    println!("{cells} cells, 16 strata, 100 years, 700 terms; nanoseconds of a call, least of {ROUNDS} rounds");
    println!(
        "{:<9} {:>12} {:>12} {:>8}",
        "call", "proved", "baseline", "ratio"
    );
}

/// Close, issue and forecast on the largest listing of so many cells; nanoseconds of a proved closing.
fn ledger_calls(site: &Site) -> f64 {
    heading(site.cells.len());
    let listing = &site.words()[..];
    let middle = middle_book(site);
    let mut book = middle.clone();
    let mut lines = vec![0; site.line_words()];
    // Each run closes a fresh copy; copying is in both times, and about a hundredth of them.
    let closing = compare("close", 200, 1, |calls| {
        book.copy_from_slice(black_box(&middle));
        let answer = calls.close(black_box(listing), &mut book, &mut lines);
        assert_eq!(black_box(answer).number, 0);
        black_box((&book, &lines));
    });
    book.copy_from_slice(&middle);
    compare("issue", 200, 1, |calls| {
        book[1..3].copy_from_slice(black_box(&middle[1..3]));
        let answer = calls.issue(black_box(listing), &mut book);
        assert!(black_box(answer).value > 0);
        black_box(&book);
    });
    let mut output = [0; 100];
    compare("forecast", 10, 1, |calls| {
        let answer = calls.forecast(black_box(listing), &mut book, &mut output);
        assert_eq!(black_box(answer).number, 0);
        black_box((&book, &output));
    });
    closing
}

/// A core, a surface and a base that are accepted.
fn readings() {
    let random = &mut Random(9);
    let metres = |random: &mut Random, most| random.between(0, most) as f32 / 7_777.0;
    let readings: Vec<[f32; 3]> = (0..500)
        .map(|_| {
            let [core, depth] = [0; 2].map(|_| metres(random, 150_000));
            let base = metres(random, 3_000_000) - 50.0;
            [core, base + depth, base]
        })
        .collect();
    compare("reading", 100, 2 * readings.len(), |calls| {
        for &[core, surface, base] in black_box(&readings) {
            black_box(calls.core(core));
            black_box(calls.levels(surface, base));
        }
    });
}

/// Pools as the tests draw them: mostly a root, some whole answers, some refusals.
fn discounts() {
    let random = &mut Random(10);
    let pools: Vec<[Vec<u32>; 4]> = (0..1_000).map(|_| generate::pools(random)).collect();
    compare("discount", 50, pools.len(), |calls| {
        for [first_widths, second_widths, first_stocks, second_stocks] in black_box(&pools) {
            black_box(calls.discount(first_widths, second_widths, first_stocks, second_stocks));
        }
    });
}

fn main() {
    // As many cells as there were before a thousand, to compare.
    ledger_calls(&generate::largest_of(256));
    let closing = ledger_calls(&generate::largest());
    readings();
    discounts();
    println!("closings per second, proved: {:.0}", 1e9 / closing);
}
