//! The proved calls beside the reference: answers and the whole contents of every lent slice, on more than a million
//! random calls, and document 01's four claims on lists of calls. It prints a table of what was met.
mod blocks;
mod books;
mod conversions;
mod dips;
mod lent;
mod lists;
mod pools;
mod readings;
mod rule;

use harness::met::Met;
use std::time::Instant;

const LEAST_CASES: u64 = 1_000_000;

type Part = fn(u64, &mut Met);

/// Each part with its seed, side by side.
const PARTS: [(Part, u64); 12] = [
    (lists::lists, 1),
    (lists::lists, 11),
    (lists::lists, 12),
    (books::any_book, 2),
    (books::rich_books, 8),
    (conversions::conversions, 9),
    (books::forecasts, 3),
    (readings::readings, 4),
    (readings::cores_next_to_whole_millimetres, 0),
    (pools::discounts, 5),
    (blocks::logged_blocks, 6),
    (dips::dips, 7),
];

fn main() {
    let start = Instant::now();
    let mut met = Met::default();
    std::thread::scope(|scope| {
        let parts = PARTS.map(|(part, seed)| {
            scope.spawn(move || {
                let mut met = Met::default();
                part(seed, &mut met);
                met
            })
        });
        for part in parts {
            met.add(&part.join().expect("a part that agrees"));
        }
    });
    print!("{met}");
    let seconds = start.elapsed().as_secs_f64();
    let cases = met.cases();
    println!("{cases} calls agree with the reference, in {seconds:.1} s");
    assert!(cases >= LEAST_CASES);
    assert!(met.never().is_empty(), "never met: {:?}", met.never());
}
