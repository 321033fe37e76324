//! Discounts of carbon pools.
use harness::generate::{self, Random};
use harness::met::Met;
use harness::{Answer, PROVED, REFERENCE};

pub fn discounts(seed: u64, met: &mut Met) {
    let random = &mut Random(seed);
    for _ in 0..200_000 {
        let lists = generate::pools(random);
        let [first_widths, second_widths, first_stocks, second_stocks] = &lists;
        let [proved, reference] = [&PROVED, &REFERENCE].map(|ledger| {
            (ledger.discount)(first_widths, second_widths, first_stocks, second_stocks)
        });
        assert_eq!(proved, reference, "{lists:?}");
        met.answer("discount", proved.number);
        count(met, &lists, proved);
    }
}

fn count(met: &mut Met, lists: &[Vec<u32>; 4], answer: Answer) {
    match answer.number {
        19 => {
            let lengths = lists.each_ref().map(Vec::len);
            let row = match lengths[0] {
                first if lengths != [first; 4] => "unequal lengths",
                0 => "no value",
                _ => "more than 5",
            };
            met.count("19 by", row);
        }
        20 => {
            let places = ["place 0", "place 1", "place 2", "place 3"];
            met.count("20 at", places[answer.place]);
        }
        _ => met.count("discount where", case(lists)),
    }
}

/// Which of the paper's four cases it is, and whether it is met at its very end.
fn case(lists: &[Vec<u32>; 4]) -> &'static str {
    let sum = |list: &[u32]| list.iter().map(|&value| u64::from(value)).sum::<u64>();
    let widths = lists[0].iter().chain(&lists[1]);
    let q: u64 = widths.map(|&width| u64::from(width).pow(2)).sum();
    let d = sum(&lists[2]).abs_diff(sum(&lists[3]));
    if d == 0 {
        "D is 0"
    } else if 400 * q < 9 * d * d {
        "400 Q is below 9 D D"
    } else if 400 * q == 9 * d * d {
        "400 Q is 9 D D"
    } else if q == d * d {
        "Q is D D"
    } else if q > d * d {
        "Q is above D D"
    } else {
        "a root is taken"
    }
}
