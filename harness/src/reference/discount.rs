//! Discount: "four lists in tenths of t CO2e per ha, one value for each carbon pool".

use super::stops::{accepted, stop, value_too_great, wrong_lengths};
use crate::Answer;

/// Where discount stops.
fn stop_discount(lists: [&[u32]; 4]) -> Result<(), Answer> {
    stop(19, wrong_lengths(lists))?;
    stop(20, value_too_great(lists))
}

/// "half-widths of the first class, of the second, stocks of the first, of the second (lists 0
/// to 3)"; "D the distance of the stock sums"
pub fn discount(
    first_widths: &[u32],
    second_widths: &[u32],
    first_stocks: &[u32],
    second_stocks: &[u32],
) -> Answer {
    let lists = [first_widths, second_widths, first_stocks, second_stocks];
    if let Err(refusal) = stop_discount(lists) {
        return refusal;
    }
    let q = sum_of_squares(first_widths) + sum_of_squares(second_widths);
    let d = (sum(first_stocks) - sum(second_stocks)).abs();
    accepted(ten_thousandths(q, d))
}

/// The sum of a list.
fn sum(list: &[u32]) -> i128 {
    list.iter().map(|&value| i128::from(value)).sum()
}

/// "Q is the sum of all squared half-widths": those of one list.
fn sum_of_squares(list: &[u32]) -> i128 {
    list.iter()
        .map(|&value| i128::from(value) * i128::from(value))
        .sum()
}

/// "In ten-thousandths: 0 if D is 0; 10,000 if 400 × Q ≤ 9 × D × D; 0 if Q ≥ D × D; else
/// 10,000 × (1 − √Q / D) rounded down."
fn ten_thousandths(q: i128, d: i128) -> i128 {
    if d == 0 {
        0
    } else if 400 * q <= 9 * d * d {
        10_000
    } else if q >= d * d {
        0
    } else {
        one_less_root_over_d(q, d)
    }
}

/// "10,000 × (1 − √Q / D) rounded down", for D above 0: 10,000 minus √(10^8 × Q) / D rounded up,
/// since what is taken from a whole number is rounded the other way. The root may be rounded up
/// before the division: for whole n, it is at most n × D exactly if it is so rounded up.
fn one_less_root_over_d(q: i128, d: i128) -> i128 {
    let root = root_rounded_up(10_000 * 10_000 * q);
    let root_over_d_rounded_up = (root + d - 1) / d;
    10_000 - root_over_d_rounded_up
}

/// The least whole number, from 0 on, whose square is at least n. Doubling finds one that is large
/// enough; then halving, where every number below `least` is too small, until the two meet.
fn root_rounded_up(n: i128) -> i128 {
    let mut least = 0;
    let mut enough = 1;
    while enough * enough < n {
        enough *= 2;
    }
    while least < enough {
        let middle = (least + enough) / 2;
        if middle * middle >= n {
            enough = middle;
        } else {
            least = middle + 1;
        }
    }
    least
}
