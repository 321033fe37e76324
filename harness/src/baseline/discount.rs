//! The plant discount, EQ15 and EQ16, in ten-thousandths.
use super::{refusal, Answer, Outcome};

const LARGEST: u32 = 20_000;

/// Half-widths of the first class and of the second, then their stocks. Inlined, so that the lists stay in registers.
#[inline(always)]
pub fn discount(lists: [&[u32]; 4]) -> Outcome {
    let pools = lists[0].len();
    if lists.iter().any(|list| list.len() != pools) || !(1..=5).contains(&pools) {
        return Err(refusal(19, 0));
    }
    // One loop for the greatest value and all sums.
    let (mut greatest, mut squares, mut distance) = (0, 0, 0);
    for pool in 0..pools {
        let [first_width, second_width, first_stock, second_stock] = lists.map(|list| list[pool]);
        greatest = first_width.max(second_width).max(greatest);
        greatest = first_stock.max(second_stock).max(greatest);
        squares += square(first_width) + square(second_width);
        distance += i64::from(first_stock) - i64::from(second_stock);
    }
    if greatest > LARGEST {
        return Err(first_refusal(lists));
    }
    Ok(ten_thousandths(squares, distance.unsigned_abs()))
}

/// A square that wraps is of a value that is refused.
fn square(width: u32) -> u64 {
    u64::from(width.wrapping_mul(width))
}

/// The first list with a value that is too large.
#[cold]
fn first_refusal(lists: [&[u32]; 4]) -> Answer {
    let valid = |list: &&&[u32]| list.iter().all(|&value| value <= LARGEST);
    refusal(20, lists.iter().take_while(valid).count())
}

/// Q is `squares` and D `distance`.
#[inline(always)]
fn ten_thousandths(squares: u64, distance: u64) -> u32 {
    if distance == 0 {
        return 0;
    }
    if 400 * squares <= 9 * distance * distance {
        return 10_000;
    }
    if squares >= distance * distance {
        return 0;
    }
    // 10,000 × √Q / D rounded up, by its square: the root of the whole number just below it, rounded down, and 1 more.
    let below = (100_000_000 * squares - 1) / (distance * distance);
    9_999 - (below as u32).isqrt()
}
