//! A cell's peat: what a year takes of it, and what that emits.
use super::bits;

/// The most that can be lost by a cell with this first word, where peat is of this thickness at least.
pub fn most_loss(thickness: u32, depth: u32) -> u32 {
    let entered = bits(depth, 15, 0);
    if entered < thickness {
        0
    } else {
        entered
    }
}

/// Oxidised and burned mm of a year, of a cell of which `lost` mm are gone and `remaining` are left: the
/// row's limits, no more than remains, and nothing below the water; a fire leaves the guard dry.
#[inline(always)]
pub fn loss(guard: u32, row: u32, lost: u32, remaining: u32) -> (u32, u32) {
    let d = (10 * bits(row, 27, 20)).saturating_sub(lost);
    let burned = bits(row, 9, 0).min(remaining.min(d.saturating_sub(guard)));
    // What burned is not above either, so nothing goes below zero.
    let oxidised = bits(row, 19, 10).min(remaining.min(d) - burned);
    (oxidised, burned)
}

/// Emission to date in kg, by the weight of a burned mm and a cell's second word: at most 816,000,000.
#[inline(always)]
pub fn emission(burned_weight: u64, area: u32, oxidised: u32, burned: u32) -> u32 {
    let carbon = u64::from(bits(area, 25, 12) * bits(area, 11, 0));
    let weights = 1_100_000 * u64::from(oxidised) + burned_weight * u64::from(burned);
    (carbon * weights / 3_000_000_000) as u32
}
