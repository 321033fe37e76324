//! Field readings in metres to whole millimetres.
use super::{accepted, refusal, Answer};
use std::ops::RangeInclusive;

const CORES: RangeInclusive<f32> = 0.0..=20.0;
const LEVELS: RangeInclusive<f32> = -100.0..=3_000.0;

pub extern "C" fn core(metres: f32) -> Answer {
    // No number that is not finite lies in a range.
    if !CORES.contains(&metres) {
        return refusal(if metres.is_finite() { 17 } else { 16 }, 0);
    }
    accepted(millimetres(metres) as u32)
}

pub extern "C" fn levels(surface: f32, base: f32) -> Answer {
    if !(LEVELS.contains(&surface) && LEVELS.contains(&base)) {
        return wrong_level(surface, base);
    }
    let depth = millimetres(surface) - millimetres(base);
    if !(0..=20_000).contains(&depth) {
        return refusal(17, 2);
    }
    accepted(depth as u32)
}

/// Of two levels of which one at least is refused: 16 for both before 17.
#[cold]
fn wrong_level(surface: f32, base: f32) -> Answer {
    if !surface.is_finite() {
        refusal(16, 0)
    } else if !base.is_finite() {
        refusal(16, 1)
    } else {
        refusal(17, usize::from(LEVELS.contains(&surface)))
    }
}

/// 24 bits times 1,000 fit the 53 bits of an f64, so the product is exact.
#[inline(always)]
fn millimetres(metres: f32) -> i32 {
    let exact = f64::from(metres) * 1_000.0;
    // The cast goes towards zero; one less is the floor below it. This spares a call of `floor`.
    let cut = exact as i32;
    cut - i32::from(f64::from(cut) > exact)
}
