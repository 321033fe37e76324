//! Readings: "a core depth in metres, a pair of surface and base levels in metres, or missing",
//! by exact fractions.

use super::stops::{accepted, missing, not_finite, out_of_range, stop};
use super::words::{bits, power_of_two};
use crate::{Answer, Reading};

/// A number as a fraction of two whole numbers; the denominator is above 0.
struct Fraction {
    numerator: i128,
    denominator: i128,
}

/// Whether a binary32 is finite: its eight exponent bits are not all ones.
pub fn is_finite(number: f32) -> bool {
    bits(number.to_bits(), 30, 23) != 255
}

/// The value of a finite binary32, sign × mantissa × 2^exponent, as a fraction. The exponent is
/// from −149 to 104, but is limited to −100 to 60 so that all fits i128. No answer changes by this:
/// - a value with an exponent below −100 is nearer to 0 than 2^−76, and so is the one limited to
///   −100. Both are 0, or both above 0, or both below 0; so 1,000 times either has the same floor
///   (0 or −1), and both lie on the same side of every range end, which are whole numbers.
/// - a value with an exponent above 60 is further from 0 than 2^60, and so is the one limited to 60.
///   Both have the same sign, and no range reaches so far.
fn fraction(number: f32) -> Fraction {
    let word = number.to_bits();
    let sign = if bits(word, 31, 31) == 1 { -1 } else { 1 };
    let (mantissa, exponent) = match bits(word, 30, 23) {
        0 => (bits(word, 22, 0), -149),
        stored => (power_of_two(23) + bits(word, 22, 0), stored - 150),
    };
    let held = exponent.clamp(-100, 60);
    if held >= 0 {
        Fraction {
            numerator: sign * mantissa * power_of_two(held),
            denominator: 1,
        }
    } else {
        Fraction {
            numerator: sign * mantissa,
            denominator: power_of_two(-held),
        }
    }
}

/// Whether the exact value of a finite number lies in `least` to `greatest` metres.
pub fn lies_in(number: f32, least: i128, greatest: i128) -> bool {
    let Fraction {
        numerator,
        denominator,
    } = fraction(number);
    least * denominator <= numerator && numerator <= greatest * denominator
}

/// "its mm is the greatest whole number not above 1,000 times its exact value, also below zero";
/// Euclid's division rounds down, for the denominator is above 0.
pub fn millimetres(number: f32) -> i128 {
    let Fraction {
        numerator,
        denominator,
    } = fraction(number);
    (1_000 * numerator).div_euclid(denominator)
}

/// Where a reading stops.
fn stop_reading(reading: Reading) -> Result<(), Answer> {
    stop(16, not_finite(reading))?;
    stop(17, out_of_range(reading))?;
    stop(18, missing(reading))
}

/// A reading's depth in mm; "a pair gives surface mm − base mm".
pub fn depth(reading: Reading) -> Answer {
    if let Err(refusal) = stop_reading(reading) {
        return refusal;
    }
    match reading {
        Reading::Core(core) => accepted(millimetres(core)),
        Reading::Levels(surface, base) => accepted(millimetres(surface) - millimetres(base)),
        Reading::Missing => unreachable!("a missing reading stops at 18"),
    }
}
