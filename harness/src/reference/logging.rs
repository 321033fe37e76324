//! "Logged blocks" of document 02, by exact fractions; all that is quoted here is document 02's.
//!
//! "Add EQ34 and the test of EQ48." The draft methodology has them as
//!
//! - EQ34: LTAC = (Σ t = 0 to T: Σ i: C(t, i) × u(i)) / T;
//! - EQ48: Σ t = 1 to the crediting period: (44/12 × Σ i: area(t, i) × C(t, i) × u(i))
//!   ≥ Σ t = 1 to the crediting period: (44/12 × Σ i: area(t, i) × LTAC(i)).
//!
//! In document 02 C is a density and u a discount, the crediting period is T years, LTAC(i) is
//! "that one average" for every i, and the 44/12 of both sides is left out, which changes no
//! comparison.

use super::stops::{stop, value_above_10_000, wrong_tables};
use super::words::at;
use crate::{Answer, LoggedAnswer};
use std::ops::RangeInclusive;

/// "a discount for each stratum in ten-thousandths"
const WHOLE: i128 = 10_000;

/// A number as a fraction of two whole numbers; the denominator is above 0.
struct Fraction {
    numerator: i128,
    denominator: i128,
}

impl Fraction {
    /// left ≥ right, as left's numerator × right's denominator ≥ right's numerator × left's
    /// denominator.
    fn is_at_least(&self, right: &Fraction) -> bool {
        self.numerator * right.denominator >= right.numerator * self.denominator
    }

    /// "rounded down in the answer"; nothing is negative, so whole-number division rounds down.
    fn rounded_down(&self) -> i128 {
        self.numerator / self.denominator
    }
}

/// "carbon densities in tenths of t C per ha for years 0 to T, areas in ha for years 1 to T, and a
/// discount for each stratum"; strata count from 0.
struct Blocks<'a> {
    t: i128,
    strata: i128,
    densities: &'a [u32],
    areas: &'a [u32],
    discounts: &'a [u32],
}

impl Blocks<'_> {
    /// The density of a year from 0 to T. "Densities and areas stand year after year, in each year
    /// stratum after stratum."
    fn density(&self, year: i128, stratum: i128) -> i128 {
        at(self.densities, year * self.strata + stratum).into()
    }

    /// The area of a year from 1 to T: the first of its list are year 1's.
    fn area(&self, year: i128, stratum: i128) -> i128 {
        at(self.areas, (year - 1) * self.strata + stratum).into()
    }

    /// The discount of a stratum, the same in every year.
    fn discount(&self, stratum: i128) -> i128 {
        at(self.discounts, stratum).into()
    }

    /// The sum "over years .. and all strata" of a whole number for each year and stratum.
    fn sum(&self, years: RangeInclusive<i128>, summand: impl Fn(i128, i128) -> i128) -> i128 {
        let mut sum = 0;
        for year in years {
            for stratum in 0..self.strata {
                sum += summand(year, stratum);
            }
        }
        sum
    }

    /// "The average is the sum over years 0 to T and all strata of density × discount, divided by
    /// 10,000 × T, exact": it is not divided by the number of strata, nor by that of the T + 1
    /// years.
    fn average(&self) -> Fraction {
        let density_times_discount = |year, stratum| {
            let density = self.density(year, stratum);
            density * self.discount(stratum)
        };
        Fraction {
            numerator: self.sum(0..=self.t, density_times_discount),
            denominator: WHOLE * self.t,
        }
    }

    /// EQ48's left side, "over years 1 to T and all strata, area × discounted density": each is a
    /// fraction with the denominator 10,000, and so is their sum.
    fn left(&self) -> Fraction {
        let area_times_discounted_density = |year, stratum| {
            let discounted = self.density(year, stratum) * self.discount(stratum);
            self.area(year, stratum) * discounted
        };
        Fraction {
            numerator: self.sum(1..=self.t, area_times_discounted_density),
            denominator: WHOLE,
        }
    }

    /// EQ48's right side, "area × that one average", over the same years and all strata: each is a
    /// fraction with the average's denominator, and so is their sum.
    fn right(&self) -> Fraction {
        let average = self.average();
        let area_times_average = |year, stratum| self.area(year, stratum) * average.numerator;
        Fraction {
            numerator: self.sum(1..=self.t, area_times_average),
            denominator: average.denominator,
        }
    }
}

/// Where the call stops: "21 .., checked before 22".
fn stop_logged(t: i128, strata: i128, lists: [&[u32]; 3]) -> Result<(), Answer> {
    stop(21, wrong_tables(t, strata, lists))?;
    stop(22, value_above_10_000(lists))
}

/// "EQ48 compares, over years 1 to T and all strata, area × discounted density against area × that
/// one average. The answer says whether its left side is at least its right."
pub fn logged(
    years: u32,
    strata: u32,
    densities: &[u32],
    areas: &[u32],
    discounts: &[u32],
) -> LoggedAnswer {
    let (t, strata) = (years.into(), strata.into());
    let refusal = stop_logged(t, strata, [densities, areas, discounts]);
    if let Err(Answer { number, place, .. }) = refusal {
        return LoggedAnswer {
            number,
            place,
            ..LoggedAnswer::default()
        };
    }
    let blocks = Blocks {
        t,
        strata,
        densities,
        areas,
        discounts,
    };
    LoggedAnswer {
        number: 0,
        place: 0,
        average: blocks.average().rounded_down().try_into().unwrap(),
        holds: blocks.left().is_at_least(&blocks.right()),
    }
}
