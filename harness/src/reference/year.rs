//! "A cell's year": what a cell loses in project year t, and its emission.

use super::book::Entry;
use super::lines::Lines;
use super::listing::{
    area, carbon_density, char_percentage, drainage, entered_depth, greatest_burning,
    greatest_oxidation, guard, least_thickness, methane_emission_ratio, stratum,
    warming_potential_of_methane, word_of_age,
};

/// A cell is not peat "if its entered depth is below 300 mm (not peat by section 3.3)", for 300 the
/// listing's least thickness. The entered depth alone counts: "A peat cell that has sunk below
/// 300 mm still loses."
pub fn is_peat(listing: &[u32], cell: i128) -> bool {
    entered_depth(listing, cell) >= least_thickness(listing)
}

/// Whether a plan year c is not "0 or above t".
pub fn is_converted(plan_year: i128, year: i128) -> bool {
    plan_year != 0 && plan_year <= year
}

/// "A cell loses nothing in t if it is withdrawn, if its plan year c is 0 or above t, or if" it is
/// not peat; whether it may lose.
fn may_lose(listing: &[u32], cell: i128, entry: &Entry, year: i128) -> bool {
    !entry.withdrawn && is_converted(entry.plan_year, year) && is_peat(listing, cell)
}

/// "Otherwise its age is t − c + 1, and its stratum's word of that age gives d .., o .. and b".
fn word_of_year(listing: &[u32], cell: i128, plan_year: i128, year: i128) -> u32 {
    let age = year - plan_year + 1;
    word_of_age(listing, stratum(listing, cell), age)
}

/// "A cell's d in a year is 10 times the table value minus O + B at the start of that year, or 0 if
/// that is negative", in mm, of a cell converted by this year: "a drainage value counts from the
/// surface at conversion", and no longer "from this year's surface". `lost` is that O + B.
pub fn d_of_year(listing: &[u32], cell: i128, plan_year: i128, year: i128, lost: i128) -> i128 {
    let table_value = drainage(word_of_year(listing, cell, plan_year, year));
    (10 * table_value - lost).max(0)
}

/// "burned = the least of b, R, and d − 400 (0 if d is below 400)", for 400 the listing's guard.
fn burned(guard: i128, d: i128, b: i128, remaining: i128) -> i128 {
    let above_the_guard = if d < guard { 0 } else { d - guard };
    b.min(remaining).min(above_the_guard)
}

/// "oxidised = the least of o, R − burned, and d − burned"
fn oxidised(d: i128, o: i128, remaining: i128, burned: i128) -> i128 {
    o.min(remaining - burned).min(d - burned)
}

/// "With O and B the cell's oxidised and burned mm to date and K = area × q", "Emission to date is
/// K × (1,100,000 × O + (1,100,000 − 11,000 × h + 400 × G × e) × B) / 3,000,000,000, rounded down",
/// in kg CO2e: "The CO2 part of burned mm counts (100 − h) hundredths; methane is unchanged." With
/// h at most 31 nothing in it is negative, so whole-number division rounds down.
pub fn emission(listing: &[u32], cell: i128, oxidised: i128, burned: i128) -> i128 {
    let k = area(listing, cell) * carbon_density(listing, cell);
    let h = char_percentage(listing);
    let methane = warming_potential_of_methane(listing) * methane_emission_ratio(listing);
    k * (1_100_000 * oxidised + (1_100_000 - 11_000 * h + 400 * methane) * burned) / 3_000_000_000
}

/// "Remaining depth is not stored": it is the entered depth less O and B.
pub fn remaining(listing: &[u32], cell: i128, entry: &Entry) -> i128 {
    entered_depth(listing, cell) - entry.oxidised - entry.burned
}

/// A cell's oxidised and burned mm of a year, at whose start the book has this entry of the cell.
fn losses(listing: &[u32], cell: i128, entry: &Entry, year: i128) -> (i128, i128) {
    if !may_lose(listing, cell, entry, year) {
        return (0, 0);
    }
    let word = word_of_year(listing, cell, entry.plan_year, year);
    let lost = entry.oxidised + entry.burned;
    let d = d_of_year(listing, cell, entry.plan_year, year, lost);
    let remaining = remaining(listing, cell, entry);
    let burned = burned(guard(listing), d, greatest_burning(word), remaining);
    let oxidised = oxidised(d, greatest_oxidation(word), remaining, burned);
    (oxidised, burned)
}

/// The three lines of a cell's year. "A year's kg line is this after the year minus this before
/// it", this being the emission to date.
pub fn lines_of_year(listing: &[u32], cell: i128, entry: &Entry, year: i128) -> Lines {
    let (oxidised, burned) = losses(listing, cell, entry, year);
    let before = emission(listing, cell, entry.oxidised, entry.burned);
    let after = emission(
        listing,
        cell,
        entry.oxidised + oxidised,
        entry.burned + burned,
    );
    Lines {
        oxidised,
        burned,
        kilograms: after - before,
    }
}
