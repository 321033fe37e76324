//! "Book and calls", its last paragraph: peat tonnes, terms, withheld and balance.

use super::listing::{buffer_percentage, term, terms, tonnes, year_of_term};

/// "Peat tonnes to date are the kg to date of all cells added, divided by 1,000, rounded down".
fn peat_tonnes(kilograms: i128) -> i128 {
    kilograms / 1_000
}

/// A term to date: "those of years 1 to current"; "An absent term is 0." Of peat tonnes to date:
/// "this is term 2".
fn term_to_date(listing: &[u32], wanted: i128, current: i128, kilograms: i128) -> i128 {
    if wanted == 2 {
        return peat_tonnes(kilograms);
    }
    let mut sum = 0;
    for &word in terms(listing) {
        if term(word) == wanted && year_of_term(word) <= current {
            sum += tonnes(word);
        }
    }
    sum
}

/// Terms 1 to `last` to date.
fn terms_to_date(listing: &[u32], last: i128, current: i128, kilograms: i128) -> i128 {
    (1..=last)
        .map(|term| term_to_date(listing, term, current, kilograms))
        .sum()
}

/// "Withheld is p × S / 100 rounded up, 0 if S is negative."
fn withheld(buffer_percentage: i128, s: i128) -> i128 {
    if s < 0 {
        0
    } else {
        (buffer_percentage * s + 99) / 100
    }
}

/// "N is terms 1 to 8 to date .., S terms 1 to 5 to date." "Balance (EQ54) = N − withheld, and
/// may be negative." `kilograms` is the kg to date of all cells added.
pub fn balance(listing: &[u32], current: i128, kilograms: i128) -> i128 {
    let n = terms_to_date(listing, 8, current, kilograms);
    let s = terms_to_date(listing, 5, current, kilograms);
    n - withheld(buffer_percentage(listing), s)
}
