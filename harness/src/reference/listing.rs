//! "Project listing": where each figure is and what makes a word valid.

use super::words::{at, bits, index, kind, length};

/// The most cells a listing may have: "The head allows 1 to 1,000 cells."
pub const MOST_CELLS: i128 = 1_000;

/// Words that every listing starts with: word 0 and word 1.
pub const HEAD_WORDS: i128 = 2;

/// "Two words for each cell."
const CELL_WORDS: i128 = 2;

// Word 0, kind 1.

/// "bits 27–16 cells"
pub fn cells(listing: &[u32]) -> i128 {
    bits(at(listing, 0), 27, 16)
}

/// "15–8 strata"
fn strata(listing: &[u32]) -> i128 {
    bits(at(listing, 0), 15, 8)
}

/// "7–0 horizon in years"
pub fn horizon(listing: &[u32]) -> i128 {
    bits(at(listing, 0), 7, 0)
}

/// Kind 1, "1 to 1,000 cells", "strata (1–16)", "horizon in years (1–100)"; every bit is named.
pub fn word_0_is_valid(listing: &[u32]) -> bool {
    kind(at(listing, 0)) == 1
        && (1..=MOST_CELLS).contains(&cells(listing))
        && (1..=16).contains(&strata(listing))
        && (1..=100).contains(&horizon(listing))
}

// Word 1, kind 2.

/// "Bits 27–23 of word 1 now hold a char percentage h, 0 to 31."
pub fn char_percentage(listing: &[u32]) -> i128 {
    bits(at(listing, 1), 27, 23)
}

/// "bits 22–16 buffer percentage p"
pub fn buffer_percentage(listing: &[u32]) -> i128 {
    bits(at(listing, 1), 22, 16)
}

/// "15–8 warming potential of methane G"
pub fn warming_potential_of_methane(listing: &[u32]) -> i128 {
    bits(at(listing, 1), 15, 8)
}

/// "7–0 methane emission ratio e in thousandths"
pub fn methane_emission_ratio(listing: &[u32]) -> i128 {
    bits(at(listing, 1), 7, 0)
}

/// Kind 2, h "0 to 31", which is all that its five bits can hold, p "(0–100)", G "(1–100)", e
/// "(0–100 ..)"; every bit is named.
pub fn word_1_is_valid(listing: &[u32]) -> bool {
    kind(at(listing, 1)) == 2
        && (0..=100).contains(&buffer_percentage(listing))
        && (1..=100).contains(&warming_potential_of_methane(listing))
        && (0..=100).contains(&methane_emission_ratio(listing))
}

// Kind 7.

/// "A listing may carry, as word 2, a word of kind 7": whether it does. This is the site word.
fn has_site_word(listing: &[u32]) -> bool {
    length(listing) > 2 && kind(at(listing, 2)) == 7
}

/// "bits 27–14 the guard in mm"; "Without it they are 400 and 300."
pub fn guard(listing: &[u32]) -> i128 {
    if has_site_word(listing) {
        bits(at(listing, 2), 27, 14)
    } else {
        400
    }
}

/// "13–0 the least thickness in mm"; "Without it they are 400 and 300."
pub fn least_thickness(listing: &[u32]) -> i128 {
    if has_site_word(listing) {
        bits(at(listing, 2), 13, 0)
    } else {
        300
    }
}

/// Guard and least thickness, "each 0 to 2,000"; every bit is named. A site word is of kind 7.
fn site_word_is_valid(listing: &[u32]) -> bool {
    guard(listing) <= 2_000 && least_thickness(listing) <= 2_000
}

// Where the later words are.

/// The place of the first stratum's first word. Of the site word: "The words after it move up by
/// one".
fn first_stratum_place(listing: &[u32]) -> i128 {
    if has_site_word(listing) {
        HEAD_WORDS + 1
    } else {
        HEAD_WORDS
    }
}

/// The place of the first cell's first word, after strata × horizon words of the strata.
fn first_cell_place(listing: &[u32]) -> i128 {
    first_stratum_place(listing) + strata(listing) * horizon(listing)
}

/// The place of the first of a cell's two words.
fn cell_place(listing: &[u32], cell: i128) -> i128 {
    first_cell_place(listing) + CELL_WORDS * cell
}

/// "strata × horizon + 2 × cells + 2", and with the site word "one word more": the fewest words of
/// the listing, and so the place of the first word of kind 6.
pub fn fewest_words(listing: &[u32]) -> i128 {
    cell_place(listing, cells(listing))
}

// Kind 3.

/// "for each stratum in turn, one word for each year of age from 1 to the horizon"
pub fn word_of_age(listing: &[u32], stratum: i128, age: i128) -> u32 {
    assert!(
        (1..=horizon(listing)).contains(&age),
        "an age is from 1 to the horizon"
    );
    let first_age_place = first_stratum_place(listing) + stratum * horizon(listing);
    at(listing, first_age_place + age - 1)
}

/// "bits 27–20 drainage in cm"
pub fn drainage(word_of_age: u32) -> i128 {
    bits(word_of_age, 27, 20)
}

/// "19–10 greatest oxidation in mm"
pub fn greatest_oxidation(word_of_age: u32) -> i128 {
    bits(word_of_age, 19, 10)
}

/// "9–0 greatest burning in mm"
pub fn greatest_burning(word_of_age: u32) -> i128 {
    bits(word_of_age, 9, 0)
}

/// Kind 3: "All values are allowed."
fn word_of_age_is_valid(word: u32) -> bool {
    kind(word) == 3
}

// Kind 4.

/// The first of a cell's two words, of kind 4.
fn depth_word(listing: &[u32], cell: i128) -> u32 {
    at(listing, cell_place(listing, cell))
}

/// "bits 27–24 stratum"
pub fn stratum(listing: &[u32], cell: i128) -> i128 {
    bits(depth_word(listing, cell), 27, 24)
}

/// "23–16 conversion year"
pub fn conversion_year(listing: &[u32], cell: i128) -> i128 {
    bits(depth_word(listing, cell), 23, 16)
}

/// "15–0 entered depth in mm"
pub fn entered_depth(listing: &[u32], cell: i128) -> i128 {
    bits(depth_word(listing, cell), 15, 0)
}

/// Kind 4, stratum "(below the count)", conversion year "(0 never, else 1 to horizon)", entered
/// depth "(0–20,000)"; every bit is named.
fn depth_word_is_valid(listing: &[u32], cell: i128) -> bool {
    kind(depth_word(listing, cell)) == 4
        && stratum(listing, cell) < strata(listing)
        && conversion_year(listing, cell) <= horizon(listing)
        && entered_depth(listing, cell) <= 20_000
}

// Kind 5.

/// The second of a cell's two words, of kind 5.
fn area_word(listing: &[u32], cell: i128) -> u32 {
    at(listing, cell_place(listing, cell) + 1)
}

/// "bits 25–12 area in m²"
pub fn area(listing: &[u32], cell: i128) -> i128 {
    bits(area_word(listing, cell), 25, 12)
}

/// "11–0 carbon density q in tenths of kg per m³"
pub fn carbon_density(listing: &[u32], cell: i128) -> i128 {
    bits(area_word(listing, cell), 11, 0)
}

/// Kind 5, bits 27–26 zero, area "(1–10,000)", carbon density "(1–2,400)".
fn area_word_is_valid(listing: &[u32], cell: i128) -> bool {
    kind(area_word(listing, cell)) == 5
        && bits(area_word(listing, cell), 27, 26) == 0
        && (1..=10_000).contains(&area(listing, cell))
        && (1..=2_400).contains(&carbon_density(listing, cell))
}

// Kind 6.

/// "Kind 6, all remaining words, possibly none"
pub fn terms(listing: &[u32]) -> &[u32] {
    &listing[index(fewest_words(listing))..]
}

/// "bits 27–24 term"
pub fn term(word: u32) -> i128 {
    bits(word, 27, 24)
}

/// "23–17 year"
pub fn year_of_term(word: u32) -> i128 {
    bits(word, 23, 17)
}

/// "16–0 tonnes as a two's complement number, −65,536 to 65,535"
pub fn tonnes(word: u32) -> i128 {
    let unsigned = bits(word, 16, 0);
    if unsigned <= 65_535 {
        unsigned
    } else {
        unsigned - 131_072
    }
}

/// Kind 6, term "(1 or 3 to 8 ..)", year "(1 to horizon)"; every bit is named.
fn term_word_is_valid(listing: &[u32], word: u32) -> bool {
    kind(word) == 6
        && (term(word) == 1 || (3..=8).contains(&term(word)))
        && (1..=horizon(listing)).contains(&year_of_term(word))
}

/// "They rise strictly by year, then term."
pub fn term_is_above(later: u32, earlier: u32) -> bool {
    (year_of_term(later), term(later)) > (year_of_term(earlier), term(earlier))
}

// All words from word 2 on.

/// Kind, zero bits and range of the site word, of a word of the strata, of a cell, or of the terms.
pub fn later_word_is_valid(listing: &[u32], place: i128) -> bool {
    if place < first_stratum_place(listing) {
        return site_word_is_valid(listing);
    }
    if place < first_cell_place(listing) {
        return word_of_age_is_valid(at(listing, place));
    }
    if place >= fewest_words(listing) {
        return term_word_is_valid(listing, at(listing, place));
    }
    let cell = (place - first_cell_place(listing)) / CELL_WORDS;
    if place == cell_place(listing, cell) {
        depth_word_is_valid(listing, cell)
    } else {
        area_word_is_valid(listing, cell)
    }
}
