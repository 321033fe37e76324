//! "Where a call stops", and of document 02 the numbers 21 to 24, 16 and 17 of a dip, and 6 of a
//! book of the new shape: a function for each number, answering the lowest place where it is met.
//! What 6 and 8 ask goes by the book's shape, new or old.

use super::book::{book_words, current_year, entry, word_is_valid, Shape, NEW_SHAPE};
use super::lines::lines_words;
use super::listing::{
    cells, fewest_words, horizon, later_word_is_valid, term_is_above, word_0_is_valid,
    word_1_is_valid, HEAD_WORDS,
};
use super::readings::{is_finite, lies_in, millimetres};
use super::words::{at, index, length};
use super::year::lines_of_year;
use crate::{Answer, Reading, Recording};

/// "a kg line above 268,435,455"
const GREATEST_KG_LINE: i128 = 268_435_455;

/// "a value above 20,000", of the lists of a discount.
const GREATEST_VALUE: i128 = 20_000;

/// "a value above 10,000", of the lists of logged blocks.
const GREATEST_LOGGED_VALUE: i128 = 10_000;

/// "Every refusal answers a number and a place": stops where the condition is met at a place.
pub fn stop(number: u32, place: Option<i128>) -> Result<(), Answer> {
    match place {
        None => Ok(()),
        Some(place) => Err(Answer {
            number,
            value: 0,
            place: place.try_into().unwrap(),
        }),
    }
}

/// What an accepted call answers.
pub fn accepted(value: i128) -> Answer {
    Answer {
        number: 0,
        value: value.try_into().unwrap(),
        place: 0,
    }
}

/// Checked at listing: numbers 1 to 5, in every call that takes a listing.
pub fn stop_at_listing(listing: &[u32]) -> Result<(), Answer> {
    stop(1, head_missing(listing))?;
    stop(2, wrong_head_word(listing))?;
    stop(3, listing_too_short(listing))?;
    stop(4, wrong_later_word(listing))?;
    stop(5, term_not_above(listing))
}

/// 1: "fewer than 2 words", place 0.
fn head_missing(listing: &[u32]) -> Option<i128> {
    (length(listing) < HEAD_WORDS).then_some(0)
}

/// 2: "word 0 or 1: kind, zero bits or range", place: index. Of bits 27–23 of word 1: "Number 2 no
/// longer covers those bits."
fn wrong_head_word(listing: &[u32]) -> Option<i128> {
    if !word_0_is_valid(listing) {
        Some(0)
    } else if !word_1_is_valid(listing) {
        Some(1)
    } else {
        None
    }
}

/// 3: "fewer words than strata × horizon + 2 × cells + 2", place: its length. Of the site word:
/// "number 3 asks for one word more".
fn listing_too_short(listing: &[u32]) -> Option<i128> {
    (length(listing) < fewest_words(listing)).then_some(length(listing))
}

/// 4: "later word: kind, zero bits or range", place: index. Of the site word: "Number 4 covers a
/// value above 2,000 there."
fn wrong_later_word(listing: &[u32]) -> Option<i128> {
    (HEAD_WORDS..length(listing)).find(|&place| !later_word_is_valid(listing, place))
}

/// 5: "term not above the one before", place: later index.
fn term_not_above(listing: &[u32]) -> Option<i128> {
    (fewest_words(listing) + 1..length(listing))
        .find(|&place| !term_is_above(at(listing, place), at(listing, place - 1)))
}

/// 6: "Number 6 asks for 3 + 3 × cells words of a new book", and of an old one: "book below
/// 2 + 3 × cells words". Place: its length.
pub fn book_too_short(shape: Shape, listing: &[u32], book: &[u32]) -> Option<i128> {
    (length(book) < book_words(shape, cells(listing))).then_some(length(book))
}

/// 7: "lines below 3 × cells words (close)", place: its length.
pub fn lines_too_short(listing: &[u32], lines: &[u32]) -> Option<i128> {
    (length(lines) < lines_words(cells(listing))).then_some(length(lines))
}

/// 8: "word wrong as described above; a bad sum counts at kind 12", place: index.
pub fn wrong_book_word(shape: Shape, listing: &[u32], book: &[u32]) -> Option<i128> {
    let words = book_words(shape, cells(listing));
    (0..words).find(|&place| !word_is_valid(shape, listing, book, place))
}

/// 9: "close at the horizon", place 0.
pub fn at_the_horizon(listing: &[u32], book: &[u32]) -> Option<i128> {
    (current_year(book) == horizon(listing)).then_some(0)
}

/// 10: "no such cell (replan, withdraw, statement)", place 0.
pub fn no_such_cell(listing: &[u32], cell: i128) -> Option<i128> {
    (cell >= cells(listing)).then_some(0)
}

/// 11: "cell withdrawn (replan, withdraw)", place 0.
pub fn cell_withdrawn(book: &[u32], cell: i128) -> Option<i128> {
    entry(NEW_SHAPE, book, cell).withdrawn.then_some(0)
}

/// 12: "plan year from 1 to current (replan)", place 0.
pub fn already_converted(book: &[u32], cell: i128) -> Option<i128> {
    (1..=current_year(book))
        .contains(&entry(NEW_SHAPE, book, cell).plan_year)
        .then_some(0)
}

/// 13: "new year neither 0 nor current + 1 to horizon", place 0.
pub fn wrong_new_year(listing: &[u32], book: &[u32], year: i128) -> Option<i128> {
    let still_ahead = (current_year(book) + 1..=horizon(listing)).contains(&year);
    (year != 0 && !still_ahead).then_some(0)
}

/// 14: "a kg line above 268,435,455 (close)", place: cell.
pub fn kg_line_too_great(listing: &[u32], book: &[u32]) -> Option<i128> {
    let year = current_year(book) + 1;
    let kg_line = |cell| {
        let entry = entry(NEW_SHAPE, book, cell);
        lines_of_year(listing, cell, &entry, year).kilograms
    };
    (0..cells(listing)).find(|&cell| kg_line(cell) > GREATEST_KG_LINE)
}

/// 15: "output below horizon numbers", place: its length.
pub fn output_too_short(listing: &[u32], output: &[u64]) -> Option<i128> {
    (length(output) < horizon(listing)).then_some(length(output))
}

/// 16: "not finite", place 0 or 1. "For a pair 16 is tested on both before 17."
pub fn not_finite(reading: Reading) -> Option<i128> {
    match reading {
        Reading::Core(core) if !is_finite(core) => Some(0),
        Reading::Levels(surface, _) if !is_finite(surface) => Some(0),
        Reading::Levels(_, base) if !is_finite(base) => Some(1),
        _ => None,
    }
}

/// 17: "out of range", place 0, 1 or 2. "A core lies in 0 to 20 (−0 is 0), a level in −100 to
/// 3,000; a pair gives surface mm − base mm, in 0 to 20,000, else 17 at place 2."
pub fn out_of_range(reading: Reading) -> Option<i128> {
    let is_level = |level: f32| lies_in(level, -100, 3_000);
    match reading {
        Reading::Core(core) if !lies_in(core, 0, 20) => Some(0),
        Reading::Levels(surface, _) if !is_level(surface) => Some(0),
        Reading::Levels(_, base) if !is_level(base) => Some(1),
        Reading::Levels(surface, base) => {
            let difference = millimetres(surface) - millimetres(base);
            (!(0..=20_000).contains(&difference)).then_some(2)
        }
        _ => None,
    }
}

/// 18: "missing", place 0.
pub fn missing(reading: Reading) -> Option<i128> {
    matches!(reading, Reading::Missing).then_some(0)
}

/// 19: "list lengths unequal or not 1–5", place 0.
pub fn wrong_lengths(lists: [&[u32]; 4]) -> Option<i128> {
    let pools = length(lists[0]);
    let valid = (1..=5).contains(&pools) && lists.iter().all(|list| length(list) == pools);
    (!valid).then_some(0)
}

/// 20: "a value above 20,000", place: list, 0–3.
pub fn value_too_great(lists: [&[u32]; 4]) -> Option<i128> {
    list_with_a_value_above(GREATEST_VALUE, &lists)
}

/// 21, of document 02: "T, stratum count or a table's length wrong", place 0, for none is named.
/// "Input is T (1 to 100), 1 to 8 strata, carbon densities .. for years 0 to T, areas .. for years
/// 1 to T, and a discount for each stratum .., as lists 0 to 2 in this order."
pub fn wrong_tables(t: i128, strata: i128, lists: [&[u32]; 3]) -> Option<i128> {
    let [densities, areas, discounts] = lists.map(length);
    let valid = (1..=100).contains(&t)
        && (1..=8).contains(&strata)
        && densities == (t + 1) * strata
        && areas == t * strata
        && discounts == strata;
    (!valid).then_some(0)
}

/// 22, of document 02: "a value above 10,000, place its list", 0 to 2.
pub fn value_above_10_000(lists: [&[u32]; 3]) -> Option<i128> {
    list_with_a_value_above(GREATEST_LOGGED_VALUE, &lists)
}

/// 23, of document 02: "the three lists of one recording differ in length", place 0, for none is
/// named.
pub fn lists_differ_in_length(recording: Recording) -> Option<i128> {
    let days = length(recording.days);
    let equal = length(recording.depths) == days && length(recording.tolerances) == days;
    (!equal).then_some(0)
}

/// 24, of document 02: "days not strictly rising, place the later index".
pub fn days_not_rising(recording: Recording) -> Option<i128> {
    let days = recording.days;
    (1..length(days)).find(|&place| at(days, place) <= at(days, place - 1))
}

/// 16 of a depth or a tolerance, of document 02: "both read as core depths", "place its index".
pub fn dip_not_finite(metres: f32, place: i128) -> Option<i128> {
    not_finite(Reading::Core(metres)).map(|_| place)
}

/// 17 of a depth or a tolerance, of document 02: "both read as core depths", "place its index".
pub fn dip_out_of_range(metres: f32, place: i128) -> Option<i128> {
    out_of_range(Reading::Core(metres)).map(|_| place)
}

/// The first list that has a value above the greatest.
fn list_with_a_value_above(greatest: i128, lists: &[&[u32]]) -> Option<i128> {
    let is_too_great = |list: &[u32]| list.iter().any(|&v| i128::from(v) > greatest);
    (0..length(lists)).find(|&place| is_too_great(lists[index(place)]))
}
