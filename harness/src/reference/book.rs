//! "Book and calls", its first paragraph: where each figure of the book is, in the new shape of
//! document 02's "A thousand cells" and in the old one.

use super::listing::{entered_depth, horizon};
use super::words::{at, bits, index, kind, number, power_of_two, word};
use super::year::is_peat;

/// The place of the first word of kind 9, after word 0.
const ISSUED_PLACE: i128 = 1;

/// "then for each cell kind 10 .., kind 11 (O), kind 12 (B)"
const CELL_WORDS: i128 = 3;

/// The two shapes of a book differ in this alone: how many words of kind 9 hold tonnes issued.
#[derive(Clone, Copy)]
pub struct Shape {
    issued_words: i128,
}

/// "the book holds two words of kind 9, high 28 bits first, and cells start one word later"
pub const NEW_SHAPE: Shape = Shape { issued_words: 2 };

/// "A book of the old shape": "word 1 kind 9, tonnes issued, bits 27–0; then for each cell ..".
pub const OLD_SHAPE: Shape = Shape { issued_words: 1 };

/// What the book holds of a cell.
pub struct Entry {
    pub withdrawn: bool,
    pub plan_year: i128,
    pub oxidised: i128,
    pub burned: i128,
}

/// The words of a book of so many cells: "3 + 3 × cells words of a new book", and of an old one
/// "2 + 3 × cells words".
pub fn book_words(shape: Shape, cells: i128) -> i128 {
    cell_place(shape, cells)
}

/// The place of the first of a cell's words.
fn cell_place(shape: Shape, cell: i128) -> i128 {
    ISSUED_PLACE + shape.issued_words + CELL_WORDS * cell
}

/// "word 0 kind 8, current year", in both shapes.
pub fn current_year(book: &[u32]) -> i128 {
    number(at(book, 0))
}

/// Writes word 0.
pub fn write_current_year(book: &mut [u32], year: i128) {
    book[0] = word(8, year);
}

/// Tonnes issued: "two words of kind 9, high 28 bits first", and of the old shape one word, "kind 9,
/// tonnes issued, bits 27–0".
pub fn issued(shape: Shape, book: &[u32]) -> i128 {
    let mut tonnes = 0;
    for place in ISSUED_PLACE..ISSUED_PLACE + shape.issued_words {
        tonnes = tonnes * power_of_two(28) + number(at(book, place));
    }
    tonnes
}

/// Writes the "two words of kind 9, high 28 bits first" of a new book.
pub fn write_issued(book: &mut [u32], tonnes: i128) {
    let place = index(ISSUED_PLACE);
    book[place] = word(9, tonnes / power_of_two(28));
    book[place + 1] = word(9, tonnes % power_of_two(28));
}

/// "for each cell kind 10 (bit 8 withdrawn, bits 7–0 plan year ..), kind 11 (O), kind 12 (B)"
pub fn entry(shape: Shape, book: &[u32], cell: i128) -> Entry {
    let place = cell_place(shape, cell);
    Entry {
        withdrawn: bits(at(book, place), 8, 8) == 1,
        plan_year: bits(at(book, place), 7, 0),
        oxidised: number(at(book, place + 1)),
        burned: number(at(book, place + 2)),
    }
}

/// Writes a cell's three words of a new book; bit 8 counts 256.
pub fn write_entry(book: &mut [u32], cell: i128, entry: &Entry) {
    let place = index(cell_place(NEW_SHAPE, cell));
    let mark = if entry.withdrawn { 256 } else { 0 };
    book[place] = word(10, mark + entry.plan_year);
    book[place + 1] = word(11, entry.oxidised);
    book[place + 2] = word(12, entry.burned);
}

/// Word 0: kind 8, "current year 0 to horizon".
fn word_0_is_valid(listing: &[u32], book: &[u32]) -> bool {
    kind(at(book, 0)) == 8 && current_year(book) <= horizon(listing)
}

/// Kind 9, each word of tonnes issued; all tonnes are allowed.
fn issued_word_is_valid(book: &[u32], place: i128) -> bool {
    kind(at(book, place)) == 9
}

/// Kind 10, bits 27–9 zero, "plan year, 0 to horizon".
fn plan_word_is_valid(shape: Shape, listing: &[u32], book: &[u32], cell: i128) -> bool {
    let word = at(book, cell_place(shape, cell));
    let plan_year = entry(shape, book, cell).plan_year;
    kind(word) == 10 && bits(word, 27, 9) == 0 && plan_year <= horizon(listing)
}

/// Kind 11; O by itself has no range, for "a bad sum counts at kind 12".
fn oxidised_word_is_valid(shape: Shape, book: &[u32], cell: i128) -> bool {
    kind(at(book, cell_place(shape, cell) + 1)) == 11
}

/// Kind 12, and "O + B is at most the entered depth, and 0 for a cell below 300 mm". "The book's
/// rule for cells too thin to lose follows the listing's least thickness".
fn burned_word_is_valid(shape: Shape, listing: &[u32], book: &[u32], cell: i128) -> bool {
    let entry = entry(shape, book, cell);
    let sum = entry.oxidised + entry.burned;
    kind(at(book, cell_place(shape, cell) + 2)) == 12
        && sum <= entered_depth(listing, cell)
        && (is_peat(listing, cell) || sum == 0)
}

/// Whether the word at a place is as described, in a book of this shape.
pub fn word_is_valid(shape: Shape, listing: &[u32], book: &[u32], place: i128) -> bool {
    let first_cell_place = cell_place(shape, 0);
    if place < ISSUED_PLACE {
        return word_0_is_valid(listing, book);
    }
    if place < first_cell_place {
        return issued_word_is_valid(book, place);
    }
    let cell = (place - first_cell_place) / CELL_WORDS;
    if place == cell_place(shape, cell) {
        plan_word_is_valid(shape, listing, book, cell)
    } else if place == cell_place(shape, cell) + 1 {
        oxidised_word_is_valid(shape, book, cell)
    } else {
        burned_word_is_valid(shape, listing, book, cell)
    }
}
