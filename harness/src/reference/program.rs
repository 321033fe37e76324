//! The program `peatrun`: "reads little-endian words from standard input, closes every year and
//! issues after each".

use super::book::{book_words, NEW_SHAPE};
use super::calls::{close, issue, open, statement};
use super::lines::{lines_words, read_lines, Lines};
use super::listing::{cells, horizon, MOST_CELLS};
use super::words::index;

/// "The `peatrun` limit becomes the longest listing the new head allows,
/// (3 + 1,600 + 2,000 + 700) × 4 = 17,212 bytes."
const MOST_BYTES: usize = (3 + 1_600 + 2_000 + 700) * 4;

/// What the program prints: "`too long`" above the most bytes, "else `odd bytes` if not a multiple
/// of 4", else what the listing gives.
pub fn program(input: &[u8]) -> String {
    if input.len() > MOST_BYTES {
        return String::from("too long\n");
    }
    let words = input.chunks_exact(4);
    if !words.remainder().is_empty() {
        return String::from("odd bytes\n");
    }
    let little_endian = |bytes: &[u8]| u32::from_le_bytes(bytes.try_into().unwrap());
    let listing: Vec<u32> = words.map(little_endian).collect();
    listing_printed(&listing)
}

/// "Where the listing is refused it prints one line: the word refused, its number and its place,
/// single spaces between." Else the heading, a line for each year, and what is left.
fn listing_printed(listing: &[u32]) -> String {
    let mut book = vec![0; index(book_words(NEW_SHAPE, MOST_CELLS))];
    let opened = open(listing, &mut book);
    if opened.number != 0 {
        return format!("refused {} {}\n", opened.number, opened.place);
    }
    let mut printed = String::from("year ox burn kg issued\n");
    for year in 1..=horizon(listing) {
        printed.push_str(&year_printed(listing, &mut book, year));
    }
    printed.push_str(&format!("left {}\n", remaining(listing, &book)));
    printed
}

/// Closes a year and issues: "mm and kg over all cells; tonnes of that issue".
fn year_printed(listing: &[u32], book: &mut [u32], year: i128) -> String {
    let mut buffer = vec![0; index(lines_words(cells(listing)))];
    assert_eq!(close(listing, book, &mut buffer).number, 0);
    let issued = issue(listing, book);
    assert_eq!(issued.number, 0);
    let mut all = Lines {
        oxidised: 0,
        burned: 0,
        kilograms: 0,
    };
    for cell in 0..cells(listing) {
        let lines = read_lines(&buffer, cell);
        all.oxidised += lines.oxidised;
        all.burned += lines.burned;
        all.kilograms += lines.kilograms;
    }
    format!(
        "{year} {} {} {} {}\n",
        all.oxidised, all.burned, all.kilograms, issued.value
    )
}

/// "mm remaining", over all cells, by their statements.
fn remaining(listing: &[u32], book: &[u32]) -> i128 {
    let remaining = |cell: i128| i128::from(statement(listing, book, index(cell)).remaining);
    (0..cells(listing)).map(remaining).sum()
}
