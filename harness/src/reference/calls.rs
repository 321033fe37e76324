//! "Book and calls", and the conversion of a book of document 02's "A thousand cells": each call as
//! the list of its checks in the table's order, then what it does.

use super::balance::balance;
use super::book::{
    current_year, entry, issued, write_current_year, write_entry, write_issued, Entry, NEW_SHAPE,
    OLD_SHAPE,
};
use super::lines::{lines_words, read_lines, write_lines};
use super::listing::{cells, conversion_year, entered_depth, horizon};
use super::stops::{
    accepted, already_converted, at_the_horizon, book_too_short, cell_withdrawn, kg_line_too_great,
    lines_too_short, no_such_cell, output_too_short, stop, stop_at_listing, wrong_book_word,
    wrong_new_year,
};
use super::words::index;
use super::year::{emission, lines_of_year, remaining};
use crate::{Account, Answer, Total};

/// Where open stops.
fn stop_open(listing: &[u32], book: &[u32]) -> Result<(), Answer> {
    stop_at_listing(listing)?;
    stop(6, book_too_short(NEW_SHAPE, listing, book))
}

/// "Open: writes year 0, 0 issued, plan years of the listing, nothing withdrawn, zeros."
pub fn open(listing: &[u32], book: &mut [u32]) -> Answer {
    if let Err(refusal) = stop_open(listing, book) {
        return refusal;
    }
    write_current_year(book, 0);
    write_issued(book, 0);
    for cell in 0..cells(listing) {
        let plan_year = conversion_year(listing, cell);
        let opened = Entry {
            withdrawn: false,
            plan_year,
            oxidised: 0,
            burned: 0,
        };
        write_entry(book, cell, &opened);
    }
    accepted(0)
}

/// Where convert stops: "It refuses by 1 to 5, then by 6 for the old book's length, then by 6 for
/// the new one's, then by 8 as the old book would."
fn stop_convert(listing: &[u32], old: &[u32], new: &[u32]) -> Result<(), Answer> {
    stop_at_listing(listing)?;
    stop(6, book_too_short(OLD_SHAPE, listing, old))?;
    stop(6, book_too_short(NEW_SHAPE, listing, new))?;
    stop(8, wrong_book_word(OLD_SHAPE, listing, old))
}

/// "A book of the old shape is converted without loss by a call of its own, into a second lent
/// slice."
pub fn convert(listing: &[u32], old: &[u32], new: &mut [u32]) -> Answer {
    if let Err(refusal) = stop_convert(listing, old, new) {
        return refusal;
    }
    write_current_year(new, current_year(old));
    write_issued(new, issued(OLD_SHAPE, old));
    for cell in 0..cells(listing) {
        write_entry(new, cell, &entry(OLD_SHAPE, old, cell));
    }
    accepted(0)
}

/// Where close stops.
fn stop_close(listing: &[u32], book: &[u32], lines: &[u32]) -> Result<(), Answer> {
    stop_at_listing(listing)?;
    stop(6, book_too_short(NEW_SHAPE, listing, book))?;
    stop(7, lines_too_short(listing, lines))?;
    stop(8, wrong_book_word(NEW_SHAPE, listing, book))?;
    stop(9, at_the_horizon(listing, book))?;
    stop(14, kg_line_too_great(listing, book))
}

/// "Close: works out year current + 1 for all cells, writes three line words per cell into the
/// lines buffer .., and updates the book .., cell by cell."
pub fn close(listing: &[u32], book: &mut [u32], lines: &mut [u32]) -> Answer {
    if let Err(refusal) = stop_close(listing, book, lines) {
        return refusal;
    }
    let year = current_year(book) + 1;
    for cell in 0..cells(listing) {
        let mut entry = entry(NEW_SHAPE, book, cell);
        let of_year = lines_of_year(listing, cell, &entry, year);
        write_lines(lines, cell, &of_year);
        entry.oxidised += of_year.oxidised;
        entry.burned += of_year.burned;
        write_entry(book, cell, &entry);
    }
    write_current_year(book, year);
    accepted(0)
}

/// Where replan stops.
fn stop_replan(listing: &[u32], book: &[u32], cell: i128, year: i128) -> Result<(), Answer> {
    stop_at_listing(listing)?;
    stop(6, book_too_short(NEW_SHAPE, listing, book))?;
    stop(8, wrong_book_word(NEW_SHAPE, listing, book))?;
    stop(10, no_such_cell(listing, cell))?;
    stop(11, cell_withdrawn(book, cell))?;
    stop(12, already_converted(book, cell))?;
    stop(13, wrong_new_year(listing, book, year))
}

/// "Replan: sets the plan year of a cell not yet converted."
pub fn replan(listing: &[u32], book: &mut [u32], cell: usize, year: u32) -> Answer {
    let (cell, year) = (cell.try_into().unwrap(), i128::from(year));
    if let Err(refusal) = stop_replan(listing, book, cell, year) {
        return refusal;
    }
    let mut entry = entry(NEW_SHAPE, book, cell);
    entry.plan_year = year;
    write_entry(book, cell, &entry);
    accepted(0)
}

/// Where withdraw stops.
fn stop_withdraw(listing: &[u32], book: &[u32], cell: i128) -> Result<(), Answer> {
    stop_at_listing(listing)?;
    stop(6, book_too_short(NEW_SHAPE, listing, book))?;
    stop(8, wrong_book_word(NEW_SHAPE, listing, book))?;
    stop(10, no_such_cell(listing, cell))?;
    stop(11, cell_withdrawn(book, cell))
}

/// "Withdraw: marks a cell for good ..; what it has lost stays counted."
pub fn withdraw(listing: &[u32], book: &mut [u32], cell: usize) -> Answer {
    let cell = cell.try_into().unwrap();
    if let Err(refusal) = stop_withdraw(listing, book, cell) {
        return refusal;
    }
    let mut entry = entry(NEW_SHAPE, book, cell);
    entry.withdrawn = true;
    write_entry(book, cell, &entry);
    accepted(0)
}

/// Where issue stops.
fn stop_issue(listing: &[u32], book: &[u32]) -> Result<(), Answer> {
    stop_at_listing(listing)?;
    stop(6, book_too_short(NEW_SHAPE, listing, book))?;
    stop(8, wrong_book_word(NEW_SHAPE, listing, book))
}

/// "Issue answers balance − issued, or 0 if that is negative, and adds its answer to issued."
pub fn issue(listing: &[u32], book: &mut [u32]) -> Answer {
    if let Err(refusal) = stop_issue(listing, book) {
        return refusal;
    }
    let kilograms = all_kilograms_to_date(listing, book);
    let balance = balance(listing, current_year(book), kilograms);
    let issued = issued(NEW_SHAPE, book);
    let tonnes = (balance - issued).max(0);
    write_issued(book, issued + tonnes);
    accepted(tonnes)
}

/// A cell's kg to date: the emission of the O and B that the book holds.
fn kilograms_to_date(listing: &[u32], book: &[u32], cell: i128) -> i128 {
    let entry = entry(NEW_SHAPE, book, cell);
    emission(listing, cell, entry.oxidised, entry.burned)
}

/// "the kg to date of all cells added"
fn all_kilograms_to_date(listing: &[u32], book: &[u32]) -> i128 {
    (0..cells(listing))
        .map(|cell| kilograms_to_date(listing, book, cell))
        .sum()
}

/// Where statement stops.
fn stop_statement(listing: &[u32], book: &[u32], cell: i128) -> Result<(), Answer> {
    stop_at_listing(listing)?;
    stop(6, book_too_short(NEW_SHAPE, listing, book))?;
    stop(8, wrong_book_word(NEW_SHAPE, listing, book))?;
    stop(10, no_such_cell(listing, cell))
}

/// "Statement: a cell's entered, remaining, O, B, kg to date, plan year and mark; writes nothing."
pub fn statement(listing: &[u32], book: &[u32], cell: usize) -> Account {
    let cell = cell.try_into().unwrap();
    if let Err(Answer { number, place, .. }) = stop_statement(listing, book, cell) {
        return Account {
            number,
            place,
            ..Account::default()
        };
    }
    let entry = entry(NEW_SHAPE, book, cell);
    Account {
        number: 0,
        place: 0,
        entered: entered_depth(listing, cell).try_into().unwrap(),
        remaining: remaining(listing, cell, &entry).try_into().unwrap(),
        oxidised: entry.oxidised.try_into().unwrap(),
        burned: entry.burned.try_into().unwrap(),
        kg: kilograms_to_date(listing, book, cell).try_into().unwrap(),
        plan_year: entry.plan_year.try_into().unwrap(),
        withdrawn: entry.withdrawn,
    }
}

/// Where forecast stops.
fn stop_forecast(listing: &[u32], book: &[u32], output: &[u64]) -> Result<(), Answer> {
    stop_at_listing(listing)?;
    stop(6, book_too_short(NEW_SHAPE, listing, book))?;
    stop(15, output_too_short(listing, output))
}

/// "It opens the scratch book, closes every year, and writes each year's kg over all cells." None
/// of these calls is refused: 1 to 6 are checked, and a year loses at most 1,023 mm by oxidation
/// and 1,023 mm by burning, which is less than 51,000,000 kg, so that 14 does not arise.
///
/// Of document 02's faster forecast: "Its output for every listing is the one it has now", so each
/// year's kg is still its lines added up, with no running total kept from year to year. It is to
/// "also answer the last total", which is worked out from the O and B that the book then holds.
pub fn forecast(listing: &[u32], book: &mut [u32], output: &mut [u64]) -> Total {
    if let Err(Answer { number, place, .. }) = stop_forecast(listing, book, output) {
        return Total {
            number,
            place,
            ..Total::default()
        };
    }
    let mut lines = vec![0; index(lines_words(cells(listing)))];
    assert_eq!(open(listing, book).number, 0);
    for year in 1..=horizon(listing) {
        assert_eq!(close(listing, book, &mut lines).number, 0);
        let kilograms: i128 = (0..cells(listing))
            .map(|cell| read_lines(&lines, cell).kilograms)
            .sum();
        output[index(year - 1)] = kilograms.try_into().unwrap();
        assert_adds_up(listing, book, &output[..index(year)]);
    }
    Total {
        number: 0,
        place: 0,
        total: all_kilograms_to_date(listing, book).try_into().unwrap(),
    }
}

/// "after each year its numbers so far add up to the kg to date of all cells then, and the numbers
/// of all years to that answer": after the last year they are all, and the kg to date that answer.
fn assert_adds_up(listing: &[u32], book: &[u32], so_far: &[u64]) {
    let added: i128 = so_far.iter().map(|&kilograms| i128::from(kilograms)).sum();
    assert_eq!(added, all_kilograms_to_date(listing, book));
}
