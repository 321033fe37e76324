//! The benchmark's baseline: plain Rust, written for speed, of the calls that it times and no others, with the
//! signatures of include/peat.h. Each check is a pass without a branch for each word, and the place of what is invalid is
//! searched for only where something is.
mod book;
mod closing;
mod discount;
mod forecast;
mod issue;
mod listing;
mod peat;
mod reading;

pub use reading::{core, levels};

use crate::{Answer, Total};
use std::slice::{from_raw_parts, from_raw_parts_mut};

/// What an accepted call answers (0 where it answers nothing), or its refusal.
type Outcome = Result<u32, Answer>;

fn accepted(value: u32) -> Answer {
    Answer {
        number: 0,
        value,
        place: 0,
    }
}

/// A number and a place of the table "Where a call stops".
fn refusal(number: u32, place: usize) -> Answer {
    Answer {
        number,
        value: 0,
        place,
    }
}

/// Bits `high` to `low` of a word.
#[inline(always)]
fn bits(word: u32, high: u32, low: u32) -> u32 {
    (word >> low) & ((1 << (high - low + 1)) - 1)
}

fn answer(outcome: Outcome) -> Answer {
    match outcome {
        Ok(value) => accepted(value),
        Err(refusal) => refusal,
    }
}

/// # Safety
/// Each pointer is valid for its length, and what is written overlaps nothing else.
pub unsafe extern "C" fn close(
    listing: *const u32,
    listing_len: usize,
    book: *mut u32,
    book_len: usize,
    lines: *mut u32,
    lines_len: usize,
) -> Answer {
    // SAFETY: the caller's.
    let (listing, book, lines) = unsafe {
        (
            from_raw_parts(listing, listing_len),
            from_raw_parts_mut(book, book_len),
            from_raw_parts_mut(lines, lines_len),
        )
    };
    answer(closing::close(listing, book, lines))
}

/// # Safety
/// As for `close`.
pub unsafe extern "C" fn issue(
    listing: *const u32,
    listing_len: usize,
    book: *mut u32,
    book_len: usize,
) -> Answer {
    // SAFETY: the caller's.
    let (listing, book) = unsafe {
        (
            from_raw_parts(listing, listing_len),
            from_raw_parts_mut(book, book_len),
        )
    };
    answer(issue::issue(listing, book))
}

/// # Safety
/// As for `close`.
pub unsafe extern "C" fn forecast(
    listing: *const u32,
    listing_len: usize,
    book: *mut u32,
    book_len: usize,
    output: *mut u64,
    output_len: usize,
) -> Total {
    // SAFETY: the caller's.
    let (listing, book, output) = unsafe {
        (
            from_raw_parts(listing, listing_len),
            from_raw_parts_mut(book, book_len),
            from_raw_parts_mut(output, output_len),
        )
    };
    match forecast::forecast(listing, book, output) {
        Ok(total) => Total {
            total,
            ..Total::default()
        },
        Err(Answer { number, place, .. }) => Total {
            number,
            place,
            total: 0,
        },
    }
}

/// # Safety
/// As for `close`; the four lists are only read.
pub unsafe extern "C" fn discount(
    first_widths: *const u32,
    first_widths_len: usize,
    second_widths: *const u32,
    second_widths_len: usize,
    first_stocks: *const u32,
    first_stocks_len: usize,
    second_stocks: *const u32,
    second_stocks_len: usize,
) -> Answer {
    // SAFETY: the caller's.
    let lists = unsafe {
        [
            from_raw_parts(first_widths, first_widths_len),
            from_raw_parts(second_widths, second_widths_len),
            from_raw_parts(first_stocks, first_stocks_len),
            from_raw_parts(second_stocks, second_stocks_len),
        ]
    };
    answer(discount::discount(lists))
}
