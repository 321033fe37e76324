//! Safe wrappers over the proved library: no call asks anything of its caller but valid slices.
use crate::{Account, Answer, DipsAnswer, LoggedAnswer, Reading, Recording, Total};

pub mod sys {
    use crate::{Account, Answer, DipsAnswer, LoggedAnswer, Total};

    // As in include/peat.h: a slice is a pointer and then its length.
    unsafe extern "C" {
        pub fn peat_open(
            listing: *const u32,
            listing_len: usize,
            book: *mut u32,
            book_len: usize,
        ) -> Answer;
        pub fn peat_convert(
            listing: *const u32,
            listing_len: usize,
            old_book: *const u32,
            old_book_len: usize,
            new_book: *mut u32,
            new_book_len: usize,
        ) -> Answer;
        pub fn peat_close(
            listing: *const u32,
            listing_len: usize,
            book: *mut u32,
            book_len: usize,
            lines: *mut u32,
            lines_len: usize,
        ) -> Answer;
        pub fn peat_replan(
            listing: *const u32,
            listing_len: usize,
            book: *mut u32,
            book_len: usize,
            cell: usize,
            year: u32,
        ) -> Answer;
        pub fn peat_withdraw(
            listing: *const u32,
            listing_len: usize,
            book: *mut u32,
            book_len: usize,
            cell: usize,
        ) -> Answer;
        pub fn peat_issue(
            listing: *const u32,
            listing_len: usize,
            book: *mut u32,
            book_len: usize,
        ) -> Answer;
        pub fn peat_statement(
            listing: *const u32,
            listing_len: usize,
            book: *const u32,
            book_len: usize,
            cell: usize,
        ) -> Account;
        pub fn peat_forecast(
            listing: *const u32,
            listing_len: usize,
            book: *mut u32,
            book_len: usize,
            output: *mut u64,
            output_len: usize,
        ) -> Total;
        pub safe fn peat_core(metres: f32) -> Answer;
        pub safe fn peat_levels(surface: f32, base: f32) -> Answer;
        pub safe fn peat_missing() -> Answer;
        pub fn peat_discount(
            first_widths: *const u32,
            first_widths_len: usize,
            second_widths: *const u32,
            second_widths_len: usize,
            first_stocks: *const u32,
            first_stocks_len: usize,
            second_stocks: *const u32,
            second_stocks_len: usize,
        ) -> Answer;
        pub fn peat_logged(
            years: u32,
            strata: u32,
            densities: *const u32,
            densities_len: usize,
            areas: *const u32,
            areas_len: usize,
            discounts: *const u32,
            discounts_len: usize,
        ) -> LoggedAnswer;
        pub fn peat_dips(
            first_days: *const u32,
            first_days_len: usize,
            first_depths: *const f32,
            first_depths_len: usize,
            first_tolerances: *const f32,
            first_tolerances_len: usize,
            second_days: *const u32,
            second_days_len: usize,
            second_depths: *const f32,
            second_depths_len: usize,
            second_tolerances: *const f32,
            second_tolerances_len: usize,
        ) -> DipsAnswer;
    }
}

pub fn open(listing: &[u32], book: &mut [u32]) -> Answer {
    // SAFETY: both slices are valid for their lengths, and a mutable one overlaps no other.
    unsafe {
        sys::peat_open(
            listing.as_ptr(),
            listing.len(),
            book.as_mut_ptr(),
            book.len(),
        )
    }
}

pub fn convert(listing: &[u32], old_book: &[u32], new_book: &mut [u32]) -> Answer {
    // SAFETY: as in `open`, with a third slice that is only read.
    unsafe {
        sys::peat_convert(
            listing.as_ptr(),
            listing.len(),
            old_book.as_ptr(),
            old_book.len(),
            new_book.as_mut_ptr(),
            new_book.len(),
        )
    }
}

pub fn close(listing: &[u32], book: &mut [u32], lines: &mut [u32]) -> Answer {
    // SAFETY: as in `open`, with a third slice.
    unsafe {
        sys::peat_close(
            listing.as_ptr(),
            listing.len(),
            book.as_mut_ptr(),
            book.len(),
            lines.as_mut_ptr(),
            lines.len(),
        )
    }
}

pub fn replan(listing: &[u32], book: &mut [u32], cell: usize, year: u32) -> Answer {
    // SAFETY: as in `open`; cell and year may be any numbers.
    unsafe {
        sys::peat_replan(
            listing.as_ptr(),
            listing.len(),
            book.as_mut_ptr(),
            book.len(),
            cell,
            year,
        )
    }
}

pub fn withdraw(listing: &[u32], book: &mut [u32], cell: usize) -> Answer {
    // SAFETY: as in `open`; the cell may be any number.
    unsafe {
        sys::peat_withdraw(
            listing.as_ptr(),
            listing.len(),
            book.as_mut_ptr(),
            book.len(),
            cell,
        )
    }
}

pub fn issue(listing: &[u32], book: &mut [u32]) -> Answer {
    // SAFETY: as in `open`.
    unsafe {
        sys::peat_issue(
            listing.as_ptr(),
            listing.len(),
            book.as_mut_ptr(),
            book.len(),
        )
    }
}

pub fn statement(listing: &[u32], book: &[u32], cell: usize) -> Account {
    // SAFETY: both slices are valid for their lengths and only read.
    unsafe {
        sys::peat_statement(
            listing.as_ptr(),
            listing.len(),
            book.as_ptr(),
            book.len(),
            cell,
        )
    }
}

pub fn forecast(listing: &[u32], book: &mut [u32], output: &mut [u64]) -> Total {
    // SAFETY: as in `open`, with a third slice.
    unsafe {
        sys::peat_forecast(
            listing.as_ptr(),
            listing.len(),
            book.as_mut_ptr(),
            book.len(),
            output.as_mut_ptr(),
            output.len(),
        )
    }
}

pub fn depth(reading: Reading) -> Answer {
    match reading {
        Reading::Core(metres) => sys::peat_core(metres),
        Reading::Levels(surface, base) => sys::peat_levels(surface, base),
        Reading::Missing => sys::peat_missing(),
    }
}

pub fn discount(
    first_widths: &[u32],
    second_widths: &[u32],
    first_stocks: &[u32],
    second_stocks: &[u32],
) -> Answer {
    // SAFETY: the four slices are valid for their lengths and only read.
    unsafe {
        sys::peat_discount(
            first_widths.as_ptr(),
            first_widths.len(),
            second_widths.as_ptr(),
            second_widths.len(),
            first_stocks.as_ptr(),
            first_stocks.len(),
            second_stocks.as_ptr(),
            second_stocks.len(),
        )
    }
}

pub fn logged(
    years: u32,
    strata: u32,
    densities: &[u32],
    areas: &[u32],
    discounts: &[u32],
) -> LoggedAnswer {
    // SAFETY: the three slices are valid for their lengths and only read.
    unsafe {
        sys::peat_logged(
            years,
            strata,
            densities.as_ptr(),
            densities.len(),
            areas.as_ptr(),
            areas.len(),
            discounts.as_ptr(),
            discounts.len(),
        )
    }
}

pub fn dips(first: Recording, second: Recording) -> DipsAnswer {
    // SAFETY: the six slices are valid for their lengths and only read.
    unsafe {
        sys::peat_dips(
            first.days.as_ptr(),
            first.days.len(),
            first.depths.as_ptr(),
            first.depths.len(),
            first.tolerances.as_ptr(),
            first.tolerances.len(),
            second.days.as_ptr(),
            second.days.len(),
            second.depths.as_ptr(),
            second.depths.len(),
            second.tolerances.as_ptr(),
            second.tolerances.len(),
        )
    }
}
