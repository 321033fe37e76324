//! The calls that the benchmark times, of either side: both go through the same indirect C call.
use crate::proved::sys;
use crate::{baseline, Answer, Total};

/// As in include/peat.h: a slice is a pointer and then its length.
pub struct Calls {
    pub close: unsafe extern "C" fn(
        listing: *const u32,
        listing_len: usize,
        book: *mut u32,
        book_len: usize,
        lines: *mut u32,
        lines_len: usize,
    ) -> Answer,
    pub issue: unsafe extern "C" fn(
        listing: *const u32,
        listing_len: usize,
        book: *mut u32,
        book_len: usize,
    ) -> Answer,
    pub forecast: unsafe extern "C" fn(
        listing: *const u32,
        listing_len: usize,
        book: *mut u32,
        book_len: usize,
        output: *mut u64,
        output_len: usize,
    ) -> Total,
    pub core: extern "C" fn(metres: f32) -> Answer,
    pub levels: extern "C" fn(surface: f32, base: f32) -> Answer,
    pub discount: unsafe extern "C" fn(
        first_widths: *const u32,
        first_widths_len: usize,
        second_widths: *const u32,
        second_widths_len: usize,
        first_stocks: *const u32,
        first_stocks_len: usize,
        second_stocks: *const u32,
        second_stocks_len: usize,
    ) -> Answer,
}

pub const PROVED: Calls = Calls {
    close: sys::peat_close,
    issue: sys::peat_issue,
    forecast: sys::peat_forecast,
    core: sys::peat_core,
    levels: sys::peat_levels,
    discount: sys::peat_discount,
};

pub const BASELINE: Calls = Calls {
    close: baseline::close,
    issue: baseline::issue,
    forecast: baseline::forecast,
    core: baseline::core,
    levels: baseline::levels,
    discount: baseline::discount,
};

impl Calls {
    #[inline]
    pub fn close(&self, listing: &[u32], book: &mut [u32], lines: &mut [u32]) -> Answer {
        // SAFETY: the slices are valid for their lengths, and a mutable one overlaps no other.
        unsafe {
            (self.close)(
                listing.as_ptr(),
                listing.len(),
                book.as_mut_ptr(),
                book.len(),
                lines.as_mut_ptr(),
                lines.len(),
            )
        }
    }

    #[inline]
    pub fn issue(&self, listing: &[u32], book: &mut [u32]) -> Answer {
        // SAFETY: as in `close`.
        unsafe {
            (self.issue)(
                listing.as_ptr(),
                listing.len(),
                book.as_mut_ptr(),
                book.len(),
            )
        }
    }

    #[inline]
    pub fn forecast(&self, listing: &[u32], book: &mut [u32], output: &mut [u64]) -> Total {
        // SAFETY: as in `close`.
        unsafe {
            (self.forecast)(
                listing.as_ptr(),
                listing.len(),
                book.as_mut_ptr(),
                book.len(),
                output.as_mut_ptr(),
                output.len(),
            )
        }
    }

    #[inline]
    pub fn core(&self, metres: f32) -> Answer {
        (self.core)(metres)
    }

    #[inline]
    pub fn levels(&self, surface: f32, base: f32) -> Answer {
        (self.levels)(surface, base)
    }

    /// Half-widths of the first class and of the second, then their stocks.
    #[inline]
    pub fn discount(
        &self,
        first_widths: &[u32],
        second_widths: &[u32],
        first_stocks: &[u32],
        second_stocks: &[u32],
    ) -> Answer {
        // SAFETY: the four slices are valid for their lengths and only read.
        unsafe {
            (self.discount)(
                first_widths.as_ptr(),
                first_widths.len(),
                second_widths.as_ptr(),
                second_widths.len(),
                first_stocks.as_ptr(),
                first_stocks.len(),
                second_stocks.as_ptr(),
                second_stocks.len(),
            )
        }
    }
}
