//! Closing a year, in a single pass over the cells behind the checks.
use super::listing::Listing;
use super::peat::{emission, loss};
use super::{bits, book, refusal, Outcome};

pub fn close(listing: &[u32], book: &mut [u32], lines: &mut [u32]) -> Outcome {
    let listing = Listing::read(listing)?;
    let book = book::parts(&listing, book)?;
    let length = lines.len();
    let Some(lines) = lines.as_chunks_mut().0.get_mut(..listing.cells.len()) else {
        return Err(refusal(7, length));
    };
    book::check(&listing, &book)?;
    let year = bits(*book.year, 27, 0) + 1;
    if year > listing.horizon {
        return Err(refusal(9, 0));
    }
    *book.year = 8 << 28 | year;
    let cells = listing.cells.iter().zip(book.entries);
    for ((&cell, entry), lines) in cells.zip(lines) {
        *lines = close_cell(&listing, year, cell, entry);
    }
    Ok(0)
}

/// A cell's lines. Number 14 is not tested: no kg line is above 50,740,800.
#[inline(always)]
fn close_cell(
    listing: &Listing,
    year: u32,
    [depth, area]: [u32; 2],
    [plan, oxidised_word, burned_word]: &mut [u32; 3],
) -> [u32; 3] {
    let (entered, plan_year) = (bits(depth, 15, 0), bits(*plan, 7, 0));
    let withdrawn = bits(*plan, 8, 8) == 1;
    if withdrawn || plan_year == 0 || year < plan_year || entered < listing.thickness {
        return [13 << 28, 14 << 28, 15 << 28];
    }
    let row = (bits(depth, 27, 24) * listing.horizon + year - plan_year) as usize;
    let (oxidised, burned) = (bits(*oxidised_word, 27, 0), bits(*burned_word, 27, 0));
    let lost = oxidised + burned;
    let (more_oxidised, more_burned) =
        loss(listing.guard, listing.tables[row], lost, entered - lost);
    let before = emission(listing.burned_weight, area, oxidised, burned);
    let after = emission(
        listing.burned_weight,
        area,
        oxidised + more_oxidised,
        burned + more_burned,
    );
    *oxidised_word = 11 << 28 | (oxidised + more_oxidised);
    *burned_word = 12 << 28 | (burned + more_burned);
    [
        13 << 28 | more_oxidised,
        14 << 28 | more_burned,
        15 << 28 | (after - before),
    ]
}
