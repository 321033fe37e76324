//! The forecast: each cell runs through its years by itself, its kg to date carried from year to year.
use super::listing::Listing;
use super::peat::{emission, loss};
use super::{bits, book, refusal};
use crate::Answer;

pub fn forecast(listing: &[u32], book: &mut [u32], output: &mut [u64]) -> Result<u64, Answer> {
    let listing = Listing::read(listing)?;
    let book = book::parts(&listing, book)?;
    let length = output.len();
    let Some(output) = output.get_mut(..listing.horizon as usize) else {
        return Err(refusal(15, length));
    };
    output.fill(0);
    *book.year = 8 << 28 | listing.horizon;
    book.issued.into_iter().for_each(|word| *word = 9 << 28);
    let mut total = 0;
    for (&cell, entry) in listing.cells.iter().zip(book.entries) {
        let (oxidised, burned, kg) = run_cell(&listing, cell, output);
        total += u64::from(kg);
        *entry = [
            10 << 28 | bits(cell[0], 23, 16),
            11 << 28 | oxidised,
            12 << 28 | burned,
        ];
    }
    Ok(total)
}

/// Adds a cell's kg to each year from its conversion on; what it oxidised, burned and emitted in the end.
#[inline(always)]
fn run_cell(listing: &Listing, [depth, area]: [u32; 2], output: &mut [u64]) -> (u32, u32, u32) {
    let (plan_year, entered) = (bits(depth, 23, 16) as usize, bits(depth, 15, 0));
    let (mut oxidised, mut burned, mut before) = (0, 0, 0);
    if plan_year == 0 || entered < listing.thickness {
        return (oxidised, burned, before);
    }
    let table = &listing.tables[bits(depth, 27, 24) as usize * output.len()..];
    for (&row, kg) in table.iter().zip(&mut output[plan_year - 1..]) {
        let lost = oxidised + burned;
        let (more_oxidised, more_burned) = loss(listing.guard, row, lost, entered - lost);
        oxidised += more_oxidised;
        burned += more_burned;
        let after = emission(listing.burned_weight, area, oxidised, burned);
        *kg += u64::from(after - before);
        before = after;
    }
    (oxidised, burned, before)
}
