//! An issue: the balance of listing and book, less what was issued before.
use super::listing::Listing;
use super::peat::emission;
use super::{bits, book, Outcome};

pub fn issue(listing: &[u32], book: &mut [u32]) -> Outcome {
    let listing = Listing::read(listing)?;
    let book = book::parts(&listing, book)?;
    book::check(&listing, &book)?;
    let peat = (kg_to_date(&listing, book.entries) / 1_000) as i64;
    let (all, buffered) = terms_to_date(listing.terms, bits(*book.year, 27, 0));
    let withheld = (i64::from(listing.buffer) * (peat + buffered).max(0) + 99) / 100;
    let [high, low] = book.issued;
    let issued = i64::from(bits(*high, 27, 0)) << 28 | i64::from(bits(*low, 27, 0));
    let tonnes = (peat + all - withheld - issued).max(0);
    let after = issued + tonnes;
    *high = 9 << 28 | (after >> 28) as u32;
    *low = 9 << 28 | bits(after as u32, 27, 0);
    Ok(tonnes as u32)
}

fn kg_to_date(listing: &Listing, entries: &[[u32; 3]]) -> u64 {
    let cells = listing.cells.iter().zip(entries);
    cells
        .map(|(&[_, area], &[_, oxidised, burned])| {
            let (oxidised, burned) = (bits(oxidised, 27, 0), bits(burned, 27, 0));
            u64::from(emission(listing.burned_weight, area, oxidised, burned))
        })
        .sum()
}

/// Terms 1 to 8 and terms 1 to 5 without the peat, in one walk.
fn terms_to_date(terms: &[u32], current: u32) -> (i64, i64) {
    // Terms rise by year, so those to date come first.
    let to_date = terms.partition_point(|&word| bits(word, 23, 17) <= current);
    terms[..to_date]
        .iter()
        .fold((0, 0), |(all, buffered), &word| {
            let tonnes = i64::from((word << 15) as i32 >> 15);
            let of_buffered = if bits(word, 27, 24) <= 5 { tonnes } else { 0 };
            (all + tonnes, buffered + of_buffered)
        })
}
