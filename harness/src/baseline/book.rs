//! The book: numbers 6 to 8.
use super::listing::Listing;
use super::peat::most_loss;
use super::{bits, refusal, Answer};

/// What a book's head says, of tonnes issued the high word and the low one, and its cells' words: plan, oxidised and
/// burned.
pub struct Book<'a> {
    pub year: &'a mut u32,
    pub issued: [&'a mut u32; 2],
    pub entries: &'a mut [[u32; 3]],
}

/// Number 6.
#[inline(always)]
pub fn parts<'a>(listing: &Listing, book: &'a mut [u32]) -> Result<Book<'a>, Answer> {
    let length = book.len();
    let cells = listing.cells.len();
    let [year, high, low, rest @ ..] = book else {
        return Err(refusal(6, length));
    };
    let Some(entries) = rest.as_chunks_mut().0.get_mut(..cells) else {
        return Err(refusal(6, length));
    };
    Ok(Book {
        year,
        issued: [high, low],
        entries,
    })
}

/// Number 8, in one pass without a branch for each word.
#[inline(always)]
pub fn check(listing: &Listing, book: &Book) -> Result<(), Answer> {
    let issued = book.issued.iter().all(|word| issued_is_valid(**word));
    let head = year_is_valid(listing, *book.year) & issued;
    let pairs = listing.cells.iter().zip(&*book.entries);
    let valid = pairs.fold(head, |all, (&[depth, _], &[plan, oxidised, burned])| {
        all & plan_is_valid(listing, plan)
            & oxidised_is_valid(oxidised)
            & burned_is_valid(listing, depth, oxidised, burned)
    });
    if !valid {
        return Err(first_refusal(listing, book));
    }
    Ok(())
}

fn year_is_valid(listing: &Listing, word: u32) -> bool {
    (word >> 28 == 8) & (bits(word, 27, 0) <= listing.horizon)
}

fn issued_is_valid(word: u32) -> bool {
    word >> 28 == 9
}

fn plan_is_valid(listing: &Listing, word: u32) -> bool {
    (word >> 28 == 10) & (bits(word, 27, 9) == 0) & (bits(word, 7, 0) <= listing.horizon)
}

fn oxidised_is_valid(word: u32) -> bool {
    word >> 28 == 11
}

/// A bad sum counts here.
fn burned_is_valid(listing: &Listing, depth: u32, oxidised: u32, burned: u32) -> bool {
    let lost = bits(oxidised, 27, 0) + bits(burned, 27, 0);
    (burned >> 28 == 12) & (lost <= most_loss(listing.thickness, depth))
}

/// The first invalid word of a book that has one.
#[cold]
fn first_refusal(listing: &Listing, book: &Book) -> Answer {
    if !year_is_valid(listing, *book.year) {
        return refusal(8, 0);
    }
    let wrong = |word: &&mut u32| !issued_is_valid(**word);
    if let Some(i) = book.issued.iter().position(wrong) {
        return refusal(8, 1 + i);
    }
    let pairs = listing.cells.iter().zip(&*book.entries);
    let words = pairs.flat_map(|(&[depth, _], &[plan, oxidised, burned])| {
        [
            plan_is_valid(listing, plan),
            oxidised_is_valid(oxidised),
            burned_is_valid(listing, depth, oxidised, burned),
        ]
    });
    refusal(8, 3 + words.take_while(|&valid| valid).count())
}
