//! The listing: numbers 1 to 5, and its parts.
// With `contains`, which joins its two comparisons by a branch, a closing took longer.
#![allow(clippy::manual_range_contains)]

use super::{bits, refusal, Answer};

/// A listing with a valid head and enough words.
pub struct Listing<'a> {
    pub strata: u32,
    pub horizon: u32,
    /// The buffer percentage p.
    pub buffer: u32,
    /// The weight of a burned mm in an emission, by h, G and e.
    pub burned_weight: u64,
    /// The guard and the least thickness of peat in mm, from word 2 where it is of kind 7.
    pub guard: u32,
    pub thickness: u32,
    /// Where the tables begin: 2, or 3 behind such a word.
    first_row: usize,
    /// Each stratum's words, one for each year of age.
    pub tables: &'a [u32],
    pub cells: &'a [[u32; 2]],
    pub terms: &'a [u32],
}

impl<'a> Listing<'a> {
    /// Numbers 1 to 3.
    #[inline(always)]
    fn parts(words: &'a [u32]) -> Result<Self, Answer> {
        let &[size, figures, ref rest @ ..] = words else {
            return Err(refusal(1, 0));
        };
        if !size_is_valid(size) {
            return Err(refusal(2, 0));
        }
        if !figures_are_valid(figures) {
            return Err(refusal(2, 1));
        }
        let (strata, horizon) = (bits(size, 15, 8), bits(size, 7, 0));
        let cells = 2 * bits(size, 27, 16) as usize;
        let (guard, thickness, rest) = match rest {
            &[site, ref rest @ ..] if site >> 28 == 7 => {
                (bits(site, 27, 14), bits(site, 13, 0), rest)
            }
            _ => (400, 300, rest),
        };
        let first_row = words.len() - rest.len();
        let Some((tables, rest)) = rest.split_at_checked((strata * horizon) as usize) else {
            return Err(refusal(3, words.len()));
        };
        let Some((cells, terms)) = rest.split_at_checked(cells) else {
            return Err(refusal(3, words.len()));
        };
        Ok(Listing {
            strata,
            horizon,
            buffer: bits(figures, 22, 16),
            burned_weight: burned_weight(figures),
            guard,
            thickness,
            first_row,
            tables,
            cells: cells.as_chunks().0,
            terms,
        })
    }

    /// Numbers 1 to 5.
    #[inline(always)]
    pub fn read(words: &'a [u32]) -> Result<Self, Answer> {
        let listing = Listing::parts(words)?;
        // Every part is passed through to its end, without a branch for each word: most listings are valid.
        if !(listing.site_is_valid()
            & listing.tables_valid()
            & listing.cells_valid()
            & listing.terms_valid())
        {
            return Err(listing.first_refusal());
        }
        Ok(listing)
    }

    /// Without a site word they are in range.
    fn site_is_valid(&self) -> bool {
        (self.guard <= 2_000) & (self.thickness <= 2_000)
    }

    /// What in each word is not of kind 3, joined and tested once.
    fn tables_valid(&self) -> bool {
        let join = |faults, &word: &u32| faults | word ^ (3 << 28);
        self.tables.iter().fold(0, join) >> 28 == 0
    }

    fn cells_valid(&self) -> bool {
        let valid =
            |all, &[depth, area]: &[u32; 2]| all & self.depth_is_valid(depth) & area_is_valid(area);
        self.cells.iter().fold(true, valid)
    }

    /// Numbers 4 and 5 in one pass: where each term is above the one before, no year is below the first or above the last.
    fn terms_valid(&self) -> bool {
        let (mut valid, mut before) = (true, 0);
        for &word in self.terms {
            valid = valid & term_is_listed(word) & (before < order(word));
            before = order(word);
        }
        let ends = [self.terms.first(), self.terms.last()];
        let of_a_year = |word: Option<&u32>| word.is_none_or(|&word| self.term_is_valid(word));
        valid & ends.into_iter().all(of_a_year)
    }

    /// The first invalid word of a listing that has one: every 4 comes before any 5.
    #[cold]
    fn first_refusal(&self) -> Answer {
        if !self.site_is_valid() {
            return refusal(4, 2);
        }
        let cells = self.first_row + self.tables.len();
        let terms = cells + 2 * self.cells.len();
        if let Some(i) = self.tables.iter().position(|&word| !row_is_valid(word)) {
            return refusal(4, self.first_row + i);
        }
        for (i, &[depth, area]) in self.cells.iter().enumerate() {
            if !self.depth_is_valid(depth) {
                return refusal(4, cells + 2 * i);
            }
            if !area_is_valid(area) {
                return refusal(4, cells + 2 * i + 1);
            }
        }
        let invalid = |&word: &u32| !self.term_is_valid(word);
        if let Some(i) = self.terms.iter().position(invalid) {
            return refusal(4, terms + i);
        }
        let mut pairs = self.terms.windows(2);
        let falls = |pair: &[u32]| order(pair[1]) <= order(pair[0]);
        refusal(5, terms + 1 + pairs.position(falls).unwrap_or_default())
    }

    fn depth_is_valid(&self, word: u32) -> bool {
        (word >> 28 == 4)
            & (bits(word, 27, 24) < self.strata)
            & (bits(word, 23, 16) <= self.horizon)
            & (bits(word, 15, 0) <= 20_000)
    }

    fn term_is_valid(&self, word: u32) -> bool {
        let year = bits(word, 23, 17);
        term_is_listed(word) & (1 <= year) & (year <= self.horizon)
    }
}

/// A term's word but for its year.
fn term_is_listed(word: u32) -> bool {
    let term = bits(word, 27, 24);
    (word >> 28 == 6) & ((term == 1) | (3 <= term) & (term <= 8))
}

fn size_is_valid(word: u32) -> bool {
    word >> 28 == 1
        && (1..=1_000).contains(&bits(word, 27, 16))
        && (1..=16).contains(&bits(word, 15, 8))
        && (1..=100).contains(&bits(word, 7, 0))
}

fn figures_are_valid(word: u32) -> bool {
    word >> 28 == 2
        && bits(word, 22, 16) <= 100
        && (1..=100).contains(&bits(word, 15, 8))
        && bits(word, 7, 0) <= 100
}

/// 1,100,000 − 11,000 × h + 400 × G × e.
fn burned_weight(figures: u32) -> u64 {
    let [char, warming, methane] =
        [(27, 23), (15, 8), (7, 0)].map(|(high, low)| bits(figures, high, low));
    u64::from(1_100_000 - 11_000 * char + 400 * warming * methane)
}

fn row_is_valid(word: u32) -> bool {
    word >> 28 == 3
}

fn area_is_valid(word: u32) -> bool {
    let (area, density) = (bits(word, 25, 12), bits(word, 11, 0));
    (word >> 28 == 5)
        & (bits(word, 27, 26) == 0)
        & (1 <= area)
        & (area <= 10_000)
        & (1 <= density)
        & (density <= 2_400)
}

/// Terms rise by year, then by term.
fn order(word: u32) -> u32 {
    bits(word, 23, 17) << 4 | bits(word, 27, 24)
}
