//! A project's figures, and the words of document 01's listing that say them.

/// A stratum's year of age: drainage in cm below the surface at conversion, greatest oxidation and burning in mm.
#[derive(Clone, Copy, Debug)]
pub struct Row {
    pub drainage: u32,
    pub oxidation: u32,
    pub burning: u32,
}

/// Entered depth in mm, area in m², carbon density in tenths of kg per m³; conversion 0 is never.
#[derive(Clone, Copy, Debug)]
pub struct Cell {
    pub stratum: u32,
    pub conversion: u32,
    pub entered: u32,
    pub area: u32,
    pub density: u32,
}

#[derive(Clone, Copy, Debug)]
pub struct YearlyTerm {
    pub year: u32,
    pub term: u32,
    pub tonnes: i32,
}

/// In mm: the guard, and the least thickness of peat.
#[derive(Clone, Copy, Debug)]
pub struct SiteWord {
    pub guard: u32,
    pub thickness: u32,
}

/// What they are in a listing without a site word.
const NO_SITE_WORD: SiteWord = SiteWord {
    guard: 400,
    thickness: 300,
};

/// Char and buffer in percent, warming potential of methane, methane emission ratio in thousandths.
#[derive(Clone, Debug)]
pub struct Site {
    pub horizon: u32,
    pub char: u32,
    pub buffer: u32,
    pub warming: u32,
    pub methane: u32,
    /// Word 2, if the listing is to carry it.
    pub site_word: Option<SiteWord>,
    pub tables: Vec<Vec<Row>>,
    pub cells: Vec<Cell>,
    pub terms: Vec<YearlyTerm>,
}

/// The words of a book before its cells, and of an old one, which is converted; those of a cell in it, and the line words
/// of a cell.
pub const BOOK_HEAD: usize = 3;
pub const OLD_BOOK_HEAD: usize = 2;
pub const BOOK_CELL_WORDS: usize = 3;
pub const LINE_WORDS: usize = 3;

/// The words of a book's head: its year, and the tonnes issued in the other words, high bits first.
pub fn head_words(head: usize, year: u32, tonnes: u64) -> Vec<u32> {
    let mut words = vec![8 << 28 | year];
    for below in (0..head - 1).rev() {
        words.push(9 << 28 | (tonnes >> (28 * below)) as u32 & 0x0FFF_FFFF);
    }
    words
}

/// The tonnes issued that a book with such a head says.
pub fn tonnes_issued(head: usize, book: &[u32]) -> u64 {
    let number = |word: &u32| u64::from(word & 0x0FFF_FFFF);
    let words = book[1..head].iter();
    words.fold(0, |high, word| high << 28 | number(word))
}

/// What a book says of a cell, in years and mm.
#[derive(Clone, Copy, Debug, Default, PartialEq)]
pub struct Entry {
    pub withdrawn: bool,
    pub plan: u32,
    pub oxidised: u32,
    pub burned: u32,
}

impl Entry {
    pub fn lost(&self) -> u32 {
        self.oxidised + self.burned
    }
}

/// Cell after cell; words beyond the last cell may follow as one more.
pub fn entries(head: usize, book: &[u32]) -> impl Iterator<Item = Entry> + '_ {
    let entry = |words: &[u32]| Entry {
        withdrawn: words[0] & 0x100 != 0,
        plan: words[0] & 0xFF,
        oxidised: words[1] & 0x0FFF_FFFF,
        burned: words[2] & 0x0FFF_FFFF,
    };
    book[head..].chunks_exact(BOOK_CELL_WORDS).map(entry)
}

/// The part of a listing in which the word at a place from 2 on is, by the sizes in its word 0 and the kind of its word 2.
pub fn part(listing: &[u32], place: usize) -> &'static str {
    let [cells, strata, horizon] =
        [(16, 0xFFF), (8, 0xFF), (0, 0xFF)].map(|(low, mask)| (listing[0] >> low & mask) as usize);
    let tables = 2 + usize::from(listing[2] >> 28 == 7);
    let first_cell = tables + strata * horizon;
    if place < tables {
        "the site word"
    } else if place < first_cell {
        "a table's word"
    } else if place >= first_cell + 2 * cells {
        "a term"
    } else {
        ["a cell's first word", "a cell's second word"][(place - first_cell) % 2]
    }
}

/// What one word of a listing contains.
pub enum Content<'a> {
    Sizes(&'a Site),
    Figures(&'a Site),
    SiteWord(SiteWord),
    Row(usize, usize, Row),
    Depth(usize, Cell),
    Area(usize, Cell),
    Term(YearlyTerm),
}

impl Site {
    /// The listing, word for word.
    pub fn contents(&self) -> Vec<Content<'_>> {
        let mut contents = vec![Content::Sizes(self), Content::Figures(self)];
        contents.extend(self.site_word.map(Content::SiteWord));
        for (stratum, table) in self.tables.iter().enumerate() {
            contents.extend(
                (1..)
                    .zip(table)
                    .map(|(age, &row)| Content::Row(stratum, age, row)),
            );
        }
        for (i, &cell) in self.cells.iter().enumerate() {
            contents.extend([Content::Depth(i, cell), Content::Area(i, cell)]);
        }
        contents.extend(self.terms.iter().map(|&term| Content::Term(term)));
        contents
    }

    pub fn words(&self) -> Vec<u32> {
        self.contents().iter().map(Content::word).collect()
    }

    /// The guard and the least thickness of peat that its rules go by.
    pub fn figures(&self) -> SiteWord {
        self.site_word.unwrap_or(NO_SITE_WORD)
    }

    pub fn guard(&self) -> u32 {
        self.figures().guard
    }

    pub fn thickness(&self) -> u32 {
        self.figures().thickness
    }

    /// The words that its book needs, and its lines.
    pub fn book_words(&self) -> usize {
        BOOK_HEAD + BOOK_CELL_WORDS * self.cells.len()
    }

    pub fn old_book_words(&self) -> usize {
        OLD_BOOK_HEAD + BOOK_CELL_WORDS * self.cells.len()
    }

    pub fn line_words(&self) -> usize {
        LINE_WORDS * self.cells.len()
    }
}

impl Content<'_> {
    pub fn word(&self) -> u32 {
        match *self {
            Content::Sizes(site) => {
                let (cells, strata) = (site.cells.len() as u32, site.tables.len() as u32);
                1 << 28 | cells << 16 | strata << 8 | site.horizon
            }
            Content::Figures(site) => {
                let methane = site.warming << 8 | site.methane;
                2 << 28 | site.char << 23 | site.buffer << 16 | methane
            }
            Content::SiteWord(word) => 7 << 28 | word.guard << 14 | word.thickness,
            Content::Row(_, _, row) => {
                3 << 28 | row.drainage << 20 | row.oxidation << 10 | row.burning
            }
            Content::Depth(_, cell) => {
                4 << 28 | cell.stratum << 24 | cell.conversion << 16 | cell.entered
            }
            Content::Area(_, cell) => 5 << 28 | cell.area << 12 | cell.density,
            Content::Term(term) => {
                6 << 28 | term.term << 24 | term.year << 17 | term.tonnes as u32 & 0x1_FFFF
            }
        }
    }

    /// The same in plain words.
    pub fn text(&self) -> String {
        match *self {
            Content::Sizes(site) => format!(
                "cells {}, strata {}, horizon {} years",
                site.cells.len(),
                site.tables.len(),
                site.horizon
            ),
            Content::Figures(site) => format!(
                "char {} percent, buffer {} percent, warming potential of methane {}, methane emission ratio {} thousandths",
                site.char, site.buffer, site.warming, site.methane
            ),
            Content::SiteWord(word) => format!(
                "guard {} mm, least thickness of peat {} mm",
                word.guard, word.thickness
            ),
            Content::Row(stratum, age, row) => format!(
                "stratum {stratum}, age {age}: drainage {} cm, oxidation at most {} mm, burning at most {} mm",
                row.drainage, row.oxidation, row.burning
            ),
            Content::Depth(i, cell) => format!(
                "cell {i}: stratum {}, conversion year {}, entered depth {} mm",
                cell.stratum, cell.conversion, cell.entered
            ),
            Content::Area(i, cell) => format!(
                "cell {i}: area {} m2, carbon density {} tenths of kg per m3",
                cell.area, cell.density
            ),
            Content::Term(term) => format!(
                "year {}: term {}, {} tonnes",
                term.year, term.term, term.tonnes
            ),
        }
    }
}
