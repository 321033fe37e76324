//! Listings, books, calls, floats, pools, logged blocks and recordings by a small generator (splitmix64), good and
//! damaged.
use crate::loss::{CellYear, Rule};
use crate::met::PAST;
use crate::reference;
use crate::site::{
    head_words, part, Cell, Row, Site, SiteWord, YearlyTerm, BOOK_HEAD, OLD_BOOK_HEAD,
};
use crate::{Reading, Recording};

pub struct Random(pub u64);

impl Random {
    pub fn draw(&mut self) -> u64 {
        self.0 = self.0.wrapping_add(0x9e37_79b9_7f4a_7c15);
        let mut z = self.0;
        z = (z ^ (z >> 30)).wrapping_mul(0xbf58_476d_1ce4_e5b9);
        z = (z ^ (z >> 27)).wrapping_mul(0x94d0_49bb_1331_11eb);
        z ^ (z >> 31)
    }

    pub fn between(&mut self, least: u32, most: u32) -> u32 {
        least + (self.draw() % (u64::from(most - least) + 1)) as u32
    }

    pub fn below(&mut self, end: usize) -> usize {
        (self.draw() % end as u64) as usize
    }

    pub fn once_in(&mut self, times: u32) -> bool {
        self.between(1, times) == 1
    }

    pub fn word(&mut self) -> u32 {
        (self.draw() >> 32) as u32
    }

    pub fn pick<T: Copy>(&mut self, values: &[T]) -> T {
        values[self.below(values.len())]
    }

    pub fn words(&mut self, count: usize) -> Vec<u32> {
        (0..count).map(|_| self.word()).collect()
    }
}

/// How large a site is, and how many of the possible yearly terms it has, in percent.
#[derive(Clone, Copy)]
struct Size {
    cells: u32,
    strata: u32,
    horizon: u32,
    terms: u32,
}

/// Term 2 is the peat, which no listing states.
const TERMS: [u32; 7] = [1, 3, 4, 5, 6, 7, 8];

/// Mostly a few cells and years; one in a hundred with some figure at its end of range.
fn size(random: &mut Random) -> Size {
    let edge = random.once_in(100);
    // The most cells, or about as many as eight bits count.
    let many_cells = random.pick(&[255, 256, 257, 1_000]);
    let mut figure = |most, end| {
        if edge && random.once_in(2) {
            end
        } else {
            random.between(1, most)
        }
    };
    Size {
        cells: figure(6, many_cells),
        strata: figure(4, 16),
        horizon: figure(8, 100),
        terms: figure(60, 100),
    }
}

/// A good site of any size, now and then one with the greatest balances.
pub fn any_site(random: &mut Random) -> Site {
    if random.once_in(300) {
        return richest(random);
    }
    let size = size(random);
    site(random, size)
}

/// Many cells, all of the most peat and carbon, and at times the greatest terms. From an open no cell loses more than
/// 2,550 mm, and no balance is above 149,914,500 tonnes; that of a lent or converted book may come near 861,874,500.
pub fn richest(random: &mut Random) -> Site {
    let size = Size {
        cells: random.between(400, 1_000),
        strata: random.between(1, 16),
        horizon: random.between(10, 60),
        terms: random.between(1, 100),
    };
    let terms = match random.between(0, 1) {
        0 => greatest_terms(size.horizon),
        _ => terms(random, size),
    };
    let buffer = figure(random, 0, 100);
    let row = Row {
        drainage: 255,
        oxidation: random.pick(&[0, 1_023]),
        burning: 1_023,
    };
    let cell = |random: &mut Random| Cell {
        stratum: random.between(0, size.strata - 1),
        conversion: random.between(1, 5),
        entered: random.between(19_000, 20_000),
        area: 10_000,
        density: 2_400,
    };
    Site {
        horizon: size.horizon,
        tables: vec![vec![row; size.horizon as usize]; size.strata as usize],
        char: figure(random, 0, 31),
        buffer: random.pick(&[0, buffer]),
        warming: 100,
        methane: 100,
        site_word: site_word(random),
        cells: (0..size.cells).map(|_| cell(random)).collect(),
        terms,
    }
}

fn greatest_terms(horizon: u32) -> Vec<YearlyTerm> {
    let tonnes = 65_535;
    let of_year = |year| TERMS.map(|term| YearlyTerm { year, term, tonnes });
    (1..=horizon).flat_map(of_year).collect()
}

/// A good site of this size; a cell's stratum is drawn, so cells are not sorted by stratum.
fn site(random: &mut Random, size: Size) -> Site {
    let mut site = Site {
        horizon: size.horizon,
        char: figure(random, 0, 31),
        buffer: figure(random, 0, 100),
        warming: figure(random, 1, 100),
        methane: figure(random, 0, 100),
        site_word: site_word(random),
        tables: Vec::new(),
        cells: Vec::new(),
        terms: terms(random, size),
    };
    let wide = random.once_in(3);
    let (guard, thickness) = (site.guard(), site.thickness());
    site.tables = (0..size.strata)
        .map(|_| table(random, size.horizon, wide, guard))
        .collect();
    site.cells = (0..size.cells)
        .map(|_| cell(random, size, thickness))
        .collect();
    site
}

/// Half of the listings carry it, mostly with figures that drainage and peat come near.
fn site_word(random: &mut Random) -> Option<SiteWord> {
    let mm = |random: &mut Random| match random.between(0, 3) {
        0 => figure(random, 0, 2_000),
        _ => random.between(0, 600),
    };
    random.once_in(2).then(|| SiteWord {
        guard: mm(random),
        thickness: mm(random),
    })
}

/// An end of the range or anything in it.
fn figure(random: &mut Random, least: u32, most: u32) -> u32 {
    match random.between(0, 9) {
        0 => least,
        1 => most,
        _ => random.between(least, most),
    }
}

/// A row for each age, drawn by itself, or with canals that follow the land as it sinks.
fn table(random: &mut Random, horizon: u32, wide: bool, guard: u32) -> Vec<Row> {
    let mut rows: Vec<Row> = (0..horizon).map(|_| row(random, wide, guard)).collect();
    if !random.once_in(3) {
        deepen(random, guard, &mut rows);
    }
    rows
}

/// Follows a cell with much peat, and draws each age's water around where it loses nothing, burns nothing or loses
/// what the row asks. Canals that silt up leave the surface below the water until they are deepened again.
fn deepen(random: &mut Random, guard: u32, rows: &mut [Row]) {
    let silting = random.pick(&[3, 6, 100]);
    let (mut oxidised, mut burned) = (0, 0);
    for row in rows {
        let lost = oxidised + burned;
        let asked = random.pick(&[0, row.oxidation, guard, guard + row.burning]);
        let around = (lost + asked + random.between(0, 20)).saturating_sub(5);
        row.drainage = if random.once_in(silting) {
            random.between(0, lost / 10)
        } else {
            (around / 10).min(255)
        };
        let cell = CellYear {
            row: *row,
            guard,
            entered: 20_000,
            oxidised,
            burned,
        };
        let [more_oxidised, more_burned] = cell.losses(Rule::Benchmark);
        oxidised += more_oxidised;
        burned += more_burned;
    }
}

/// Drainage around the guard and losses of a real site, or any values at all.
fn row(random: &mut Random, wide: bool, guard: u32) -> Row {
    let (drainage, oxidation, burning) = if wide {
        (255, 1_023, 1_023)
    } else {
        (90, 60, 400)
    };
    Row {
        drainage: if random.once_in(4) {
            let just_below = (guard / 10).saturating_sub(1);
            random.between(just_below, guard / 10 + 2)
        } else {
            random.between(0, drainage)
        },
        oxidation: figure(random, 0, oxidation),
        burning: figure(random, 0, burning),
    }
}

/// A depth next to the least thickness, or any.
fn cell(random: &mut Random, size: Size, thickness: u32) -> Cell {
    let entered = match random.between(0, 9) {
        0 => {
            let just_below = thickness.saturating_sub(1);
            random.pick(&[0, 1, just_below, thickness, thickness + 1, 20_000])
        }
        1 => random.between(0, 400),
        2..=6 => random.between(300, 2_500),
        _ => random.between(300, 20_000),
    };
    Cell {
        stratum: random.between(0, size.strata - 1),
        conversion: random.between(0, size.horizon),
        entered,
        area: figure(random, 1, 10_000),
        density: figure(random, 1, 2_400),
    }
}

fn terms(random: &mut Random, size: Size) -> Vec<YearlyTerm> {
    let most = random.pick(&[3, 200, 5_000, 65_535]);
    let mut terms = Vec::new();
    for year in 1..=size.horizon {
        for term in TERMS {
            if random.between(1, 100) <= size.terms {
                let tonnes = figure(random, 0, 2 * most + 1) as i32 - most as i32 - 1;
                terms.push(YearlyTerm { year, term, tonnes });
            }
        }
    }
    terms
}

/// The longest listing there is, 4,303 words.
pub fn largest() -> Site {
    largest_of(1_000)
}

/// The same with so many cells. The water of each stratum falls by 16 mm a year and its oxidation stays as it is, so that
/// cells still lose in late years; each may burn every tenth year.
pub fn largest_of(cells: u32) -> Site {
    let random = &mut Random(2_814);
    let tables = (0..16).map(|_| {
        let [at_conversion, oxidation] = [random.between(40, 90), random.between(20, 60)];
        let row = |age: u32| Row {
            drainage: at_conversion + 8 * age / 5,
            oxidation,
            burning: if age % 10 == 1 {
                random.between(0, 300)
            } else {
                0
            },
        };
        (1..=100).map(row).collect()
    });
    Site {
        horizon: 100,
        char: 0,
        buffer: 20,
        warming: 25,
        methane: 12,
        site_word: Some(SiteWord {
            guard: 350,
            thickness: 250,
        }),
        tables: tables.collect(),
        cells: (0..cells).map(|_| hectare(random)).collect(),
        terms: every_term(random),
    }
}

fn hectare(random: &mut Random) -> Cell {
    Cell {
        stratum: random.between(0, 15),
        conversion: random.between(0, 60),
        entered: random.between(200, 12_000),
        area: random.between(8_000, 10_000),
        density: random.between(300, 800),
    }
}

/// Benefits above zero, and displacement, project emissions and wood products below it.
fn every_term(random: &mut Random) -> Vec<YearlyTerm> {
    let mut terms = Vec::new();
    for year in 1..=100 {
        for term in TERMS {
            let tonnes = random.between(0, 500) as i32;
            let tonnes = if term <= 4 { tonnes } else { -tonnes };
            terms.push(YearlyTerm { year, term, tonnes });
        }
    }
    terms
}

/// A book that every call accepts, with some words beyond those needed.
pub fn book(random: &mut Random, site: &Site) -> Vec<u32> {
    let current = random.between(0, site.horizon);
    book_with(random, site, BOOK_HEAD, current)
}

/// One of the old shape that a conversion accepts, mostly of an early year, so that many closings may follow.
pub fn old_book(random: &mut Random, site: &Site) -> Vec<u32> {
    let latest = random.between(0, site.horizon);
    let current = random.between(0, latest);
    book_with(random, site, OLD_BOOK_HEAD, current)
}

/// The two shapes differ in the words of their heads alone.
fn book_with(random: &mut Random, site: &Site, head: usize, current: u32) -> Vec<u32> {
    let cells = book_cells(random, site, current);
    let tonnes = tonnes_issued(random, head, || balance(site, current, &cells));
    let mut book = head_words(head, current, tonnes);
    book.extend(cells);
    let beyond = random.below(4);
    book.extend(random.words(beyond));
    book
}

/// None, as many as the head holds, any, around 2^28 or above it, or around the balance; bits that do not fit are cut off.
fn tonnes_issued(random: &mut Random, head: usize, balance: impl Fn() -> u64) -> u64 {
    let bits = 28 * (head as u32 - 1);
    let most = (1 << bits) - 1;
    let any = random.draw() & most;
    let one_more_or_less = u64::from(random.between(0, 2));
    let around = |tonnes: u64| (tonnes + one_more_or_less).saturating_sub(1);
    let tonnes = match random.between(0, 9) {
        0 => 0,
        1 => most,
        2..=4 => any >> random.between(0, bits - 1),
        5 => around(1 << 28),
        6 => u64::from(random.between(1 << 28, 1 << 30)),
        _ => around(balance()),
    };
    tonnes & most
}

/// The balance of a book, or 0 where that is negative: what an issue pays where nothing is issued.
fn balance(site: &Site, current: u32, cells: &[u32]) -> u64 {
    let mut book = head_words(BOOK_HEAD, current, 0);
    book.extend(cells);
    u64::from(reference::issue(&site.words(), &mut book).value)
}

/// The words of a book's cells in some year; now and then all of the peat has burned.
fn book_cells(random: &mut Random, site: &Site, current: u32) -> Vec<u32> {
    let all_burned = random.once_in(8);
    let mut words = Vec::new();
    for cell in &site.cells {
        let plan_year = random.between(0, site.horizon);
        let (lost, burned) = if all_burned {
            (most_lost(site, cell), most_lost(site, cell))
        } else {
            let lost = lost_before(random, site, cell, plan_year, current + 1);
            (lost, figure(random, 0, lost))
        };
        let withdrawn = u32::from(random.once_in(5));
        words.extend([
            10 << 28 | withdrawn << 8 | plan_year,
            11 << 28 | (lost - burned),
            12 << 28 | burned,
        ]);
    }
    words
}

/// O + B of a cell in an accepted book is at most this.
fn most_lost(site: &Site, cell: &Cell) -> u32 {
    if cell.entered < site.thickness() {
        0
    } else {
        cell.entered
    }
}

/// Any mm, or so many that d of the year to be closed is about 0, about the guard or above it. A cell that is not
/// converted by then has often lost nothing.
fn lost_before(random: &mut Random, site: &Site, cell: &Cell, plan_year: u32, year: u32) -> u32 {
    let most = most_lost(site, cell);
    let table = &site.tables[cell.stratum as usize];
    let row = match plan_year {
        0 => None,
        _ => year
            .checked_sub(plan_year)
            .and_then(|age| table.get(age as usize)),
    };
    let level = row.map_or(0, |row| 10 * row.drainage);
    let guard_level = level.saturating_sub(site.guard());
    match (row, random.between(0, 3)) {
        (None, 0 | 1) => 0,
        (Some(_), 0) => random.between(0, guard_level).min(most),
        (Some(_), 1) => {
            let mark = random.pick(&[level, guard_level]);
            (mark + random.between(0, 2)).saturating_sub(1).min(most)
        }
        _ => figure(random, 0, most),
    }
}

/// A good site's listing with one figure just past an end of its range, and which of `met::PAST` it is.
pub fn past_range(random: &mut Random, site: &Site) -> (Vec<u32>, &'static str) {
    let which = random.pick(PAST);
    let mut site = site.clone();
    if site.terms.is_empty() {
        site.terms.push(YearlyTerm {
            year: 1,
            term: 1,
            tonnes: 0,
        });
    }
    let (horizon, strata) = (site.horizon, site.tables.len() as u32);
    let figures = site.figures();
    let cell = random.below(site.cells.len());
    let term = random.below(site.terms.len());
    let (cell, term) = (&mut site.cells[cell], &mut site.terms[term]);
    match which {
        "p 101" => site.buffer = 101,
        "G 0" => site.warming = 0,
        "G 101" => site.warming = 101,
        "e 101" => site.methane = 101,
        "guard 2,001" => {
            site.site_word = Some(SiteWord {
                guard: 2_001,
                ..figures
            })
        }
        "least thickness 2,001" => {
            site.site_word = Some(SiteWord {
                thickness: 2_001,
                ..figures
            })
        }
        "stratum" => cell.stratum = strata,
        "conversion year" => cell.conversion = horizon + 1,
        "depth 20,001" => cell.entered = 20_001,
        "area 0" => cell.area = 0,
        "area 10,001" => cell.area = 10_001,
        "density 0" => cell.density = 0,
        "density 2,401" => cell.density = 2_401,
        "term 0" => term.term = 0,
        "term 2" => term.term = 2,
        "term 9" => term.term = 9,
        "term's year 0" => term.year = 0,
        "term's year" => term.year = horizon + 1,
        _ => {}
    }
    let mut words = site.words();
    past_size(which, &mut words[0]);
    (words, which)
}

/// The same for a figure of word 0, whose other words then stay as they are.
fn past_size(which: &str, word: &mut u32) {
    let (low, width, figure) = match which {
        "cells 0" => (16, 12, 0),
        "cells 1,001" => (16, 12, 1_001),
        "strata 0" => (8, 8, 0),
        "strata 17" => (8, 8, 17),
        "horizon 0" => (0, 8, 0),
        "horizon 101" => (0, 8, 101),
        _ => return,
    };
    let mask = ((1 << width) - 1) << low;
    *word = *word & !mask | figure << low;
}

/// A good site's listing with one word made kind 7 that was not, and which: only word 2 is then a site word.
pub fn kind_7(random: &mut Random, site: &Site) -> (Vec<u32>, &'static str) {
    let mut words = site.words();
    let last = words.len() - 1;
    let place = match random.between(0, 4) {
        early @ 0..=1 => early as usize,
        2 => 2 + usize::from(site.site_word.is_some()),
        3 => last,
        _ => random.between(3, last as u32) as usize,
    };
    let which = match place {
        0 => "word 0",
        1 => "word 1",
        2 => "word 2, a table's word",
        _ => part(&words, place),
    };
    words[place] = 7 << 28 | words[place] & 0x0FFF_FFFF;
    (words, which)
}

/// Makes one thing invalid, most likely; some changes leave a listing or a book valid.
pub fn damage(random: &mut Random, words: &mut Vec<u32>) {
    if words.is_empty() {
        return;
    }
    // Heads are short and tables long: half of the damage goes to the first words or the last.
    let at = match random.between(0, 3) {
        0 => random.below(words.len().min(4)),
        1 => words.len() - 1 - random.below(words.len().min(8)),
        _ => random.below(words.len()),
    };
    match random.between(0, 7) {
        0 => words.truncate(at),
        1 => words[at] = random.word(),
        2 => words[at] = words[at] & 0xF000_0000 | random.word() >> 4,
        3 => words[at] = words[at].wrapping_add(1),
        4 if at > 0 => words.swap(at - 1, at),
        5 if at > 0 => words[at] = words[at - 1],
        6 => words.push(random.word()),
        _ => words[at] ^= 1 << random.between(0, 31),
    }
}

/// One call of a list, with the arguments that are its own; lines and output are as long as said.
#[derive(Clone, Copy, Debug)]
pub enum Call {
    Open,
    Convert,
    Close { lines: usize },
    Replan { cell: usize, year: u32 },
    Withdraw { cell: usize },
    Issue,
    Statement { cell: usize },
    Forecast { output: usize },
}

impl Call {
    pub fn name(self) -> &'static str {
        match self {
            Call::Open => "open",
            Call::Convert => "convert",
            Call::Close { .. } => "close",
            Call::Replan { .. } => "replan",
            Call::Withdraw { .. } => "withdraw",
            Call::Issue => "issue",
            Call::Statement { .. } => "statement",
            Call::Forecast { .. } => "forecast",
        }
    }
}

/// A call that may be in a list; `current` is only a hint, so that enough replannings are accepted.
pub fn call(random: &mut Random, site: &Site, current: u32) -> Call {
    let cells = site.cells.len();
    let cell = match random.between(0, 19) {
        0 => random.pick(&[cells, cells + 1, usize::MAX]),
        _ => random.below(cells),
    };
    match random.between(0, 15) {
        0..=5 => Call::Close {
            lines: length(random, site.line_words()),
        },
        6..=8 => Call::Replan {
            cell,
            year: year(random, site.horizon, current),
        },
        9 => Call::Withdraw { cell },
        10..=13 => Call::Issue,
        _ => Call::Statement { cell },
    }
}

fn year(random: &mut Random, horizon: u32, current: u32) -> u32 {
    match random.between(0, 9) {
        0 => 0,
        1 => random.pick(&[current, horizon, horizon + 1, u32::MAX]),
        _ => random.between(current.min(horizon - 1) + 1, horizon),
    }
}

/// At need, above it, or now and then below it.
pub fn length(random: &mut Random, need: usize) -> usize {
    match random.between(0, 19) {
        0 => random.below(need),
        1 => need - 1,
        2..=9 => need,
        _ => need + random.below(5),
    }
}

/// A float of any class: around the ends of the ranges, near whole mm, or any bits at all.
pub fn float(random: &mut Random) -> f32 {
    let value = match random.between(0, 5) {
        0 => random.pick(&[0.0, 20.0, -100.0, 3_000.0, f32::INFINITY, f32::MIN_POSITIVE]),
        1 => return f32::from_bits(random.word()),
        2 => random.between(0, 20_000) as f32 / 1_000.0,
        3 => random.between(0, 3_100_000) as f32 / 1_000.0 - 100.0,
        4 => random.between(0, 1 << 24) as f32 / 800_000.0,
        _ => random.between(0, 1 << 24) as f32 / 5_000.0 - 150.0,
    };
    let nearby = value
        .to_bits()
        .wrapping_add(random.between(0, 4))
        .wrapping_sub(2);
    let sign = u32::from(random.once_in(8)) << 31;
    f32::from_bits(nearby ^ sign)
}

pub fn reading(random: &mut Random) -> Reading {
    match random.between(0, 20) {
        0 => Reading::Missing,
        1..=10 => Reading::Core(float(random)),
        11..=14 => Reading::Levels(float(random), float(random)),
        15..=18 => {
            let base = float(random);
            Reading::Levels(base + random.between(0, 21_000) as f32 / 1_000.0, base)
        }
        _ => {
            // Levels of few digits, so that a difference of whole mm can be met, at the ends of its range.
            let base = random.between(0, 1_000) as f32 / 8.0;
            let depth = random.pick(&[-0.001, -0.0005, 0.0, 20.0, 20.0005, 20.001, 20.002]);
            Reading::Levels(base + depth, base)
        }
    }
}

/// Half-widths and stocks of two classes, mostly of one length and in range.
pub fn pools(random: &mut Random) -> [Vec<u32>; 4] {
    let pools = random.between(1, 5) as usize;
    // Stocks far above the half-widths give whole answers; the root is needed in between.
    let most = random.pick(&[3, 40, 1_000, 20_000]);
    let widths = random.pick(&[most / 4, most / 2, most]);
    let mut lists = [widths, widths, most, most].map(|most| {
        let values = (0..pools).map(|_| random.between(0, most));
        values.collect::<Vec<u32>>()
    });
    if random.once_in(3) {
        lists[random.below(2) + 2].fill(0);
    }
    if random.once_in(20) {
        // Just at the end of a case: √Q is 3/20 of D, or all of it.
        let unit = random.between(1, 1_000);
        let (width, distance) = random.pick(&[(3 * unit, 20 * unit), (unit, unit)]);
        return [vec![width], vec![0], vec![distance], vec![0]];
    }
    if random.once_in(10) {
        let length = random.below(8);
        lists[random.below(4)].resize(length, 1);
    }
    if random.once_in(10) {
        let list = random.below(4);
        if let Some(value) = lists[list].last_mut() {
            *value = random.pick(&[20_000, 20_001, u32::MAX]);
        }
    }
    if random.once_in(30) {
        let length = random.below(8);
        lists.iter_mut().for_each(|list| list.resize(length, 1));
    }
    lists
}

/// What the call of logged blocks takes; years is T.
#[derive(Clone, Debug)]
pub struct LoggedBlocks {
    pub years: u32,
    pub strata: u32,
    pub densities: Vec<u32>,
    pub areas: Vec<u32>,
    pub discounts: Vec<u32>,
}

/// The greatest value in the three lists of logged blocks.
const MOST: u32 = 10_000;

impl LoggedBlocks {
    /// Lists as long as they should be, with one value throughout.
    fn of(years: u32, strata: u32, value: u32) -> LoggedBlocks {
        let [t, i] = [years, strata].map(|count| count as usize);
        LoggedBlocks {
            years,
            strata,
            densities: vec![value; (t + 1) * i],
            areas: vec![value; t * i],
            discounts: vec![value; i],
        }
    }

    /// Lists 0 to 2.
    fn lists(&mut self) -> [&mut Vec<u32>; 3] {
        [&mut self.densities, &mut self.areas, &mut self.discounts]
    }

    /// Density times discount, at a place in the list of densities.
    fn product(&self, place: usize) -> u64 {
        let discount = self.discounts[place % self.strata as usize];
        u64::from(self.densities[place]) * u64::from(discount)
    }
}

/// Mostly good, and often with the two sides of the test equal or nearly so.
pub fn logged_blocks(random: &mut Random) -> LoggedBlocks {
    let mut blocks = good_blocks(random);
    if random.once_in(4) {
        // Each fault by itself, or some of them together.
        for _ in 0..random.pick(&[1, 1, 2, 3]) {
            match random.between(0, 5) {
                0 => wrong_size(random, &mut blocks),
                1 | 2 => wrong_table(random, &mut blocks),
                _ => value_too_large(random, &mut blocks),
            }
        }
    }
    blocks
}

/// Mostly a few years and strata.
fn good_blocks(random: &mut Random) -> LoggedBlocks {
    if random.once_in(200) {
        let (years, strata) = (random.pick(&[1, 100]), random.pick(&[1, 8]));
        return LoggedBlocks::of(years, strata, random.pick(&[0, MOST]));
    }
    let years = match random.between(0, 19) {
        0 => random.pick(&[1, 100]),
        1 => random.between(1, 100),
        2..=5 => random.between(1, 20),
        _ => random.between(1, 4),
    };
    let strata = match random.between(0, 9) {
        0 => random.pick(&[1, 8]),
        1..=4 => random.between(1, 8),
        _ => random.between(1, 3),
    };
    let blocks = LoggedBlocks::of(years, strata, 0);
    match random.between(0, 9) {
        0..=3 => any_blocks(random, blocks),
        4..=6 => blocks_of_one_density(random, blocks),
        _ => blocks_in_proportion(random, blocks),
    }
}

/// Each list small or great throughout, mostly 0, or one value at an end of the range.
fn any_blocks(random: &mut Random, mut blocks: LoggedBlocks) -> LoggedBlocks {
    for list in blocks.lists() {
        let most = random.pick(&[3, 40, 1_000, MOST]);
        if random.once_in(12) {
            list.fill(random.pick(&[0, MOST]));
            continue;
        }
        let zeros_among = random.pick(&[1, 1, 4]);
        list.fill_with(|| match random.between(1, zeros_among) {
            1 => figure(random, 0, most),
            _ => 0,
        });
    }
    blocks
}

/// One stratum alone has a discount above 0, and the same density in every year from 1 on: the sides are equal where it
/// has none in year 0, and where it has some the average lies above what each ha holds.
fn blocks_of_one_density(random: &mut Random, mut blocks: LoggedBlocks) -> LoggedBlocks {
    let strata = blocks.strata as usize;
    let steady = random.below(strata);
    let most = random.pick(&[3, 40, 1_000, MOST]);
    let (density, discount) = (random.between(1, most), random.between(1, MOST));
    for (place, value) in blocks.densities.iter_mut().enumerate() {
        // The other strata add nothing to the average, for their discounts stay 0.
        *value = if place % strata == steady {
            density
        } else {
            random.between(0, most)
        };
    }
    blocks.densities[steady] = match random.between(0, 3) {
        0 => 0,
        1 => density,
        _ => random.between(0, blocks.years),
    };
    blocks.discounts[steady] = random.pick(&[1, 8_000, 9_999, MOST, discount]);
    let area = random.pick(&[1, 30, MOST]);
    for place in (steady..blocks.areas.len()).step_by(strata) {
        blocks.areas[place] = random.between(0, area);
    }
    change_one_value(random, &mut blocks);
    blocks
}

/// A few densities, the greatest mostly above the average, and two areas in the proportion that makes the sides equal.
fn blocks_in_proportion(random: &mut Random, mut blocks: LoggedBlocks) -> LoggedBlocks {
    let strata = blocks.strata as usize;
    let most = random.pick(&[1, 5, 100, MOST]);
    let least = random.pick(&[1, most]);
    blocks.discounts.fill_with(|| random.between(least, most));
    for _ in 0..random.between(1, 5) {
        let place = random.below(blocks.densities.len());
        blocks.densities[place] = random.between(1, most);
    }
    let places = 0..blocks.densities.len();
    let products: Vec<u64> = places.map(|place| blocks.product(place)).collect();
    let total: u64 = products.iter().sum();
    // Those of years 1 to T, in the order of the areas.
    let products = &products[strata..];
    let low = random.below(products.len());
    let high = (0..products.len()).max_by_key(|&place| products[place]);
    let high = high.unwrap_or(low);
    let years = u64::from(blocks.years);
    // By how much one ha there is above the average, and below it.
    let above = (years * products[high]).saturating_sub(total);
    let below = total.saturating_sub(years * products[low]);
    let (high_area, low_area) = in_proportion(random, below, above);
    blocks.areas[high] = high_area;
    // Now and then all of the area is above the average.
    if !random.once_in(6) {
        blocks.areas[low] = low_area.max(blocks.areas[low]);
    }
    change_one_value(random, &mut blocks);
    blocks
}

/// Two areas in the proportion of two numbers: exactly where both fit, else the greater is 10,000 and the other rounded
/// down. Two numbers of 0 give any area.
fn in_proportion(random: &mut Random, first: u64, second: u64) -> (u32, u32) {
    let (mut divisor, mut rest) = (first, second);
    while rest != 0 {
        (divisor, rest) = (rest, divisor % rest);
    }
    let times = random.between(1, MOST);
    if divisor == 0 {
        return (times, times);
    }
    let greater = first.max(second) / divisor;
    let scaled = |number: u64| match u64::from(MOST) / greater {
        0 => (number / divisor * u64::from(MOST) / greater) as u32,
        fits => (number / divisor * (1 + u64::from(times) % fits)) as u32,
    };
    (scaled(first), scaled(second))
}

/// Half of the time, one density or area is made one more or one less; if there is one above 0, such a one.
fn change_one_value(random: &mut Random, blocks: &mut LoggedBlocks) {
    if random.once_in(2) {
        return;
    }
    let list = if random.once_in(2) {
        &mut blocks.densities
    } else {
        &mut blocks.areas
    };
    let places: Vec<usize> = (0..list.len()).filter(|&place| list[place] > 0).collect();
    let place = match places.len() {
        0 => random.below(list.len()),
        above_0 => places[random.below(above_0)],
    };
    list[place] = if random.once_in(2) {
        (list[place] + 1).min(MOST)
    } else {
        list[place].saturating_sub(1)
    };
}

/// T or the number of strata just or far past an end of its range, mostly with lists as long as that asks.
fn wrong_size(random: &mut Random, blocks: &mut LoggedBlocks) {
    if random.once_in(2) {
        blocks.years = random.pick(&[0, 101, u32::MAX]);
    } else {
        blocks.strata = random.pick(&[0, 9, u32::MAX]);
    }
    let far = blocks.years > 101 || blocks.strata > 9;
    if far && random.once_in(4) {
        blocks.lists().into_iter().for_each(Vec::clear);
    } else if !far && !random.once_in(4) {
        let asked = LoggedBlocks::of(blocks.years, blocks.strata, 0);
        blocks.densities.resize(asked.densities.len(), 1);
        blocks.areas.resize(asked.areas.len(), 1);
        blocks.discounts.resize(asked.discounts.len(), 1);
    }
}

/// A list longer or shorter by a value, a year or a stratum; or densities without year 0, or areas with it.
fn wrong_table(random: &mut Random, blocks: &mut LoggedBlocks) {
    let [year, stratum] = [blocks.strata, blocks.years].map(|count| count.min(101) as usize);
    let step = random.pick(&[1, 1, year, stratum, stratum + 1]);
    let list = match random.below(5) {
        3 => return blocks.densities.truncate(blocks.areas.len()),
        4 => return blocks.areas.clone_from(&blocks.densities),
        list => &mut *blocks.lists()[list],
    };
    let length = if random.once_in(2) {
        list.len() + step
    } else {
        list.len().saturating_sub(step)
    };
    list.resize(length, 1);
}

/// A value above 10,000 as a list's first, its last or any other.
fn value_too_large(random: &mut Random, blocks: &mut LoggedBlocks) {
    let list = random.below(3);
    let list = &mut *blocks.lists()[list];
    if list.is_empty() {
        return;
    }
    let any = random.below(list.len());
    let place = random.pick(&[0, list.len() - 1, any]);
    list[place] = random.pick(&[MOST + 1, 1 << 16, u32::MAX]);
}

/// A recording of a well, with lists of its own.
#[derive(Clone, Debug, Default)]
pub struct OwnedRecording {
    pub days: Vec<u32>,
    pub depths: Vec<f32>,
    pub tolerances: Vec<f32>,
}

impl OwnedRecording {
    pub fn lent(&self) -> Recording<'_> {
        Recording {
            days: &self.days,
            depths: &self.depths,
            tolerances: &self.tolerances,
        }
    }

    fn push(&mut self, day: u32, dip: Dip) {
        self.days.push(day);
        self.depths.push(dip.depth);
        self.tolerances.push(dip.tolerance);
    }
}

/// In metres.
struct Dip {
    depth: f32,
    tolerance: f32,
}

/// The greatest mm of a depth or a tolerance.
const DEEPEST: u32 = 20_000;

/// Mostly good, and often with the two dips of a day just as far apart as their tolerances let them be, or 1 mm more.
pub fn recordings(random: &mut Random) -> [OwnedRecording; 2] {
    let mut recordings = good_recordings(random);
    if random.once_in(3) {
        // Each fault by itself, or some of them together.
        for _ in 0..random.pick(&[1, 1, 2, 3]) {
            let recording = &mut recordings[random.below(2)];
            match random.between(0, 5) {
                0 => wrong_length(random, recording),
                1 | 2 => wrong_day(random, recording),
                _ => any_readings(random, recording),
            }
        }
    }
    recordings
}

/// What each day is drawn from: 0 is in the first alone, 1 in the second alone, 2 in both.
const SHARES: [&[usize]; 8] = [
    &[0],
    &[1],
    &[2],
    &[0, 1],
    &[0, 2, 2],
    &[1, 2, 2],
    &[0, 1, 2, 2],
    &[0, 1, 2, 2, 2, 2, 2, 2],
];

/// Mostly a few days; of those in both, the first that differs is often a later one.
fn good_recordings(random: &mut Random) -> [OwnedRecording; 2] {
    let count = match random.between(0, 1_999) {
        0 => random.between(1_001, 2_000),
        _ => random.between(0, 12),
    };
    let shares = random.pick(&SHARES);
    let differing = random.pick(&[1, 2, 5, 1_000]);
    let mut first = OwnedRecording::default();
    let mut second = OwnedRecording::default();
    for day in rising_days(random, count) {
        match random.pick(shares) {
            0 => first.push(day, any_dip(random)),
            1 => second.push(day, any_dip(random)),
            _ => {
                let [one, other] = dips_of_a_day(random, differing);
                first.push(day, one);
                second.push(day, other);
            }
        }
    }
    [first, second]
}

/// Close together or far apart, from 0, from just above it or from any day on, or up to 4,294,967,295 in the same way.
fn rising_days(random: &mut Random, count: u32) -> Vec<u32> {
    let any = random.word() >> 1;
    let mut day = random.pick(&[0, 1, any]);
    let step = random.pick(&[1, 3, 1_000_000]);
    let mut days = Vec::new();
    for _ in 0..count {
        days.push(day);
        // No day passes 2^31 + 2,000 × 10^6, which 32 bits hold.
        day += random.between(1, step);
    }
    if random.once_in(2) {
        days = days.iter().rev().map(|day| u32::MAX - day).collect();
    }
    if random.once_in(5) && days.first().is_some_and(|&day| day > 0) {
        days.insert(0, 0);
    }
    if random.once_in(5) && days.last().is_some_and(|&day| day < u32::MAX) {
        days.push(u32::MAX);
    }
    days
}

fn any_dip(random: &mut Random) -> Dip {
    let [depth, tolerance] = [DEEPEST, 300].map(|most| figure(random, 0, most));
    Dip {
        depth: metres(random, depth),
        tolerance: metres(random, tolerance),
    }
}

/// The two dips of a day: one in so many goes beyond the tolerances together, unless these leave no room.
fn dips_of_a_day(random: &mut Random, differing: u32) -> [Dip; 2] {
    let most = random.pick(&[0, 3, 300, 300, DEEPEST]);
    let tolerances = [most; 2].map(|most| figure(random, 0, most));
    let together = tolerances[0] + tolerances[1];
    let far = random.between(1, DEEPEST);
    let within = random.between(0, together);
    let apart = if random.once_in(differing) {
        together + random.pick(&[1, 1, far])
    } else {
        random.pick(&[together, within])
    };
    let apart = apart.min(DEEPEST);
    let shallow = figure(random, 0, DEEPEST - apart);
    let mut depths = [shallow, shallow + apart];
    if random.once_in(2) {
        depths.reverse();
    }
    [0, 1].map(|which: usize| Dip {
        depth: metres(random, depths[which]),
        tolerance: metres(random, tolerances[which]),
    })
}

/// A float of so many whole mm: the least of them, the greatest or any.
fn metres(random: &mut Random, millimetres: u32) -> f32 {
    if millimetres == 0 && random.once_in(10) {
        return -0.0;
    }
    let least = least_metres(millimetres).to_bits();
    // Floats from 0 on rise with their bits.
    let greatest = match millimetres {
        DEEPEST => least,
        _ => least_metres(millimetres + 1).to_bits() - 1,
    };
    let any = random.between(least, greatest);
    f32::from_bits(random.pick(&[least, greatest, any]))
}

/// The least float of so many whole mm.
fn least_metres(millimetres: u32) -> f32 {
    let thousandfold = f64::from(millimetres);
    let nearest = (thousandfold / 1_000.0) as f32;
    // 24 bits times 1,000 fit the 53 bits of an f64.
    if f64::from(nearest) * 1_000.0 < thousandfold {
        nearest.next_up()
    } else {
        nearest
    }
}

/// One list longer or shorter than it was; days that are added do not always rise.
fn wrong_length(random: &mut Random, recording: &mut OwnedRecording) {
    let by = random.pick(&[1, 1, 2, 12]);
    let longer = random.once_in(2);
    let changed = |length: usize| {
        if longer {
            length + by
        } else {
            length.saturating_sub(by)
        }
    };
    let OwnedRecording {
        days,
        depths,
        tolerances,
    } = recording;
    match random.below(3) {
        0 => days.resize(changed(days.len()), u32::MAX),
        1 => depths.resize(changed(depths.len()), 1.0),
        _ => tolerances.resize(changed(tolerances.len()), 0.0),
    }
}

/// A day that is the one before, or lower.
fn wrong_day(random: &mut Random, recording: &mut OwnedRecording) {
    let days = &mut recording.days;
    if days.len() < 2 {
        return;
    }
    let place = 1 + random.below(days.len() - 1);
    match random.between(0, 3) {
        0 | 1 => days[place] = days[place - 1],
        2 => days.swap(place - 1, place),
        _ => days[place] = random.between(0, days[place - 1]),
    }
}

/// Any floats for the depth of a dip, its tolerance or both.
fn any_readings(random: &mut Random, recording: &mut OwnedRecording) {
    let place = random.below(recording.days.len().max(1));
    let spared = random.below(3);
    let lists = [&mut recording.depths, &mut recording.tolerances];
    for (which, list) in lists.into_iter().enumerate() {
        if which == spared {
            continue;
        }
        if let Some(reading) = list.get_mut(place) {
            let not_finite = random.pick(&[f32::NAN, f32::INFINITY, f32::NEG_INFINITY]);
            let any = float(random);
            *reading = random.pick(&[not_finite, any, any]);
        }
    }
}
