//! The worked figures of document 01 and of the requests, the ends of lengths and readings, converted books, and the
//! claims on lists where they fail.
use harness::generate::{self, OwnedRecording, Random};
use harness::reference::{self, History};
use harness::sample::{with_site_word, worked_with, CHAR_WORD, NEGATIVE_TERM, SITE_WORD, WORKED};
use harness::site::{Cell, Row, Site, SiteWord, YearlyTerm, LINE_WORDS};
use harness::{
    Account, Answer, DipsAnswer, Ledger, LoggedAnswer, Reading, Total, PROVED, REFERENCE,
};

fn both(check: impl Fn(&Ledger)) {
    check(&REFERENCE);
    check(&PROVED);
}

fn accepted(value: u32) -> Answer {
    Answer {
        value,
        ..Answer::default()
    }
}

fn refused(number: u32, place: usize) -> Answer {
    Answer {
        number,
        place,
        value: 0,
    }
}

/// Of a forecast: the kg to date of all cells after the last year.
fn total(total: u64) -> Total {
    Total {
        total,
        ..Total::default()
    }
}

fn forecast_refused(number: u32, place: usize) -> Total {
    Total {
        number,
        place,
        total: 0,
    }
}

/// Of logged blocks: the average, and whether the left side is at least the right.
fn logged_average(average: u32, holds: bool) -> LoggedAnswer {
    LoggedAnswer {
        average,
        holds,
        ..LoggedAnswer::default()
    }
}

fn logged_refused(number: u32, place: usize) -> LoggedAnswer {
    LoggedAnswer {
        number,
        place,
        ..LoggedAnswer::default()
    }
}

fn row(drainage: u32, oxidation: u32, burning: u32) -> Row {
    Row {
        drainage,
        oxidation,
        burning,
    }
}

/// One cell of 2,000 mm with a row for each year, of 10,000 m² and a density of 500, G 25 and e 12: K is 5,000,000, and
/// the kg to date are (1,100,000 × O + 1,220,000 × B) / 600, rounded down.
fn site_of_years(site_word: Option<SiteWord>, conversion: u32, rows: &[Row]) -> Site {
    let cell = Cell {
        stratum: 0,
        conversion,
        entered: 2_000,
        area: 10_000,
        density: 500,
    };
    Site {
        horizon: rows.len() as u32,
        char: 0,
        buffer: 20,
        warming: 25,
        methane: 12,
        site_word,
        tables: vec![rows.to_vec()],
        cells: vec![cell],
        terms: vec![],
    }
}

/// One cell, converted in year 1, with one row.
fn one_cell(row: Row, entered: u32) -> Vec<u32> {
    one_cell_of(None, row, entered)
}

/// The same of a site with its own figures.
fn one_cell_of(site_word: Option<SiteWord>, row: Row, entered: u32) -> Vec<u32> {
    let mut site = site_of_years(site_word, 1, &[row]);
    site.cells[0].entered = entered;
    site.words()
}

/// The words of a book of one cell, and of one of the old shape.
const BOOK_OF_ONE: usize = 3 + 3;
const OLD_BOOK_OF_ONE: usize = 2 + 3;

/// A book of year 0 with one cell that has lost so much.
fn lent_book([oxidised, burned]: [u32; 2]) -> [u32; BOOK_OF_ONE] {
    let (o, b) = (11 << 28 | oxidised, 12 << 28 | burned);
    [8 << 28, 9 << 28, 9 << 28, 10 << 28 | 1, o, b]
}

/// The lines of the first year of such a book.
fn lines_of_lent(ledger: &Ledger, listing: &[u32], lost: [u32; 2]) -> [u32; LINE_WORDS] {
    let (mut book, mut lines) = (lent_book(lost), [0; LINE_WORDS]);
    assert_eq!((ledger.close)(listing, &mut book, &mut lines), accepted(0));
    lines
}

/// d, o, b and R, with the entered depth, to burned and oxidised. The table value is d and what was lost before.
#[test]
fn worked_years() {
    let rows = [
        (700, 45, 340, 2000, 2000, 300, 45),
        (400, 45, 340, 2000, 2000, 0, 45),
        (410, 45, 340, 2000, 2000, 10, 45),
        // 80 cm less the 100 mm lost, and 250 cm less 1,800 mm.
        (700, 45, 340, 200, 300, 200, 0),
        (700, 45, 340, 200, 2000, 200, 0),
        (30, 45, 0, 2000, 2000, 0, 30),
        (700, 45, 340, 299, 299, 0, 0),
        (700, 45, 340, 300, 300, 300, 0),
    ];
    for (dry, oxidation, burning, remaining, entered, burned, oxidised) in rows {
        let lost = entered - remaining;
        let listing = one_cell(row((dry + lost) / 10, oxidation, burning), entered);
        both(|ledger| {
            let lines = lines_of_lent(ledger, &listing, [lost, 0]);
            assert_eq!(lines[..2], [13 << 28 | oxidised, 14 << 28 | burned]);
        });
    }
}

/// A table value of 45 cm is 450 mm from the surface at conversion: O + B before the year, to burned and oxidised,
/// whether O, B or both were lost.
#[test]
fn drained_from_the_benchmark() {
    let rows = [
        (0, 50, 45),
        // d is 401, 400 and 399.
        (49, 1, 45),
        (50, 0, 45),
        (51, 0, 45),
        // d is 45 and 44, then 1 and 0.
        (405, 0, 45),
        (406, 0, 44),
        (449, 0, 1),
        (450, 0, 0),
        (451, 0, 0),
        // 550 mm below the water, and above it by that much would burn 150.
        (1_000, 0, 0),
        (2_000, 0, 0),
    ];
    let listing = one_cell(row(45, 45, 340), 2_000);
    for (lost, burned, oxidised) in rows {
        let of_both = [lost / 3, lost - lost / 3];
        for before in [[lost, 0], [0, lost], of_both] {
            both(|ledger| {
                let lines = lines_of_lent(ledger, &listing, before);
                assert_eq!(lines[..2], [13 << 28 | oxidised, 14 << 28 | burned]);
            });
        }
    }
}

/// The oxidised and burned mm and the kg of each year, of one cell from an open, with a replan after so many years;
/// the forecast has the same kg where there is none.
fn closes_as(site: &Site, replan: Option<(usize, u32)>, years: &[[u32; LINE_WORDS]]) {
    let listing = site.words();
    both(|ledger| {
        let (mut book, mut lines) = ([0; BOOK_OF_ONE], [0; LINE_WORDS]);
        assert_eq!((ledger.open)(&listing, &mut book), accepted(0));
        for (closed, [oxidised, burned, kg]) in years.iter().enumerate() {
            if let Some((_, year)) = replan.filter(|(after, _)| *after == closed) {
                assert_eq!((ledger.replan)(&listing, &mut book, 0, year), accepted(0));
            }
            assert_eq!((ledger.close)(&listing, &mut book, &mut lines), accepted(0));
            let expected = [13 << 28 | oxidised, 14 << 28 | burned, 15 << 28 | kg];
            assert_eq!(lines, expected, "year {}", closed + 1);
        }
        if replan.is_none() {
            let mut output = vec![0; years.len()];
            let answer = (ledger.forecast)(&listing, &mut book, &mut output);
            let kilograms: Vec<u64> = years.iter().map(|line| u64::from(line[2])).collect();
            assert_eq!(output, kilograms);
            assert_eq!(answer, total(kilograms.iter().sum()));
        }
    });
}

/// Rows of canals that are deepened as the land sinks.
fn deepened() -> [Row; 4] {
    [
        row(45, 45, 340),
        row(50, 45, 340),
        row(60, 45, 20),
        row(65, 45, 340),
    ]
}

/// What they take: d is 450, 500 − 95, 600 − 145 and 650 − 210, and a fire may burn d − 400. O and B to date are 45
/// and 50, 90 and 55, 135 and 75, 180 and 115; the kg to date 184,166.7, 276,833.3, 400,000 and 563,833.3.
const DEEPENED: [[u32; LINE_WORDS]; 4] = [
    [45, 50, 184_166],
    [45, 5, 92_667],
    [45, 20, 123_167],
    [45, 40, 163_833],
];

#[test]
fn canals_deepened() {
    closes_as(&site_of_years(None, 1, &deepened()), None, &DEEPENED);
}

/// Ages and d go by the cell's own plan year: the listing's, or a later one.
#[test]
fn canals_deepened_of_a_later_cell() {
    let [first, second, third, _] = DEEPENED;
    let nothing = [0; LINE_WORDS];
    let site = site_of_years(None, 2, &deepened());
    closes_as(&site, None, &[nothing, first, second, third]);
    closes_as(&site, Some((1, 3)), &[nothing, nothing, first, second]);
    closes_as(&site, Some((0, 1)), &DEEPENED);
    closes_as(&site, Some((1, 0)), &[nothing; 4]);
}

/// The canals silt up, and the surface rests at the water or below it until they are deepened. With 90 mm lost d is 0
/// of a table value of 8 cm and of 9 cm, and 10 of one of 10 cm; with 100 lost it is 400, with 140 lost 460. O and B to
/// date are 40 and 50, 50 and 50, 90 and 50, 130 and 110; the kg to date 175,000, 193,333.3, 266,666.7 and 462,000.
#[test]
fn canals_silted_and_deepened() {
    let rows = [45, 8, 9, 10, 50, 60].map(|drainage| row(drainage, 40, 340));
    let years = [
        [40, 50, 175_000],
        [0, 0, 0],
        [0, 0, 0],
        [10, 0, 18_333],
        [40, 0, 73_333],
        [40, 60, 195_334],
    ];
    closes_as(&site_of_years(None, 1, &rows), None, &years);
}

/// 300 mm of peat above water that goes deeper: the second fire burns the 205 mm that are left, of d − 400 = 305, and
/// then nothing is left at a d of 900. O and B to date are 45 and 50, 45 and 255; the kg to date 184,166.7 and 601,000.
#[test]
fn peat_that_runs_out_above_the_water() {
    let rows = [45, 80, 120].map(|drainage| row(drainage, 45, 340));
    let mut site = site_of_years(None, 1, &rows);
    site.cells[0].entered = 300;
    closes_as(&site, None, &[[45, 50, 184_166], [0, 205, 416_834], [0; 3]]);
}

/// Each cell of a book goes by its own O + B, as `drained_from_the_benchmark` has them, and not by its neighbour's.
#[test]
fn cells_drained_by_their_own_losses() {
    let cells = [
        ([450, 0], 0, 0),
        ([0, 0], 45, 50),
        ([0, 406], 44, 0),
        ([20, 29], 45, 1),
        ([0, 451], 0, 0),
        ([49, 1], 45, 0),
    ];
    let mut site = site_of_years(None, 1, &[row(45, 45, 340)]);
    site.cells = vec![site.cells[0]; cells.len()];
    let listing = site.words();
    let mut book = lent_book([0, 0])[..3].to_vec();
    book.extend(
        cells
            .iter()
            .flat_map(|(lost, _, _)| lent_book(*lost)[3..].to_vec()),
    );
    both(|ledger| {
        let mut lines = vec![0; site.line_words()];
        let answer = (ledger.close)(&listing, &mut book.clone(), &mut lines);
        assert_eq!(answer, accepted(0));
        for ((_, oxidised, burned), line) in cells.iter().zip(lines.chunks(LINE_WORDS)) {
            assert_eq!(line[..2], [13 << 28 | oxidised, 14 << 28 | burned]);
        }
    });
}

/// With a guard of 100 d is 450, 65, 20 and 0: O and B to date are 45 and 340, 90 and 340, 110 and 340, and the kg to
/// date 773,833.3, 856,333.3 and 893,000. With a guard of 0 the second fire burns all 65, to 906,000 kg. One of 355
/// leaves 95 mm to the first fire, 275,666.7 kg, and none to later ones: d is then 310, 265 and 220.
#[test]
fn guards_from_the_benchmark() {
    let first = [45, 340, 773_833];
    let [nothing, oxidised] = [[0; LINE_WORDS], [45, 0, 82_500]];
    let of_guards = [
        (100, [first, oxidised, [20, 0, 36_667], nothing]),
        (0, [first, [0, 65, 132_167], nothing, nothing]),
        (355, [[45, 95, 275_666], oxidised, oxidised, oxidised]),
    ];
    for (guard, years) in of_guards {
        let thickness = 300;
        let site_word = Some(SiteWord { guard, thickness });
        let site = site_of_years(site_word, 1, &[row(45, 45, 340); 4]);
        closes_as(&site, None, &years);
    }
}

/// Guard, least thickness, d, b and entered depth of a cell that oxidises nothing, to burned mm.
#[test]
fn site_figures() {
    let rows = [
        (0, 300, 340, 400, 2000, 340),
        (0, 300, 2_000, 400, 2000, 400),
        (1, 300, 340, 400, 2000, 339),
        (2_000, 300, 2_550, 1_000, 2000, 550),
        (2_000, 300, 2_000, 1_000, 2000, 0),
        (400, 0, 700, 340, 0, 0),
        (400, 0, 700, 340, 1, 1),
        (400, 2_000, 700, 340, 1_999, 0),
        (400, 2_000, 700, 340, 2_000, 300),
        (0, 0, 10, 340, 5, 5),
    ];
    for (guard, thickness, dry, burning, entered, burned) in rows {
        let row = row(dry / 10, 0, burning);
        let listing = one_cell_of(Some(SiteWord { guard, thickness }), row, entered);
        both(|ledger| {
            let (mut book, mut lines) = ([0; BOOK_OF_ONE], [0; 3]);
            assert_eq!((ledger.open)(&listing, &mut book), accepted(0));
            assert_eq!((ledger.close)(&listing, &mut book, &mut lines), accepted(0));
            assert_eq!(lines[..2], [13 << 28, 14 << 28 | burned]);
            // A book that has lost more than the cell may lose is refused at kind 12.
            let most = if entered < thickness { 0 } else { entered };
            book[4..].copy_from_slice(&[11 << 28 | most, 12 << 28]);
            let answer = (ledger.statement)(&listing, &book, 0);
            assert_eq!((answer.number, answer.remaining), (0, entered - most));
            book[5] = 12 << 28 | 1;
            let answer = (ledger.statement)(&listing, &book, 0);
            assert_eq!((answer.number, answer.place), (8, 5));
        });
    }
}

/// The worked listing with a site word, with a char percentage of 20, 1 and 31, and with a site word and one of 2: burned
/// mm, kg and tonnes of year 1, tonnes of year 2, and the mm left.
#[test]
fn worked_requests() {
    let mut site_and_char = with_site_word(SITE_WORD);
    site_and_char[1] = 0x2114_190C;
    let rows = [
        (with_site_word(SITE_WORD), 200, 489_166, 391, 65, 1_710),
        (worked_with(1, CHAR_WORD), 300, 582_500, 465, 67, 1_610),
        (worked_with(1, 0x2094_190C), 300, 687_000, 549, 66, 1_610),
        (worked_with(1, 0x2F94_190C), 300, 522_000, 417, 66, 1_610),
        (site_and_char, 200, 481_833, 384, 67, 1_710),
    ];
    for (listing, burned, kg, first, second, left) in rows {
        both(|ledger| {
            let (mut book, mut lines) = ([0; BOOK_OF_ONE], [0; 3]);
            assert_eq!((ledger.open)(&listing, &mut book), accepted(0));
            assert_eq!((ledger.close)(&listing, &mut book, &mut lines), accepted(0));
            assert_eq!(lines, [13 << 28 | 45, 14 << 28 | burned, 15 << 28 | kg]);
            assert_eq!((ledger.issue)(&listing, &mut book), accepted(first));
            assert_eq!((ledger.close)(&listing, &mut book, &mut lines), accepted(0));
            assert_eq!(lines, [13 << 28 | 45, 14 << 28, 15 << 28 | 82_500]);
            assert_eq!((ledger.issue)(&listing, &mut book), accepted(second));
            assert_eq!((ledger.statement)(&listing, &book, 0).remaining, left);
            let mut output = [0; 2];
            let answer = (ledger.forecast)(&listing, &mut book, &mut output);
            assert_eq!(answer, total(u64::from(kg) + 82_500));
            assert_eq!(output, [u64::from(kg), 82_500]);
        });
    }
}

/// h, G, e, area, density, O and B, to the kg to date.
#[test]
fn emissions_with_char() {
    let rows = [
        // 24,000,000 × 4,759,000 × 20,000 / 3,000,000,000, and without char.
        (31, 100, 100, 10_000, 2_400, 0, 20_000, 761_440_000),
        (0, 100, 100, 10_000, 2_400, 0, 20_000, 816_000_000),
        // 759,000 is the least weight of a burned mm; what oxidised has 1,100,000 whatever h is.
        (31, 1, 0, 10_000, 2_400, 0, 1, 6_072),
        (31, 100, 0, 10_000, 2_400, 0, 1, 6_072),
        (31, 1, 0, 10_000, 2_400, 1, 0, 8_800),
        (31, 1, 0, 10_000, 2_400, 1, 1, 14_872),
        // A hundredth less: 1,089,000 × 2,754 is below 3,000,000,000, and × 2,755 is not.
        (1, 1, 0, 1, 1, 0, 2_754, 0),
        (0, 1, 0, 1, 1, 0, 2_754, 1),
        (1, 1, 0, 1, 1, 0, 2_755, 1),
        // 16,793 × 5,089,000 × 6 / 3,000,000,000 is 170.9; without char 171, with char off the methane too 169.
        (1, 100, 100, 7, 2_399, 0, 6, 170),
        // 1,100,000 × 1,364 + 1,089,000 × 1,378 is above 3,000,000,000, and neither part is: they are not rounded each.
        (1, 1, 0, 1, 1, 1_364, 1_378, 1),
    ];
    for (char, warming, methane, area, density, oxidised, burned, kg) in rows {
        let mut listing = one_cell(row(0, 0, 0), 20_000);
        listing[1] = 2 << 28 | char << 23 | warming << 8 | methane;
        listing[4] = 5 << 28 | area << 12 | density;
        both(|ledger| {
            let book = lent_book([oxidised, burned]);
            let answer = (ledger.statement)(&listing, &book, 0);
            assert_eq!((answer.number, answer.kg), (0, kg));
        });
    }
}

/// Every h is allowed, and the other figures of word 1 are tested with each.
#[test]
fn char_percentages() {
    both(|ledger| {
        for char in 0..32 {
            for (figures, answer) in [
                (0x2064_6464, accepted(0)),
                (0x2000_0100, accepted(0)),
                (0x2065_6464, refused(2, 1)),
                (0x2064_6564, refused(2, 1)),
                (0x2064_0064, refused(2, 1)),
                (0x2064_6465, refused(2, 1)),
                (0x0064_6464, refused(2, 1)),
            ] {
                let listing = worked_with(1, figures | char << 23);
                assert_eq!((ledger.open)(&listing, &mut [0; BOOK_OF_ONE]), answer);
            }
        }
    });
}

/// With h = 0, and where nothing burned, a cell's kg lines add up to document 01's emission; its mm are the same with any h.
/// The buffer percentage beside h in word 1 changes no line.
#[test]
fn without_char() {
    let random = &mut Random(32);
    let [mut burned, mut oxidised_alone, mut less] = [0; 3];
    for _ in 0..200 {
        let site = generate::any_site(random);
        let (char, buffer) = (random.between(1, 31), site.buffer);
        let sites = [(0, buffer), (0, 100 - buffer), (char, buffer)];
        let sites = sites.map(|(char, buffer)| Site {
            char,
            buffer,
            ..site.clone()
        });
        for ledger in [&REFERENCE, &PROVED] {
            let sums = |site| sums_of_lines(ledger, site);
            let [without, other_buffer, with] = sites.each_ref().map(sums);
            assert_eq!(other_buffer, without);
            for (i, cell) in site.cells.iter().enumerate() {
                let ([o, b, kg], [with_o, with_b, with_kg]) = (without[i], with[i]);
                let k = u64::from(cell.area * cell.density);
                let methane = u64::from(4 * site.warming * site.methane) * b;
                assert_eq!(kg, k * (11_000 * (o + b) + methane) / 30_000_000);
                assert_eq!([with_o, with_b], [o, b]);
                assert!(with_kg == kg || with_kg < kg && b > 0);
                burned += u32::from(b > 0);
                oxidised_alone += u32::from(b == 0 && kg > 0);
                less += u32::from(with_kg < kg);
            }
        }
    }
    assert!(burned > 0 && oxidised_alone > 0 && less > 0);
}

/// Of each cell, its lines of all years added up: oxidised and burned mm, and kg.
fn sums_of_lines(ledger: &Ledger, site: &Site) -> Vec<[u64; LINE_WORDS]> {
    let mut sums = vec![[0; LINE_WORDS]; site.cells.len()];
    for (lines, _) in all_years(ledger, site).0 {
        for (sum, word) in sums.as_flattened_mut().iter_mut().zip(lines) {
            *sum += u64::from(word & 0x0FFF_FFFF);
        }
    }
    sums
}

/// Which word a kind 7 is refused at, and which a site word.
#[test]
fn refused_site_words() {
    let two_site_words = [
        &with_site_word(SITE_WORD)[..3],
        &with_site_word(SITE_WORD)[2..],
    ]
    .concat();
    let mut invalid_row = with_site_word(0x7000_07D1);
    invalid_row[3] = 0;
    let refusals: [(&[u32], u32, usize); 9] = [
        (&with_site_word(0x707D_07D1), 4, 2),
        (&with_site_word(0x7FFF_FFFF), 4, 2),
        // Before the word of a table that is invalid.
        (&invalid_row, 4, 2),
        (&worked_with(2, 0x7460_B554), 3, 6),
        (&worked_with(1, 0x7014_190C), 2, 1),
        (&worked_with(0, 0x7001_0102), 2, 0),
        (&two_site_words, 4, 3),
        (&WORKED[..2], 3, 2),
        (&[&WORKED[..], &[SITE_WORD]].concat(), 4, 6),
    ];
    both(|ledger| {
        for (listing, number, place) in refusals {
            let mut book = [7; BOOK_OF_ONE];
            assert_eq!((ledger.open)(listing, &mut book), refused(number, place));
            assert_eq!(book, [7; BOOK_OF_ONE]);
        }
        // Above the range by one, and by each of the fields' high bits alone.
        for above in [2_001, 2_048, 4_096, 8_192, 16_383] {
            for figures in [above << 14, above, above << 14 | 300, 400 << 14 | above] {
                let listing = with_site_word(7 << 28 | figures);
                let answer = (ledger.open)(&listing, &mut [0; BOOK_OF_ONE]);
                assert_eq!(answer, refused(4, 2));
            }
        }
        for figures in [0, 2_000, 2_000 << 14, 2_000 << 14 | 2_000] {
            let listing = with_site_word(7 << 28 | figures);
            assert_eq!((ledger.open)(&listing, &mut [0; BOOK_OF_ONE]), accepted(0));
        }
    });
}

/// A site word of 400 and 300 gives what a listing without one gives.
#[test]
fn stated_defaults() {
    let random = &mut Random(31);
    for _ in 0..200 {
        let site_word = Some(SiteWord {
            guard: 400,
            thickness: 300,
        });
        let site = generate::any_site(random);
        let sites = [None, site_word].map(|site_word| Site {
            site_word,
            ..site.clone()
        });
        both(|ledger| {
            let [without, with] = sites.each_ref().map(|site| all_years(ledger, site));
            assert!(without == with);
        });
    }
}

/// The lines of each year, its issue, and the book after the last.
fn all_years(ledger: &Ledger, site: &Site) -> (Vec<(Vec<u32>, Answer)>, Vec<u32>) {
    let listing = site.words();
    let mut book = vec![0; site.book_words()];
    assert_eq!((ledger.open)(&listing, &mut book), accepted(0));
    let years = (0..site.horizon).map(|_| {
        let mut lines = vec![0; site.line_words()];
        assert_eq!((ledger.close)(&listing, &mut book, &mut lines), accepted(0));
        (lines, (ledger.issue)(&listing, &mut book))
    });
    (years.collect(), book)
}

#[test]
fn worked_first_year() {
    both(|ledger| {
        let (mut book, mut lines) = ([7; BOOK_OF_ONE + 1], [7; 4]);
        assert_eq!((ledger.open)(&WORKED, &mut book), accepted(0));
        let opened = [
            0x80000000, 0x90000000, 0x90000000, 0xA0000001, 0xB0000000, 0xC0000000, 7,
        ];
        assert_eq!(book, opened);
        assert_eq!((ledger.close)(&WORKED, &mut book, &mut lines), accepted(0));
        assert_eq!(
            lines,
            [13 << 28 | 45, 14 << 28 | 300, 15 << 28 | 692_500, 7]
        );
        assert_eq!((ledger.issue)(&WORKED, &mut book), accepted(553));
        assert_eq!((ledger.issue)(&WORKED, &mut book), accepted(0));
        let account = Account {
            number: 0,
            place: 0,
            entered: 2000,
            remaining: 1655,
            oxidised: 45,
            burned: 300,
            kg: 692_500,
            plan_year: 1,
            withdrawn: false,
        };
        assert_eq!((ledger.statement)(&WORKED, &book, 0), account);
    });
}

#[test]
fn worked_second_year() {
    let with_term = [&WORKED[..], &[NEGATIVE_TERM]].concat();
    both(|ledger| {
        let (mut book, mut lines) = (NEW_WORKED, [7; 3]);
        assert_eq!((ledger.close)(&WORKED, &mut book, &mut lines), accepted(0));
        assert_eq!(lines, [13 << 28 | 45, 14 << 28, 15 << 28 | 82_500]);
        assert_eq!((ledger.issue)(&with_term, &mut book), accepted(0));
        assert_eq!((ledger.issue)(&WORKED, &mut book), accepted(67));
        assert_eq!(
            (ledger.close)(&WORKED, &mut book, &mut lines),
            refused(9, 0)
        );
        let mut output = [7; 3];
        assert_eq!(
            (ledger.forecast)(&WORKED, &mut [7; BOOK_OF_ONE], &mut output),
            total(775_000)
        );
        assert_eq!(output, [692_500, 82_500, 7]);
    });
}

#[test]
fn worked_readings() {
    both(|ledger| {
        let core = |metres| (ledger.depth)(Reading::Core(metres));
        let levels = |surface, base| (ledger.depth)(Reading::Levels(surface, base));
        assert_eq!(core(f32::from_bits(0x3F33_3333)), accepted(699));
        assert_eq!(levels(12.5, 10.25), accepted(2250));
        assert_eq!(core(-0.0), accepted(0));
        assert_eq!(core(f32::from_bits(1)), accepted(0));
        assert_eq!(core(20.0), accepted(20_000));
        assert_eq!(core(20.0f32.next_up()), refused(17, 0));
        assert_eq!(core(f32::from_bits(0x8000_0001)), refused(17, 0));
        assert_eq!(core(f32::NAN), refused(16, 0));
        assert_eq!(core(f32::NEG_INFINITY), refused(16, 0));
        // The greatest whole number not above a negative value.
        assert_eq!(levels(0.0, f32::from_bits(0x8000_0001)), accepted(1));
        assert_eq!(levels(3_000.0, 2_980.0), accepted(20_000));
        assert_eq!(levels(3_000.0f32.next_up(), f32::NAN), refused(16, 1));
        assert_eq!(levels(3_000.0f32.next_up(), -101.0), refused(17, 0));
        assert_eq!(levels(0.0, (-100.0f32).next_down()), refused(17, 1));
        assert_eq!(levels(-100.0, -99.0), refused(17, 2));
        assert_eq!(levels(-80.0, -100.0), accepted(20_000));
        assert_eq!(levels(-79.0, -100.0), refused(17, 2));
        assert_eq!((ledger.depth)(Reading::Missing), refused(18, 0));
    });
}

#[test]
fn worked_discounts() {
    both(|ledger| {
        let discount = ledger.discount;
        assert_eq!(discount(&[150], &[0], &[1000], &[0]), accepted(10_000));
        assert_eq!(discount(&[150], &[1], &[0], &[1000]), accepted(8_499));
        assert_eq!(discount(&[0], &[200], &[3000], &[2000]), accepted(8_000));
        assert_eq!(discount(&[0], &[0], &[5], &[5]), accepted(0));
        assert_eq!(discount(&[10], &[0], &[10], &[0]), accepted(0));
        assert_eq!(discount(&[], &[], &[], &[]), refused(19, 0));
        let six = [1; 6];
        assert_eq!(discount(&six, &six, &six, &six), refused(19, 0));
        assert_eq!(discount(&[1], &[1], &[1], &[20_001; 2]), refused(19, 0));
        assert_eq!(discount(&[1], &[1], &[20_001], &[20_001]), refused(20, 2));
        // 10,000 × (1 − √0.2) and 10,000 × (1 − √0.4), the greatest Q and D.
        let (most, none) = ([20_000; 5], [0; 5]);
        assert_eq!(discount(&most, &none, &most, &none), accepted(5_527));
        assert_eq!(discount(&most, &most, &most, &none), accepted(3_675));
    });
}

#[test]
fn worked_logged_blocks() {
    both(|ledger| {
        let logged = ledger.logged;
        let answer = logged(2, 1, &[100, 50, 30], &[10, 10], &[8_000]);
        assert_eq!(answer, logged_average(72, false));
        // 6,460 / 3; 81,750 against 105 ha × 2,153.33.
        let densities = [1_200, 800, 1_100, 700, 600, 900, 500, 1_000];
        let areas = [10, 20, 15, 20, 15, 25];
        let answer = logged(3, 2, &densities, &areas, &[9_000, 10_000]);
        assert_eq!(answer, logged_average(2_153, false));
        let answer = logged(3, 2, &[0; 8], &areas, &[9_000, 10_000]);
        assert_eq!(answer, logged_average(0, true));
        // Without any area both sides are 0.
        let answer = logged(3, 2, &densities, &[0; 6], &[9_000, 10_000]);
        assert_eq!(answer, logged_average(2_153, true));
    });
}

/// T 2 and one stratum without a discount taken off: densities and areas, to the average and whether the test holds.
#[test]
fn sides_of_logged_blocks() {
    let rows = [
        // The average is 1.5, of which 20 ha are 30; rounded it would be met.
        ([1, 1, 1], [10, 10], 1, false),
        ([0, 100, 100], [10, 10], 100, true),
        ([0, 50, 150], [10, 30], 100, true),
        // 70 against 60, and with the areas exchanged 50.
        ([0, 10, 20], [1, 3], 15, true),
        ([0, 10, 20], [3, 1], 15, false),
        // In year 0 alone another density: 100.5 and 101.
        ([1, 100, 100], [10, 10], 100, false),
        ([2, 100, 100], [10, 10], 101, false),
        // The average is 2.5: 5 against 5, 7 against 7.5, 8 against 7.5.
        ([0, 2, 3], [1, 1], 2, true),
        ([0, 2, 3], [2, 1], 2, false),
        ([0, 2, 3], [1, 2], 2, true),
    ];
    both(|ledger| {
        for (densities, areas, average, holds) in rows {
            let answer = (ledger.logged)(2, 1, &densities, &areas, &[10_000]);
            assert_eq!(answer, logged_average(average, holds));
        }
    });
}

/// Each stratum has its own discount and its own place in each year.
#[test]
fn strata_of_logged_blocks() {
    both(|ledger| {
        let logged = ledger.logged;
        // 100 at half in year 1 of stratum 0, and 40 in year 2 of stratum 1: the average is 90 / 2.
        let (densities, discounts) = ([0, 0, 100, 0, 0, 40], [5_000, 10_000]);
        // 50 + 40 against 2 × 45; 50 + 80 against 3 × 45; 100 + 40 against 3 × 45; areas without carbon.
        let rows = [
            ([1, 0, 0, 1], true),
            ([1, 0, 0, 2], false),
            ([2, 0, 0, 1], true),
            ([0, 1, 1, 0], false),
        ];
        for (areas, holds) in rows {
            let answer = logged(2, 2, &densities, &areas, &discounts);
            assert_eq!(answer, logged_average(45, holds));
        }
        // The other way round the average is 100 / 2 + 20 / 2.
        let answer = logged(2, 2, &densities, &[1, 0, 0, 1], &[10_000, 5_000]);
        assert_eq!(answer, logged_average(60, true));
        // Two halves make one: no density is rounded by itself.
        let answer = logged(1, 2, &[0, 0, 1, 1], &[1, 1], &[5_000; 2]);
        assert_eq!(answer, logged_average(1, false));
        // An average of 0.0001, met, and of 0.0002, not met.
        let answer = logged(1, 1, &[0, 1], &[1], &[1]);
        assert_eq!(answer, logged_average(0, true));
        let answer = logged(1, 1, &[1, 1], &[1], &[1]);
        assert_eq!(answer, logged_average(0, false));
    });
}

#[test]
fn greatest_logged_blocks() {
    both(|ledger| {
        let logged = ledger.logged;
        let most = [10_000; 808];
        // 101 × 8 × 10^8 / 10^6, and the greatest average of all: 2 × 8 × 10^8 / 10^4.
        let answer = logged(100, 8, &most, &most[..800], &most[..8]);
        assert_eq!(answer, logged_average(80_800, false));
        let answer = logged(1, 8, &most[..16], &most[..8], &most[..8]);
        assert_eq!(answer, logged_average(160_000, false));
        // One stratum: 101 × 10^8 / 10^6.
        let answer = logged(100, 1, &most[..101], &most[..100], &most[..1]);
        assert_eq!(answer, logged_average(10_100, false));
        // The last stratum alone, without year 0: 100 × 10^8 / 10^6, and 100 × 10^8 on both sides.
        let last = |count| [[0; 7].as_slice(), &[10_000]].concat().repeat(count);
        let mut densities = last(101);
        densities[7] = 0;
        let answer = logged(100, 8, &densities, &last(100), &most[..8]);
        assert_eq!(answer, logged_average(10_000, true));
        // With one ha more, which has no carbon, or the least density in year 0, the right side is the greater.
        let mut areas = last(100);
        areas[0] = 1;
        let answer = logged(100, 8, &densities, &areas, &most[..8]);
        assert_eq!(answer, logged_average(10_000, false));
        densities[0] = 1;
        let answer = logged(100, 8, &densities, &last(100), &most[..8]);
        assert_eq!(answer, logged_average(10_000, false));
    });
}

/// T and the number of strata past their ranges, and each list by one value, one year or one stratum too long or short.
#[test]
fn refused_sizes_of_logged_blocks() {
    let lists = [0; 1_000];
    // T, strata, and the lengths of the lists.
    let rows = [
        (0, 1, [1, 0, 1]),
        (101, 1, [102, 101, 1]),
        (1, 0, [0, 0, 0]),
        (1, 9, [18, 9, 9]),
        (101, 8, [816, 808, 8]),
        (u32::MAX, u32::MAX, [0, 0, 0]),
        (u32::MAX, 1, [0, 0, 1]),
        (1, u32::MAX, [0, 0, 0]),
        (0, 0, [0, 0, 0]),
        // T × strata is 2^32.
        (1 << 29, 8, [8, 0, 8]),
        (2, 3, [8, 6, 3]),
        (2, 3, [10, 6, 3]),
        (2, 3, [9, 5, 3]),
        (2, 3, [9, 7, 3]),
        (2, 3, [9, 6, 2]),
        (2, 3, [9, 6, 4]),
        // Densities without year 0, areas with it, a discount for each year.
        (2, 3, [6, 6, 3]),
        (2, 3, [9, 9, 3]),
        (2, 3, [9, 6, 6]),
        (3, 2, [9, 6, 3]),
        (2, 3, [0, 0, 0]),
    ];
    both(|ledger| {
        for (years, strata, lengths) in rows {
            let [densities, areas, discounts] = lengths.map(|length| &lists[..length]);
            let answer = (ledger.logged)(years, strata, densities, areas, discounts);
            assert_eq!(answer, logged_refused(21, 0));
        }
        let answer = (ledger.logged)(2, 3, &lists[..9], &lists[..6], &lists[..3]);
        assert_eq!(answer, logged_average(0, true));
    });
}

/// 10,000 is accepted at every place of each list and 10,001 is not, and of several lists the lowest is told.
#[test]
fn refused_values_of_logged_blocks() {
    both(|ledger| {
        let run = |lists: &[Vec<u32>; 3]| (ledger.logged)(2, 3, &lists[0], &lists[1], &lists[2]);
        let good = [vec![0; 9], vec![0; 6], vec![0; 3]];
        for list in 0..3 {
            for place in 0..good[list].len() {
                let with = |value| {
                    let mut lists = good.clone();
                    lists[list][place] = value;
                    lists
                };
                assert_eq!(run(&with(10_000)), logged_average(0, true));
                // 65,536 is 0 in its low 16 bits.
                for value in [10_001, 65_536, 1 << 31, u32::MAX] {
                    assert_eq!(run(&with(value)), logged_refused(22, list));
                }
            }
        }
        let mut lists = good.map(|list| vec![10_001; list.len()]);
        assert_eq!(run(&lists), logged_refused(22, 0));
        lists[0].fill(10_000);
        assert_eq!(run(&lists), logged_refused(22, 1));
        // 21 comes before them all, by T, by the number of strata or by a length.
        let [densities, areas, discounts] = &lists;
        for (years, strata) in [(0, 3), (101, 3), (2, 0), (2, 9), (3, 3), (2, 2)] {
            let answer = (ledger.logged)(years, strata, densities, areas, discounts);
            assert_eq!(answer, logged_refused(21, 0));
        }
        lists[2].pop();
        assert_eq!(run(&lists), logged_refused(21, 0));
    });
}

/// The items of a list, with blanks between; "x^3" is x three times.
fn items(list: &str) -> Vec<&str> {
    let items = list.split_whitespace().flat_map(|item| {
        let (item, times) = item.split_once('^').unwrap_or((item, "1"));
        vec![item; times.parse().unwrap()]
    });
    items.collect()
}

/// A number, or after "#" the bits of a binary32.
fn metres(item: &str) -> f32 {
    match item.strip_prefix('#') {
        Some(bits) => f32::from_bits(u32::from_str_radix(bits, 16).unwrap()),
        None => item.parse().unwrap(),
    }
}

/// "days; depths; tolerances".
fn recording(text: &str) -> OwnedRecording {
    let lists: Vec<Vec<&str>> = text.split(';').map(items).collect();
    let [days, depths, tolerances] = &lists[..] else {
        panic!("not three lists: {text}")
    };
    OwnedRecording {
        days: days.iter().map(|day| day.parse().unwrap()).collect(),
        depths: depths.iter().map(|item| metres(item)).collect(),
        tolerances: tolerances.iter().map(|item| metres(item)).collect(),
    }
}

/// The days in both, in the first alone and in the second alone, and the first that differs or "-"; or a number "at" a
/// place.
fn dips_answer(text: &str) -> DipsAnswer {
    let words: Vec<&str> = text.split_whitespace().collect();
    let count = |word: &str| word.parse::<usize>().unwrap();
    if let [number, "at", place] = words[..] {
        return DipsAnswer {
            number: number.parse().unwrap(),
            place: count(place),
            ..DipsAnswer::default()
        };
    }
    let [paired, only_first, only_second, day] = words[..] else {
        panic!("no answer: {text}")
    };
    let differs = day != "-";
    DipsAnswer {
        paired: count(paired),
        only_first: count(only_first),
        only_second: count(only_second),
        differs,
        day: if differs { day.parse().unwrap() } else { 0 },
        ..DipsAnswer::default()
    }
}

/// Each row has two recordings with "|" between, and after "->" the answer.
fn answers_of_dips(rows: &[&str]) {
    for row in rows {
        let (recordings, answer) = row.split_once("->").unwrap();
        let (first, second) = recordings.split_once('|').unwrap();
        let (first, second) = (recording(first), recording(second));
        both(|ledger| {
            let answered = (ledger.dips)(first.lent(), second.lent());
            assert_eq!(answered, dips_answer(answer), "{row}");
        });
    }
}

#[test]
fn days_of_two_recordings() {
    answers_of_dips(&[
        ";; | ;; -> 0 0 0 -",
        ";; | 1 2; 1 2; 0^2 -> 0 0 2 -",
        "1 2 9; 1 2 3; 0^3 | ;; -> 0 3 0 -",
        "3 5 8; 0.5 1.25 20; 0^3 | 3 5 8; 0.5 1.25 20; 0^3 -> 3 0 0 -",
        "1 3 5; 0^3; 0^3 | 0 2 4 6; 20^4; 0^4 -> 0 3 4 -",
        "10; 1; 0 | 1 2 3 10 11; 0 0 0 1 0; 0^5 -> 1 0 4 -",
        // The greatest day differs, then day 0.
        "0 4294967295; 1 2; 0^2 | 0 4294967295; 1 3; 0^2 -> 2 0 0 4294967295",
        "0 4294967295; 1 2; 0^2 | 0 4294967295; 3 2; 0^2 -> 2 0 0 0",
        "0 7; 1 1; 0^2 | 7 4294967295; 1 1; 0^2 -> 1 1 1 -",
        // Day 2^31.
        "2147483647 2147483648; 1 1; 0^2 | 2147483648 4294967295; 2 0; 0^2 -> 1 1 1 2147483648",
        // Of days 2, 4 and 7 the last two differ.
        "1 2 4 7; 1 1 2 2; 0^4 | 2 3 4 7 9; 1 9 2.5 9 9; 0^5 -> 3 1 2 4",
        // The dips at each place differ, but not those of day 2.
        "1 2; 9 1; 0^2 | 2 3; 1 0; 0^2 -> 1 1 1 -",
    ]);
}

/// 3F7FFFFF and 3E7FFFFF are just below 1 and a quarter, 419FFFFF just below 20; 3F333333 is 699 mm.
#[test]
fn dips_at_their_limit() {
    answers_of_dips(&[
        // 500 mm apart, and 501.
        "4; 1.5; 0.25 | 4; 1; 0.25 -> 1 0 0 -",
        "4; 1.5; 0.25 | 4; #3F7FFFFF; 0.25 -> 1 0 0 4",
        "4; #3F7FFFFF; 0.25 | 4; 1.5; 0.25 -> 1 0 0 4",
        // Tolerances of 250 and 249 mm.
        "4; 1.5; 0.25 | 4; 1; #3E7FFFFF -> 1 0 0 4",
        // 199 mm apart: tolerances of 199, of 198, of 125 and 74, of 125 and 73.
        "4; #3F333333; 0 | 4; 0.5; #3E4BC6A8 -> 1 0 0 -",
        "4; #3F333333; 0 | 4; 0.5; #3E4BC6A7 -> 1 0 0 4",
        "4; #3F333333; 0.125 | 4; 0.5; 0.0745 -> 1 0 0 -",
        "4; #3F333333; 0.125 | 4; 0.5; 0.0735 -> 1 0 0 4",
        // A tolerance of 699 mm for 699 and for 700.
        "4; 0; 0 | 4; #3F333333; #3F333333 -> 1 0 0 -",
        "4; 0; 0 | 4; 0.7005; #3F333333 -> 1 0 0 4",
        // The greatest difference with the greatest tolerance, and 1 mm less.
        "4; 0; 0 | 4; 20; 20 -> 1 0 0 -",
        "4; 0; 20 | 4; 20; 20 -> 1 0 0 -",
        "4; 0; 0 | 4; 20; #419FFFFF -> 1 0 0 4",
        // Subnormal numbers are 0 mm, and so is 0.9 mm; 1.5 mm are 1.
        "4; -0; -0 | 4; 0; -0 -> 1 0 0 -",
        "4; #00000001; #007FFFFF | 4; 0.0009; 0 -> 1 0 0 -",
        "4; #00000001; #007FFFFF | 4; 0.0015; 0 -> 1 0 0 4",
        // Two tolerances of half a mm are none.
        "4; 0.0005; 0.0005 | 4; 0.0015; 0.0005 -> 1 0 0 4",
        // 1,001 and 1,002 mm with a tolerance of 1.
        "4; 1.0015; 0 | 4; 1.0025; 0.0015 -> 1 0 0 -",
    ]);
}

#[test]
fn refused_lengths_of_recordings() {
    answers_of_dips(&[
        "1;; | ;; -> 23 at 0",
        "; 1; | ;; -> 23 at 0",
        ";; 1 | ;; -> 23 at 0",
        "1 2; 1 1; 1 | ;; -> 23 at 0",
        "1 2; 1; 1 1 | ;; -> 23 at 0",
        "1; 1 1; 1 1 | ;; -> 23 at 0",
        ";; | 1 2; 1 1; 1^3 -> 23 at 0",
        // Of the second, before days and readings of the first.
        "5 5; NaN^2; NaN^2 | 1; 1; -> 23 at 0",
        // The two recordings may differ in length.
        "1; 1; 1 | 1 2; 1 1; 0 0 -> 1 0 1 -",
    ]);
}

#[test]
fn refused_days_of_recordings() {
    answers_of_dips(&[
        "5 5; 1^2; 0^2 | ;; -> 24 at 1",
        "0 0; 1^2; 0^2 | ;; -> 24 at 1",
        ";; | 4294967295 0; 1^2; 0^2 -> 24 at 1",
        // The first of several.
        "5 6 6 2; 1^4; 0^4 | ;; -> 24 at 2",
        "1 3 2 4 4; 1^5; 0^5 | ;; -> 24 at 2",
        // The first recording before the second, and both before any reading.
        "1 2 3 3; 1^4; 0^4 | 9 8; 1^2; 0^2 -> 24 at 3",
        "1; NaN; -1 | 0 1 0; 1^3; 0^3 -> 24 at 2",
    ]);
}

/// 41A00001 is just above 20, 80000001 just below 0; FFC00001 and 7F800001 are NaNs.
#[test]
fn refused_readings_of_recordings() {
    answers_of_dips(&[
        "1; NaN; 0 | ;; -> 16 at 0",
        "1; #7F800001; 0 | ;; -> 16 at 0",
        "1; 0; inf | ;; -> 16 at 0",
        "1 2; 0 -inf; 0 0 | ;; -> 16 at 1",
        ";; | 1 2 3; 0^3; 0 0 #FFC00001 -> 16 at 2",
        "1; -0.0001; 0 | ;; -> 17 at 0",
        "1 2; 0 0; 0 #80000001 | ;; -> 17 at 1",
        "1 2; 20 #41A00001; 20 0 | ;; -> 17 at 1",
        ";; | 1 2; 20 20; 20 #41A00001 -> 17 at 1",
        // Subnormal numbers above 0, and -0, are in range.
        "7; #007FFFFF; #00000001 | 7; -0; 0 -> 1 0 0 -",
        // 17 before a later 16; a depth before its tolerance, and a tolerance before a later depth.
        "1 2; 20.5 NaN; 0 0 | ;; -> 17 at 0",
        "1 2; 0 NaN; -1 0 | ;; -> 17 at 0",
        "1; -1; NaN | ;; -> 17 at 0",
        "1; NaN; -1 | ;; -> 16 at 0",
        // The first recording before the second, whatever the places.
        "1 2; 0 0; 0 21 | 1; NaN; 0 -> 17 at 1",
        "1 2; 0 NaN; 0 0 | 1; -1; 0 -> 16 at 1",
        // Days in one alone are read too, and those after the first that differs.
        "7; 1; 0 | 8; #7F7FFFFF; 0 -> 17 at 0",
        "7; 1; 0 | 7 8; 9 1; 0 NaN -> 16 at 1",
    ]);
}

/// Every second day and every third: day 6,000 is 500 mm apart.
#[test]
fn long_recordings() {
    let every = |step: u32, tolerance: f32| OwnedRecording {
        days: (0..4_000).map(|place| step * place).collect(),
        depths: vec![1.0; 4_000],
        tolerances: vec![tolerance; 4_000],
    };
    let first = every(2, 0.25);
    let rows = [(0.25, "1334 2666 2666 -"), (0.249, "1334 2666 2666 6000")];
    for (tolerance, answer) in rows {
        let mut second = every(3, tolerance);
        second.depths[2_000] = 1.5;
        both(|ledger| {
            let answered = (ledger.dips)(first.lent(), second.lent());
            assert_eq!(answered, dips_answer(answer));
        });
    }
}

/// Every prefix of a listing and every length of each buffer, up to need.
#[test]
fn lengths() {
    both(|ledger| {
        let mut book = [0; BOOK_OF_ONE];
        for listing in [&WORKED[..], &with_site_word(SITE_WORD)] {
            for length in 0..listing.len() {
                let (number, place) = if length < 2 { (1, 0) } else { (3, length) };
                let answer = (ledger.open)(&listing[..length], &mut book);
                assert_eq!(answer, refused(number, place));
            }
        }
        for length in 0..BOOK_OF_ONE {
            let short = &mut [0; BOOK_OF_ONE][..length];
            let refusal = refused(6, length);
            assert_eq!((ledger.open)(&WORKED, short), refusal);
            assert_eq!((ledger.close)(&WORKED, short, &mut []), refusal);
            assert_eq!(
                (ledger.forecast)(&WORKED, short, &mut []),
                forecast_refused(6, length)
            );
        }
        assert_eq!((ledger.open)(&WORKED, &mut book), accepted(0));
        for length in 0..3 {
            let answer = (ledger.close)(&WORKED, &mut book, &mut [0; 3][..length]);
            assert_eq!(answer, refused(7, length));
        }
        for length in 0..2 {
            let output = &mut [0; 2][..length];
            let answer = (ledger.forecast)(&WORKED, &mut book, output);
            assert_eq!(answer, forecast_refused(15, length));
        }
        assert_eq!((ledger.close)(&[], &mut [], &mut []), refused(1, 0));
        assert_eq!((ledger.statement)(&[], &[], 0).number, 1);
    });
}

/// 1,000 cells, 16 strata, 100 years, a site word and 700 terms, closed to the end; then the answers of a full book.
#[test]
fn largest() {
    let listing = generate::largest().words();
    assert_eq!(listing.len(), 4_303);
    let mut results = [&PROVED, &REFERENCE].map(|ledger| {
        let mut book = Random(6).words(3 + 3 * 1_000);
        let mut lines = Random(7).words(3 * 1_000);
        let mut returned = Vec::new();
        assert_eq!((ledger.open)(&listing, &mut book), accepted(0));
        for _ in 0..100 {
            assert_eq!((ledger.close)(&listing, &mut book, &mut lines), accepted(0));
            returned.push((lines.clone(), (ledger.issue)(&listing, &mut book)));
        }
        let last = (ledger.close)(&listing, &mut book, &mut lines);
        assert_eq!(last, refused(9, 0));
        let mut output = [0; 100];
        let mut scratch = vec![0; book.len()];
        let answer = (ledger.forecast)(&listing, &mut scratch, &mut output);
        assert_eq!(answer, total(output.iter().sum()));
        (returned, book, scratch, output, answer)
    });
    assert!(results[0] == results[1]);
    // A 701st term cannot rise.
    let mut longer = listing.clone();
    longer.push(listing[4_302]);
    both(|ledger| {
        let answer = (ledger.open)(&longer, &mut results[0].1.clone());
        assert_eq!(answer, refused(5, 4_303));
    });
    results[0].1[3 + 3 * 999] = 0;
    both(|ledger| {
        let answer = (ledger.issue)(&listing, &mut results[0].1.clone());
        assert_eq!(answer, refused(8, 3 + 3 * 999));
    });
}

/// The greatest year of a cell: its kg line is 50,740,800, far below the limit of 14, and less with char.
#[test]
fn greatest_line() {
    let mut listing = one_cell(row(255, 1_023, 1_023), 20_000);
    listing[4] = 5 << 28 | 10_000 << 12 | 2_400;
    for (char, kg) in [(0, 50_740_800), (1, 50_650_776), (31, 47_950_056)] {
        listing[1] = 2 << 28 | char << 23 | 100 << 8 | 100;
        both(|ledger| {
            let (mut book, mut lines) = ([0; BOOK_OF_ONE], [0; 3]);
            assert_eq!((ledger.open)(&listing, &mut book), accepted(0));
            assert_eq!((ledger.close)(&listing, &mut book, &mut lines), accepted(0));
            assert_eq!(lines[2], 15 << 28 | kg);
        });
    }
}

/// Three cells of the worked listing's kind, converted in year 1, in year 2 and never: a cell's first year emits 692,500
/// kg and each later one 82,500, as worked in document 01.
fn three_cells() -> Site {
    let mut site = site_of_years(None, 1, &[row(70, 45, 340), row(70, 45, 0), row(70, 45, 0)]);
    let cell = |conversion| Cell {
        conversion,
        ..site.cells[0]
    };
    site.cells = vec![cell(1), cell(2), cell(0)];
    site
}

/// The numbers so far are the statements' kg to date.
#[test]
fn forecast_of_three_cells() {
    let listing = three_cells().words();
    let years = [692_500, 82_500 + 692_500, 82_500 + 82_500];
    both(|ledger| {
        let (mut output, mut book, mut lines) = ([7; 4], [0; 3 + 3 * 3], [0; 3 * 3]);
        let answer = (ledger.forecast)(&listing, &mut book, &mut output);
        assert_eq!(answer, total(1_632_500));
        assert_eq!(output, [years[0], years[1], years[2], 7]);
        assert_eq!((ledger.open)(&listing, &mut book), accepted(0));
        for to_date in [692_500, 1_467_500, 1_632_500] {
            assert_eq!((ledger.close)(&listing, &mut book, &mut lines), accepted(0));
            let kg = |cell| (ledger.statement)(&listing, &book, cell).kg;
            assert_eq!(kg(0) + kg(1) + kg(2), to_date);
        }
    });
}

/// The cells of the largest listing in reverse: the same numbers, and the same total.
#[test]
fn forecast_in_another_order() {
    let site = generate::largest();
    let mut reversed = site.clone();
    reversed.cells.reverse();
    both(|ledger| {
        let forecasts = [&site, &reversed].map(|site| {
            let mut output = [0; 100];
            let mut book = vec![0; 3 + 3 * 1_000];
            let answer = (ledger.forecast)(&site.words(), &mut book, &mut output);
            (answer, output)
        });
        assert_eq!(forecasts[0], forecasts[1]);
        assert!(forecasts[0].0.total > 0);
    });
}

/// Cells of 20,000 mm with the greatest weight, each mm of which emits 40,800 kg, and nothing withheld.
fn greatest_cells(cells: usize, site_word: Option<SiteWord>, rows: &[Row]) -> Site {
    let mut site = site_of_years(site_word, 1, rows);
    (site.buffer, site.warming, site.methane) = (0, 100, 100);
    let cell = Cell {
        stratum: 0,
        conversion: 1,
        entered: 20_000,
        area: 10_000,
        density: 2_400,
    };
    site.cells = vec![cell; cells];
    site
}

/// 1,000 cells that burn down to the deepest water, for a guard of 0 leaves nothing dry: 2,550 mm and 104,040,000 kg
/// each, 104,040,000,000 in all. A year burns 1,023 mm, the third the 504 above the water.
#[test]
fn greatest_total() {
    let no_guard = SiteWord {
        guard: 0,
        thickness: 300,
    };
    let site = greatest_cells(1_000, Some(no_guard), &[row(255, 0, 1_023); 4]);
    both(|ledger| {
        let (mut output, mut book) = ([7; 5], [0; 3 + 3 * 1_000]);
        let answer = (ledger.forecast)(&site.words(), &mut book, &mut output);
        assert_eq!(answer, total(104_040_000_000));
        assert_eq!(output[..2], [1_023 * 1_000 * 40_800; 2]);
        assert_eq!(output[2..], [504 * 1_000 * 40_800, 0, 7]);
    });
}

/// A book in which cells of 20,000 mm have burned all of it, with the numbers of its two words of tonnes issued.
fn all_burned(cells: usize, year: u32, [high, low]: [u32; 2]) -> Vec<u32> {
    let mut book = vec![8 << 28 | year, 9 << 28 | high, 9 << 28 | low];
    book.extend([10 << 28 | 1, 11 << 28, 12 << 28 | 20_000].repeat(cells));
    book
}

/// Issues on such a book: its tonnes issued before, high and low, the answer, and the tonnes issued after.
fn issues_of_burned_cells(site: &Site, rows: &[([u32; 2], u32, [u32; 2])]) {
    let (listing, cells) = (site.words(), site.cells.len());
    both(|ledger| {
        for &(before, tonnes, after) in rows {
            let mut book = all_burned(cells, site.horizon, before);
            assert_eq!((ledger.issue)(&listing, &mut book), accepted(tonnes));
            assert_eq!(book, all_burned(cells, site.horizon, after));
        }
    });
}

/// The greatest balance of any book: 1,000 cells that have burned all of their 20,000 mm, 816,000,000 kg each, are
/// 816,000,000 t, and 700 terms of 65,535 t are 45,874,500 more: 861,874,500, which is 3 × 2^28 + 56,568,132.
#[test]
fn greatest_balance_of_a_lent_book() {
    let mut site = greatest_cells(1_000, None, &[row(255, 0, 1_023); 100]);
    let terms_of = |year| {
        [1, 3, 4, 5, 6, 7, 8].map(|term| YearlyTerm {
            year,
            term,
            tonnes: 65_535,
        })
    };
    site.terms = (1..=100).flat_map(terms_of).collect();
    let all = [3, 56_568_132];
    let rows = [
        ([0, 0], 861_874_500, all),
        ([0, 1], 861_874_499, all),
        ([0, 0x0FFF_FFFF], 593_439_045, all),
        ([1, 0], 593_439_044, all),
        ([3, 0], 56_568_132, all),
        ([3, 56_568_131], 1, all),
        (all, 0, all),
        ([3, 56_568_133], 0, [3, 56_568_133]),
        ([4, 0], 0, [4, 0]),
        ([0x0FFF_FFFF, 0], 0, [0x0FFF_FFFF, 0]),
    ];
    issues_of_burned_cells(&site, &rows);
    both(|ledger| {
        let book = all_burned(1_000, 100, all);
        let account = (ledger.statement)(&site.words(), &book, 999);
        assert_eq!((account.number, account.kg), (0, 816_000_000));
    });
}

/// 329 such cells are 268,464,000 t, which is 2^28 + 28,544; a term takes so much, one tonne more or one less away.
#[test]
fn tonnes_that_pass_the_low_word() {
    let rows = [
        (-28_545, [0, 0], 268_435_455, [0, 0x0FFF_FFFF]),
        (-28_545, [0, 0x0FFF_FFFE], 1, [0, 0x0FFF_FFFF]),
        (-28_545, [0, 0x0FFF_FFFF], 0, [0, 0x0FFF_FFFF]),
        (-28_545, [1, 0], 0, [1, 0]),
        (-28_544, [0, 0], 268_435_456, [1, 0]),
        (-28_544, [0, 0x0FFF_FFFE], 2, [1, 0]),
        (-28_544, [0, 0x0FFF_FFFF], 1, [1, 0]),
        (-28_544, [1, 0], 0, [1, 0]),
        (-28_543, [0, 0], 268_435_457, [1, 1]),
        (-28_543, [0, 0x0FFF_FFFF], 2, [1, 1]),
        (-28_543, [1, 0], 1, [1, 1]),
    ];
    let mut site = greatest_cells(329, None, &[row(255, 0, 1_023)]);
    for (tonnes, before, answer, after) in rows {
        let (year, term) = (1, 6);
        site.terms = vec![YearlyTerm { year, term, tonnes }];
        issues_of_burned_cells(&site, &[(before, answer, after)]);
    }
}

/// A head allows 1 to 1,000 cells. Each listing here has the words that its head asks for.
#[test]
fn cells_of_a_head() {
    let mut site = site_of_years(None, 1, &[row(70, 45, 340)]);
    let cell = site.cells[0];
    both(|ledger| {
        let none = worked_with(0, 0x10000102);
        assert_eq!((ledger.open)(&none, &mut [0; 3]), refused(2, 0));
    });
    for cells in [1, 255, 256, 257, 512, 999, 1_000] {
        site.cells = vec![cell; cells];
        accepted_sizes(&site.words(), cells);
    }
    for cells in [1_001, 1_023, 1_024, 2_048, 4_095] {
        site.cells = vec![cell; cells];
        let listing = site.words();
        both(|ledger| {
            let answer = (ledger.open)(&listing, &mut vec![0; 3 + 3 * cells]);
            assert_eq!(answer, refused(2, 0));
            let answer = (ledger.forecast)(&listing, &mut vec![0; 3 + 3 * cells], &mut [0]);
            assert_eq!(answer, forecast_refused(2, 0));
        });
    }
}

/// Buffers just long enough for so many cells, and one word short; the last cell, and the one after it.
fn accepted_sizes(listing: &[u32], cells: usize) {
    both(|ledger| {
        let (mut book, mut lines) = (vec![0; 3 + 3 * cells], vec![0; 3 * cells]);
        let short = 2 + 3 * cells;
        let answer = (ledger.open)(listing, &mut book[..short]);
        assert_eq!(answer, refused(6, short));
        assert_eq!((ledger.open)(listing, &mut book), accepted(0));
        let answer = (ledger.close)(listing, &mut book, &mut lines[1..]);
        assert_eq!(answer, refused(7, 3 * cells - 1));
        assert_eq!((ledger.close)(listing, &mut book, &mut lines), accepted(0));
        let worked = [0xD000002D, 0xE000012C, 0xF00A9114];
        assert_eq!(lines, worked.repeat(cells));
        let account = (ledger.statement)(listing, &book, cells - 1);
        assert_eq!((account.number, account.kg), (0, 692_500));
        assert_eq!((ledger.statement)(listing, &book, cells).number, 10);
    });
}

/// 1,000 cells of 300 to 1,299 mm: each burns 300, and oxidises what is left, up to 45 mm. Their kg are 610,000 and
/// 1,833.3 for each mm oxidised: 29,264,985 of the first 45 cells, and 692,500 of each other. Of 690,602 t 138,121 are
/// withheld.
#[test]
fn thousand_cells() {
    let mut site = site_of_years(None, 1, &[row(70, 45, 340)]);
    let cell = site.cells[0];
    let entered = (300..1_300).map(|entered| Cell { entered, ..cell });
    site.cells = entered.collect();
    let listing = site.words();
    let lines_of = |cell: u32| {
        let oxidised = cell.min(45);
        let kg = 610_000 + 5_500 * oxidised / 3;
        [13 << 28 | oxidised, 14 << 28 | 300, 15 << 28 | kg]
    };
    let expected: Vec<u32> = (0..1_000).flat_map(lines_of).collect();
    both(|ledger| {
        let (mut book, mut lines) = ([0; 3 + 3 * 1_000], [0; 3 * 1_000]);
        assert_eq!((ledger.open)(&listing, &mut book), accepted(0));
        assert_eq!((ledger.close)(&listing, &mut book, &mut lines), accepted(0));
        assert_eq!(lines[..], expected);
        assert_eq!((ledger.issue)(&listing, &mut book), accepted(552_481));
        let mut output = [0];
        let answer = (ledger.forecast)(&listing, &mut book, &mut output);
        assert_eq!((answer, output), (total(690_602_485), [690_602_485]));
    });
}

/// Every call that tests a book refuses this one at a place, and leaves it as it is.
fn refused_by_every_call(listing: &[u32], book: &[u32], place: usize) {
    both(|ledger| {
        let (mut lent, mut lines) = (book.to_vec(), [7; 3]);
        let answers = [
            (ledger.close)(listing, &mut lent, &mut lines),
            (ledger.replan)(listing, &mut lent, 0, 2),
            (ledger.withdraw)(listing, &mut lent, 0),
            (ledger.issue)(listing, &mut lent),
        ];
        assert_eq!(answers, [refused(8, place); 4]);
        let account = Account {
            number: 8,
            place,
            ..Account::default()
        };
        assert_eq!((ledger.statement)(listing, &lent, 0), account);
        assert_eq!((&lent[..], lines), (book, [7; 3]));
    });
}

/// Each of the two words of tonnes issued is of kind 9.
#[test]
fn kinds_of_tonnes_issued() {
    for kind in (0..16).filter(|kind| *kind != 9) {
        for place in [1, 2] {
            let mut book = lent_book([45, 300]);
            book[place] = kind << 28 | 553;
            refused_by_every_call(&WORKED, &book, place);
        }
        let mut book = lent_book([45, 300]);
        book[1..3].fill(kind << 28);
        refused_by_every_call(&WORKED, &book, 1);
    }
}

/// A lent book may have any tonnes of 56 bits issued. No balance of 553 or 620 t comes near these: an issue pays 0, and
/// neither it nor a closing moves them. By the low word alone some would be paid.
#[test]
fn tonnes_of_56_bits() {
    let tonnes = [
        [0x90000000, 0x9FFFFFFF],
        [0x90000001, 0x90000000],
        [0x90000001, 0x9FFFFFFF],
        [0x98000000, 0x90000000],
        [0x9FFFFFFF, 0x90000000],
        [0x9FFFFFFF, 0x9FFFFFFF],
    ];
    // A term 6 of −65,536 t in year 1, by which the balance is below 0.
    let below_zero = [&WORKED[..], &[0x66030000]].concat();
    for issued in tonnes {
        let mut book = lent_book([45, 300]);
        book[0] = 8 << 28 | 1;
        book[1..3].copy_from_slice(&issued);
        both(|ledger| {
            let (mut lent, mut lines) = (book, [0; 3]);
            assert_eq!((ledger.issue)(&WORKED, &mut lent), accepted(0));
            assert_eq!((ledger.issue)(&below_zero, &mut lent), accepted(0));
            assert_eq!(lent, book);
            assert_eq!((ledger.close)(&WORKED, &mut lent, &mut lines), accepted(0));
            assert_eq!((ledger.issue)(&WORKED, &mut lent), accepted(0));
            assert_eq!(lent[..3], [8 << 28 | 2, issued[0], issued[1]]);
        });
    }
}

/// The old book of the worked listing after year 1: 553 t issued, 45 mm oxidised and 300 burned. And what it becomes.
const OLD_WORKED: [u32; OLD_BOOK_OF_ONE] =
    [0x80000001, 0x90000229, 0xA0000001, 0xB000002D, 0xC000012C];
const NEW_WORKED: [u32; BOOK_OF_ONE] = [
    0x80000001, 0x90000000, 0x90000229, 0xA0000001, 0xB000002D, 0xC000012C,
];

/// A conversion into slices with anything in them and with words beyond, which stay as they are, and so does the old
/// book. Words beyond the old book's are not looked at.
fn converts(listing: &[u32], old: &[u32], new: &[u32]) {
    both(|ledger| {
        for beyond in [0, 1, 5] {
            for filler in [0, 7, u32::MAX] {
                let old = [old, &vec![filler; beyond]].concat();
                let (lent, mut book) = (old.clone(), vec![filler; new.len() + beyond]);
                assert_eq!((ledger.convert)(listing, &lent, &mut book), accepted(0));
                assert_eq!(lent, old);
                assert_eq!(book, [new, &vec![filler; beyond]].concat());
            }
        }
    });
}

/// An old book of year 2, word for word: cell 0 withdrawn, cell 1 with losses of its own, cell 2 without any, and
/// 2^28 − 1 t issued.
#[test]
fn converted_word_for_word() {
    let old = [
        0x80000002, 0x9FFFFFFF, 0xA0000101, 0xB000002D, 0xC000012C, 0xA0000002, 0xB0000029,
        0xC000012B, 0xA0000003, 0xB0000000, 0xC0000000,
    ];
    let new = [
        0x80000002, 0x90000000, 0x9FFFFFFF, 0xA0000101, 0xB000002D, 0xC000012C, 0xA0000002,
        0xB0000029, 0xC000012B, 0xA0000003, 0xB0000000, 0xC0000000,
    ];
    converts(&three_cells().words(), &old, &new);
    converts(&WORKED, &OLD_WORKED, &NEW_WORKED);
}

/// Each head with each cell, of a cell of 2,000 mm and a horizon of 3 years. A cell's words are kept.
#[test]
fn converted_heads_and_cells() {
    let listing = site_of_years(None, 1, &[row(70, 45, 340); 3]).words();
    // Year 0 and the horizon; 0, 1, 2^27 and 2^28 − 1 tonnes.
    let heads = [
        (
            [0x80000000, 0x90000000],
            [0x80000000, 0x90000000, 0x90000000],
        ),
        (
            [0x80000001, 0x90000001],
            [0x80000001, 0x90000000, 0x90000001],
        ),
        (
            [0x80000002, 0x98000000],
            [0x80000002, 0x90000000, 0x98000000],
        ),
        (
            [0x80000003, 0x9FFFFFFF],
            [0x80000003, 0x90000000, 0x9FFFFFFF],
        ),
    ];
    // Plan year 0 and the horizon, with and without the mark; all 2,000 mm oxidised, burned, or half of each.
    let cells = [
        [0xA0000000, 0xB0000000, 0xC0000000],
        [0xA0000003, 0xB0000000, 0xC0000000],
        [0xA0000100, 0xB0000001, 0xC0000002],
        [0xA0000103, 0xB0000002, 0xC0000001],
        [0xA0000001, 0xB00007D0, 0xC0000000],
        [0xA0000001, 0xB0000000, 0xC00007D0],
        [0xA0000101, 0xB00003E8, 0xC00003E8],
    ];
    for (old, new) in &heads {
        for cell in &cells {
            let [old, new] = [&old[..], &new[..]].map(|head| [head, cell].concat());
            converts(&listing, &old, &new);
        }
    }
}

/// 1,000 cells, each with a plan year and losses of its own; then the lengths just too short, and the last word.
#[test]
fn thousand_cells_converted() {
    let mut site = site_of_years(None, 1, &[row(70, 45, 340); 100]);
    site.cells = vec![site.cells[0]; 1_000];
    let listing = site.words();
    let entry = |cell: u32| {
        let (mark, plan_year) = (cell % 2, cell % 101);
        let plan = 10 << 28 | mark << 8 | plan_year;
        [plan, 11 << 28 | cell, 12 << 28 | (999 - cell)]
    };
    let entries: Vec<u32> = (0..1_000).flat_map(entry).collect();
    let mut old = [&[0x80000064, 0x9FFFFFFF], &entries[..]].concat();
    let new = [&[0x80000064, 0x90000000, 0x9FFFFFFF], &entries[..]].concat();
    assert_eq!((old.len(), new.len()), (3_002, 3_003));
    converts(&listing, &old, &new);
    conversion_refused(&listing, &old[..3_001], 3_003, (6, 3_001));
    conversion_refused(&listing, &old, 3_002, (6, 3_002));
    // 999 + 1,002 mm.
    old[3_001] = 12 << 28 | 1_002;
    conversion_refused(&listing, &old, 3_003, (8, 3_001));
}

/// By a number and a place, with both books left as they are.
fn conversion_refused(listing: &[u32], old: &[u32], new: usize, (number, place): (u32, usize)) {
    both(|ledger| {
        let (lent, mut book) = (old.to_vec(), vec![7; new]);
        let answer = (ledger.convert)(listing, &lent, &mut book);
        assert_eq!(answer, refused(number, place));
        assert_eq!((&lent[..], book), (old, vec![7; new]));
    });
}

/// 1 to 5 come before what is wrong with either book.
#[test]
fn conversions_refused_by_the_listing() {
    let refusals: [(&[u32], u32, usize); 11] = [
        (&[], 1, 0),
        (&WORKED[..1], 1, 0),
        // No cell, 1,001 cells, and e 101.
        (&worked_with(0, 0x10000102), 2, 0),
        (&worked_with(0, 0x13E90102), 2, 0),
        (&worked_with(1, 0x20141965), 2, 1),
        (&WORKED[..5], 3, 5),
        // 1,000 cells, of which one is there.
        (&worked_with(0, 0x13E80102), 3, 6),
        (&with_site_word(SITE_WORD)[..6], 3, 6),
        (&with_site_word(0x707D07D1), 4, 2),
        // A conversion year above the horizon.
        (&worked_with(4, 0x400307D0), 4, 4),
        (&[&WORKED[..], &[NEGATIVE_TERM; 2]].concat(), 5, 7),
    ];
    for (listing, number, place) in refusals {
        conversion_refused(listing, &[], 0, (number, place));
        conversion_refused(listing, &OLD_WORKED[1..], 5, (number, place));
        conversion_refused(listing, &[0; 5], 6, (number, place));
        conversion_refused(listing, &OLD_WORKED, 6, (number, place));
    }
}

/// 6 of the old book, then 6 of the new one, then 8, which the words of the second old book here would have at place 0.
#[test]
fn conversions_refused_by_a_length() {
    for old in [OLD_WORKED, [0; 5]] {
        for old_length in 0..5 {
            for new_length in 0..9 {
                conversion_refused(&WORKED, &old[..old_length], new_length, (6, old_length));
            }
        }
        for new_length in 0..6 {
            conversion_refused(&WORKED, &old, new_length, (6, new_length));
            // With words beyond.
            let longer = [&old[..], &[7]].concat();
            conversion_refused(&WORKED, &longer, new_length, (6, new_length));
        }
    }
    conversion_refused(&WORKED, &[0; 5], 6, (8, 0));
}

/// Each word of an old book of two cells of 2,000 mm with a horizon of 2 years, by its kind and by its range. The
/// places are the old book's.
#[test]
fn conversions_refused_by_a_word() {
    let mut site = site_of_years(None, 1, &[row(70, 45, 340), row(70, 45, 0)]);
    site.cells = vec![site.cells[0]; 2];
    let listing = site.words();
    let old = [
        0x80000001, 0x90000229, 0xA0000001, 0xB000002D, 0xC000012C, 0xA0000100, 0xB0000000,
        0xC0000001,
    ];
    let with = |words: &[(usize, u32)]| {
        let mut old = old;
        words.iter().for_each(|&(place, word)| old[place] = word);
        old
    };
    let kinds = [8, 9, 10, 11, 12, 10, 11, 12];
    for (place, kind) in kinds.into_iter().enumerate() {
        for wrong in (0..16).filter(|wrong| *wrong != kind) {
            let word = wrong << 28 | old[place] & 0x0FFF_FFFF;
            conversion_refused(&listing, &with(&[(place, word)]), 9, (8, place));
        }
    }
    let ranges: [(usize, u32, usize); 15] = [
        // Years 3, 257 and 2^27.
        (0, 0x80000003, 0),
        (0, 0x80000101, 0),
        (0, 0x88000000, 0),
        // Plan year 3 without and with the mark, and the bits above the mark.
        (2, 0xA0000003, 2),
        (2, 0xA0000103, 2),
        (2, 0xA0000201, 2),
        (2, 0xA8000001, 2),
        (5, 0xA0000003, 5),
        (5, 0xA0000200, 5),
        // 45 + 1,956 mm, 1,701 + 300 mm, and so on: a sum counts at kind 12.
        (4, 0xC00007A4, 4),
        (4, 0xCFFFFFFF, 4),
        (3, 0xB00006A5, 4),
        (3, 0xBFFFFFFF, 4),
        (6, 0xB00007D0, 7),
        (7, 0xC00007D1, 7),
    ];
    for (place, word, refused_at) in ranges {
        conversion_refused(&listing, &with(&[(place, word)]), 9, (8, refused_at));
    }
    // The lowest of two.
    for place in 0..7 {
        conversion_refused(&listing, &with(&[(7, 0), (place, 0)]), 9, (8, place));
    }
}

/// A cell that is too thin to lose, by the listing's own least thickness or by 300 mm, has lost nothing.
#[test]
fn conversions_of_thin_cells() {
    let site_word = |thickness| {
        Some(SiteWord {
            guard: 400,
            thickness,
        })
    };
    let old = |[oxidised, burned]: [u32; 2]| [8 << 28, 9 << 28, 10 << 28, oxidised, burned];
    let [none, one, most] = [
        [11 << 28, 12 << 28],
        [11 << 28, 0xC0000001],
        [0xB000012B, 12 << 28],
    ];
    for thickness in [None, site_word(300), site_word(2_000)] {
        let listing = one_cell_of(thickness, row(70, 45, 340), 299);
        let new = [[8 << 28, 9 << 28, 9 << 28].as_slice(), &[10 << 28], &none].concat();
        converts(&listing, &old(none), &new);
        conversion_refused(&listing, &old(one), 6, (8, 4));
        conversion_refused(&listing, &old([0xB0000001, 12 << 28]), 6, (8, 4));
    }
    for thickness in [0, 299] {
        let listing = one_cell_of(site_word(thickness), row(70, 45, 340), 299);
        let new = [[8 << 28, 9 << 28, 9 << 28].as_slice(), &[10 << 28], &most].concat();
        converts(&listing, &old(most), &new);
        conversion_refused(&listing, &old([0xB000012B, 0xC0000001]), 6, (8, 4));
    }
}

/// A book of one shape is none of the other: word 2 of an old one is of kind 10, and of a new one of kind 9.
#[test]
fn books_of_the_other_shape() {
    refused_by_every_call(&WORKED, &[&OLD_WORKED[..], &[7]].concat(), 2);
    conversion_refused(&WORKED, &NEW_WORKED, 6, (8, 2));
}

/// Every call on a converted book of year 1. Cell 2 is planned for year 3, cell 0 withdrawn. In year 2 cell 1 has its
/// first year, in year 3 its second, and cell 2 its first: 1,385 and 2,160 t to date, 277 and 432 of them withheld.
#[test]
fn calls_on_a_converted_book() {
    let listing = three_cells().words();
    let old = [
        0x80000001, 0x90000229, 0xA0000001, 0xB000002D, 0xC000012C, 0xA0000002, 0xB0000000,
        0xC0000000, 0xA0000000, 0xB0000000, 0xC0000000,
    ];
    let after = [
        0x80000003, 0x90000000, 0x900006C0, 0xA0000101, 0xB000002D, 0xC000012C, 0xA0000002,
        0xB000005A, 0xC000012C, 0xA0000003, 0xB000002D, 0xC000012C,
    ];
    let nothing = [0xD0000000, 0xE0000000, 0xF0000000];
    let [first, second] = [
        [0xD000002D, 0xE000012C, 0xF00A9114],
        [0xD000002D, 0xE0000000, 0xF0014244],
    ];
    both(|ledger| {
        let (mut book, mut lines) = ([7; 3 + 3 * 3], [7; 3 * 3]);
        assert_eq!((ledger.convert)(&listing, &old, &mut book), accepted(0));
        assert_eq!((ledger.issue)(&listing, &mut book), accepted(0));
        assert_eq!((ledger.replan)(&listing, &mut book, 2, 3), accepted(0));
        assert_eq!((ledger.replan)(&listing, &mut book, 0, 3), refused(12, 0));
        assert_eq!((ledger.withdraw)(&listing, &mut book, 0), accepted(0));
        assert_eq!((ledger.withdraw)(&listing, &mut book, 0), refused(11, 0));
        assert_eq!((ledger.close)(&listing, &mut book, &mut lines), accepted(0));
        assert_eq!(lines[..], [nothing, first, nothing].concat());
        assert_eq!((ledger.issue)(&listing, &mut book), accepted(1_108 - 553));
        assert_eq!((ledger.close)(&listing, &mut book, &mut lines), accepted(0));
        assert_eq!(lines[..], [nothing, second, first].concat());
        assert_eq!((ledger.issue)(&listing, &mut book), accepted(1_728 - 1_108));
        assert_eq!(book, after);
        let answer = (ledger.close)(&listing, &mut book, &mut lines);
        assert_eq!(answer, refused(9, 0));
        let accounts = [0, 1, 2, 3].map(|cell| (ledger.statement)(&listing, &book, cell));
        assert_eq!(accounts[..3], accounts_of_three_cells());
        assert_eq!((accounts[3].number, accounts[3].place), (10, 0));
    });
}

/// After these calls: cell 0 has had one year, cell 1 two and cell 2 one.
fn accounts_of_three_cells() -> [Account; 3] {
    let one_year = |plan_year| Account {
        entered: 2_000,
        remaining: 1_655,
        oxidised: 45,
        burned: 300,
        kg: 692_500,
        plan_year,
        ..Account::default()
    };
    [
        Account {
            withdrawn: true,
            ..one_year(1)
        },
        Account {
            remaining: 1_610,
            oxidised: 90,
            kg: 775_000,
            ..one_year(2)
        },
        one_year(3),
    ]
}

/// An old book of two cells and the same with its cells exchanged, as in the listing: the same tonnes, and each cell's
/// lines where it now is. Cell 1 is drained in year 2 for the first time.
#[test]
fn converted_in_another_order() {
    let mut site = site_of_years(None, 1, &[row(70, 45, 340), row(70, 45, 0)]);
    let later = Cell {
        conversion: 2,
        ..site.cells[0]
    };
    site.cells.push(later);
    let mut exchanged = site.clone();
    exchanged.cells.reverse();
    let cells = [
        [0xA0000001, 0xB000002D, 0xC000012C],
        [0xA0000002, 0xB0000000, 0xC0000000],
    ];
    let old =
        |[first, second]: [[u32; 3]; 2]| [&[0x80000001, 0x90000229], &first[..], &second].concat();
    both(|ledger| {
        let years = [(&site, cells), (&exchanged, [cells[1], cells[0]])].map(|(site, cells)| {
            let (listing, mut book, mut lines) = (site.words(), [0; 9], [0; 6]);
            assert_eq!(
                (ledger.convert)(&listing, &old(cells), &mut book),
                accepted(0)
            );
            assert_eq!((ledger.close)(&listing, &mut book, &mut lines), accepted(0));
            (lines, (ledger.issue)(&listing, &mut book))
        });
        let ([a, b, c, d, e, f], answer) = years[0];
        assert_eq!(years[1], ([d, e, f, a, b, c], answer));
        assert!(c != f && answer.value > 0);
    });
}

/// An old book at the horizon, of a cell that was never planned again: 620 t are to date, and 553 were issued.
#[test]
fn converted_at_the_horizon() {
    let old = [0x80000002, 0x90000229, 0xA0000000, 0xB000005A, 0xC000012C];
    both(|ledger| {
        let (mut book, mut lines) = ([7; BOOK_OF_ONE], [7; 3]);
        assert_eq!((ledger.convert)(&WORKED, &old, &mut book), accepted(0));
        let answer = (ledger.close)(&WORKED, &mut book, &mut lines);
        assert_eq!((answer, lines), (refused(9, 0), [7; 3]));
        for year in [1, 2, 3] {
            assert_eq!((ledger.replan)(&WORKED, &mut book, 0, year), refused(13, 0));
        }
        assert_eq!((ledger.replan)(&WORKED, &mut book, 0, 0), accepted(0));
        assert_eq!((ledger.issue)(&WORKED, &mut book), accepted(67));
        assert_eq!((ledger.issue)(&WORKED, &mut book), accepted(0));
    });
}

/// Tonnes issued of an old book of year 1, when the balance is 553 t, to the answers of an issue then and of one after
/// year 2, when it is 620: what was issued above the balance is not paid again.
#[test]
fn converted_with_more_issued_than_its_balance() {
    let rows = [
        (0, 553, 67),
        (552, 1, 67),
        (553, 0, 67),
        (554, 0, 66),
        (600, 0, 20),
        (619, 0, 1),
        (620, 0, 0),
        (621, 0, 0),
        (0x0FFF_FFFF, 0, 0),
    ];
    for (issued, first, second) in rows {
        let mut old = OLD_WORKED;
        old[1] = 9 << 28 | issued;
        let after = issued + first + second;
        both(|ledger| {
            let (mut book, mut lines) = ([0; BOOK_OF_ONE], [0; 3]);
            assert_eq!((ledger.convert)(&WORKED, &old, &mut book), accepted(0));
            assert_eq!((ledger.issue)(&WORKED, &mut book), accepted(first));
            assert_eq!((ledger.issue)(&WORKED, &mut book), accepted(0));
            assert_eq!((ledger.close)(&WORKED, &mut book, &mut lines), accepted(0));
            assert_eq!((ledger.issue)(&WORKED, &mut book), accepted(second));
            assert_eq!(book[..3], [8 << 28 | 2, 9 << 28, 9 << 28 | after]);
        });
    }
}

/// An old book with all that its word can say issued, and 816,000,000 t of peat, which is 3 × 2^28 + 10,693,632.
#[test]
fn converted_and_then_past_the_low_word() {
    let listing = greatest_cells(1_000, None, &[row(255, 0, 1_023)]).words();
    let new = all_burned(1_000, 1, [0, 0x0FFF_FFFF]);
    let old = [&new[..1], &new[2..]].concat();
    both(|ledger| {
        let mut book = vec![0; 3 + 3 * 1_000];
        assert_eq!((ledger.convert)(&listing, &old, &mut book), accepted(0));
        assert_eq!(book, new);
        assert_eq!((ledger.issue)(&listing, &mut book), accepted(547_564_545));
        assert_eq!(book, all_burned(1_000, 1, [3, 10_693_632]));
    });
}

/// The claim on fires goes by d of the fire's own year: after 95 mm lost, 450 and 500 mm of the table leave a dry margin of
/// 355 and 405. A fire counted from the year's surface would pass at up to 50 and 100 mm.
#[test]
fn claim_on_later_fires_that_fails() {
    let rows = [
        // Table value of year 2, burned mm of year 2, and whether the guard of 400 is dry after it.
        (45, 1, false),
        (45, 50, false),
        (50, 5, true),
        (50, 6, false),
        (50, 100, false),
    ];
    for (drainage, burned, holds) in rows {
        let rows = [row(45, 45, 340), row(drainage, 45, 340)];
        let listing = site_of_years(None, 1, &rows).words();
        let mut history = History::opened(&listing);
        let fires = history.closed(&[13 << 28 | 45, 14 << 28 | 50, 15 << 28 | 184_166]);
        assert!(history.guard_holds(&fires[0]));
        let fires = history.closed(&[13 << 28, 14 << 28 | burned, 15 << 28]);
        assert_eq!(history.guard_holds(&fires[0]), holds);
    }
}

/// One mm, one kg or one tonne too many returned breaks a claim on lists of calls: none is true of itself.
#[test]
fn claims_that_fail() {
    claims_fail_of(&WORKED, 553);
    claims_fail_of(&with_site_word(SITE_WORD), 391);
    claims_fail_of(&worked_with(1, CHAR_WORD), 465);
}

/// Of a listing whose first year burns as much as the guard lets it, and pays so many tonnes.
fn claims_fail_of(listing: &[u32], tonnes: u32) {
    let mut book = [0; BOOK_OF_ONE];
    reference::open(listing, &mut book);
    let mut lines = [0; 3];
    reference::close(listing, &mut book, &mut lines);
    let account = reference::statement(listing, &book, 0);
    let closed = |more: [u32; 3]| {
        let mut history = History::opened(listing);
        let forged: Vec<u32> = lines
            .iter()
            .zip(more)
            .map(|(line, more)| line + more)
            .collect();
        let fires = history.closed(&forged);
        let dry = history.guard_holds(&fires[0]);
        (history, dry)
    };
    let (mut history, dry) = closed([0, 0, 0]);
    assert!(dry && history.depth_holds(0, &account) && history.kilograms_hold(0));
    history.issued(tonnes);
    assert!(history.issues_hold());
    let (history, _) = closed([1, 0, 0]);
    assert!(!history.depth_holds(0, &account) && !history.kilograms_hold(0));
    let (history, dry) = closed([0, 1, 0]);
    assert!(!history.depth_holds(0, &account) && !dry && !history.kilograms_hold(0));
    for more in [1, u32::MAX] {
        let mut history = History::opened(listing);
        history.closed(&[lines[0], lines[1], lines[2].wrapping_add(more)]);
        assert!(history.depth_holds(0, &account) && !history.kilograms_hold(0));
    }
    for wrong in [tonnes - 1, tonnes + 1] {
        let (mut history, _) = closed([0, 0, 0]);
        history.issued(wrong);
        assert!(!history.issues_hold());
    }
}

/// The claims on a list that starts from a converted book count what it brings as handed out before.
#[test]
fn claims_of_a_converted_book_that_fail() {
    let account = reference::statement(&WORKED, &NEW_WORKED, 0);
    let converted = || History::converted(&WORKED, &OLD_WORKED);
    let mut history = converted();
    assert_eq!(history.closings(), 1);
    assert!(history.depth_holds(0, &account) && history.kilograms_hold(0));
    // 553 t were issued, and the balance is 553.
    assert!(history.issues_hold());
    history.issued(0);
    assert!(history.issues_hold());
    let more_left = Account {
        remaining: account.remaining + 1,
        ..account
    };
    assert!(!history.depth_holds(0, &more_left));
    // The lines of year 2, then one mm or one kg too many; 620 t are met, and what was issued counts.
    for (lines, kilograms_hold) in [
        ([45, 0, 82_500], true),
        ([46, 0, 82_500], false),
        ([45, 0, 82_499], false),
        ([45, 0, 82_501], false),
        ([45, 0, 775_000], false),
    ] {
        let mut history = converted();
        assert!(history.closed(&line_words(lines)).is_empty());
        assert_eq!(history.kilograms_hold(0), kilograms_hold);
    }
    for (tonnes, issues_hold) in [
        (67, true),
        (66, false),
        (68, false),
        (0, false),
        (620, false),
    ] {
        let mut history = converted();
        history.closed(&line_words([45, 0, 82_500]));
        history.issued(tonnes);
        assert_eq!(history.issues_hold(), issues_hold);
    }
}

/// Where a converted book brings more tonnes than any balance, nothing may be paid.
#[test]
fn claims_of_more_issued_than_the_balance() {
    let mut old = OLD_WORKED;
    old[1] = 0x9FFFFFFF;
    for (tonnes, issues_hold) in [(0, true), (1, false), (553, false)] {
        let mut history = History::converted(&WORKED, &old);
        history.issued(tonnes);
        assert_eq!(history.issues_hold(), issues_hold);
    }
}

fn line_words([oxidised, burned, kg]: [u32; LINE_WORDS]) -> [u32; LINE_WORDS] {
    [13 << 28 | oxidised, 14 << 28 | burned, 15 << 28 | kg]
}

/// Fires of year 2 that follow a conversion in year 1: d goes by the O and B and by the plan year that the book brings.
/// Its own fire is not asked about.
#[test]
fn claims_on_fires_after_a_conversion() {
    let listing = site_of_years(None, 1, &[row(70, 45, 340), row(80, 45, 340)]).words();
    let rows = [
        // Age 2 after 45 + 300 and 0 + 0 mm: d is 455 and 800.
        (1, [45, 300], 55, true),
        (1, [45, 300], 56, false),
        (1, [0, 0], 400, true),
        (1, [0, 0], 401, false),
        // Age 1, although the listing's conversion is in year 1: d is 700 and 690.
        (2, [0, 0], 300, true),
        (2, [0, 0], 301, false),
        (2, [4, 6], 290, true),
        (2, [4, 6], 291, false),
        // A plan year ahead, or none: d counts as 0.
        (0, [0, 0], 1, false),
        // More burned than the guard lets.
        (1, [0, 400], 1, false),
        (1, [0, 399], 1, true),
    ];
    for (plan_year, [oxidised, burned], fire, guard_holds) in rows {
        let plan = 10 << 28 | plan_year;
        let old = [
            8 << 28 | 1,
            9 << 28,
            plan,
            11 << 28 | oxidised,
            12 << 28 | burned,
        ];
        let mut history = History::converted(&listing, &old);
        let fires = history.closed(&line_words([0, fire, 0]));
        assert_eq!(history.guard_holds(&fires[0]), guard_holds);
    }
}

/// Cells of 1 m² emit only by their sums: rounding each year by itself would give 0 for ever. Density, o and b of each
/// year, to the years whose line is 1 kg.
#[test]
fn small_cells_emit() {
    let cells: [(u32, u32, u32, &[usize]); 2] = [
        // 2 × 1,100,000 × O is above 3,000,000,000 once O is 1,364, after 31 years; 255 cm let 2,550 mm oxidise.
        (2, 45, 0, &[31]),
        // 5,100,000 × B is above it, twice and three times it once B is 589, 1,177 and 1,765; 2,150 mm may burn.
        (1, 0, 45, &[14, 27, 40]),
    ];
    for (density, oxidation, burning, emitting) in cells {
        let mut site = site_of_years(None, 1, &[row(255, oxidation, burning); 100]);
        (site.warming, site.methane) = (100, 100);
        site.cells[0] = Cell {
            stratum: 0,
            conversion: 1,
            entered: 20_000,
            area: 1,
            density,
        };
        both(|ledger| {
            let mut output = [0; 100];
            let answer = (ledger.forecast)(&site.words(), &mut [0; BOOK_OF_ONE], &mut output);
            assert_eq!(answer, total(emitting.len() as u64));
            let is_emitting = |year: usize| u64::from(emitting.contains(&(year + 1)));
            assert_eq!(
                output.to_vec(),
                (0..100).map(is_emitting).collect::<Vec<_>>()
            );
        });
    }
}
