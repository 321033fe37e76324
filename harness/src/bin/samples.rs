//! Writes samples/: NAME.bin as peatrun reads it, NAME.txt in plain words, NAME.expected as it must print.
use harness::sample::{
    self, BENCHMARK_TEXT, CHAR_TEXT, NEGATIVE_TERM_TEXT, SITE_WORD_TEXT, WORKED_TEXT,
};
use harness::site::{Cell, Content, Row, Site, SiteWord, YearlyTerm};
use harness::{generate, reference};
use std::fs;

struct Sample {
    name: &'static str,
    /// Comment lines of the companion.
    about: &'static str,
    bytes: Vec<u8>,
    /// The companion's words, each with what it contains.
    words: String,
    /// The text that was worked out on paper, where there is one; else the reference's.
    expected: Option<&'static str>,
}

impl Sample {
    fn of(name: &'static str, about: &'static str, contents: &[Content]) -> Sample {
        let words: Vec<u32> = contents.iter().map(Content::word).collect();
        let lines = contents
            .iter()
            .map(|content| format!("{:08X} # {}\n", content.word(), content.text()));
        Sample {
            name,
            about,
            bytes: sample::bytes(&words),
            words: lines.collect(),
            expected: None,
        }
    }

    /// Bytes that are no listing: the companion has no words.
    fn of_bytes(name: &'static str, about: &'static str, bytes: Vec<u8>) -> Sample {
        Sample {
            name,
            about,
            bytes,
            words: String::new(),
            expected: None,
        }
    }

    fn expecting(self, text: &'static str) -> Sample {
        Sample {
            expected: Some(text),
            ..self
        }
    }

    fn write(&self) -> std::io::Result<()> {
        let printed = reference::program(&self.bytes);
        let expected = self.expected.unwrap_or(&printed);
        assert_eq!(expected, printed, "{}", self.name);
        let comments: String = self
            .about
            .lines()
            .map(|line| format!("# {line}\n"))
            .collect();
        let path = |ending| sample::directory().join(format!("{}.{ending}", self.name));
        fs::write(path("bin"), &self.bytes)?;
        fs::write(path("txt"), comments + &self.words)?;
        fs::write(path("expected"), expected)
    }
}

fn row(drainage: u32, oxidation: u32, burning: u32) -> Row {
    Row {
        drainage,
        oxidation,
        burning,
    }
}

/// A hectare of peat; density in tenths of kg of carbon per m³.
fn hectare(stratum: u32, conversion: u32, entered: u32, density: u32) -> Cell {
    Cell {
        stratum,
        conversion,
        entered,
        area: 10_000,
        density,
    }
}

fn term(year: u32, term: u32, tonnes: i32) -> YearlyTerm {
    YearlyTerm { year, term, tonnes }
}

fn worked() -> Site {
    Site {
        horizon: 2,
        char: 0,
        buffer: 20,
        warming: 25,
        methane: 12,
        site_word: None,
        tables: vec![vec![row(70, 45, 340), row(70, 45, 0)]],
        cells: vec![hectare(0, 1, 2000, 500)],
        terms: vec![],
    }
}

fn three_cells() -> Site {
    Site {
        horizon: 3,
        char: 0,
        buffer: 20,
        warming: 25,
        methane: 12,
        site_word: None,
        tables: vec![
            vec![row(80, 50, 300), row(80, 40, 0), row(80, 40, 0)],
            vec![row(50, 40, 200), row(50, 30, 0), row(50, 30, 0)],
        ],
        cells: vec![
            hectare(1, 1, 3000, 600),
            hectare(0, 2, 2000, 600),
            hectare(1, 1, 250, 600),
        ],
        terms: vec![
            term(1, 1, 100),
            term(1, 6, -20),
            term(2, 5, -400),
            term(3, 4, 50),
        ],
    }
}

/// Three ages of one row, so that a later year has less above the water.
fn benchmark() -> Site {
    let mut site = worked();
    site.horizon = 3;
    site.tables = vec![vec![row(45, 45, 340); 3]];
    site
}

/// The tables of the three cells, taken as made for the rule that counted from each year's surface:
/// what was lost by then, 140 and 170 mm of stratum 1, 350 and 390 mm of stratum 0, is added.
fn three_cells_restated() -> Site {
    let mut site = three_cells();
    site.tables[0][1].drainage += 35;
    site.tables[0][2].drainage += 39;
    site.tables[1][1].drainage += 14;
    site.tables[1][2].drainage += 17;
    site
}

/// A country that keeps 250 mm dry and counts peat from 200 mm on.
fn thin_peat() -> Site {
    Site {
        horizon: 2,
        char: 0,
        buffer: 15,
        warming: 28,
        methane: 9,
        site_word: Some(SiteWord {
            guard: 250,
            thickness: 200,
        }),
        tables: vec![vec![row(40, 30, 200), row(40, 30, 100)]],
        cells: vec![
            hectare(0, 1, 200, 550),
            hectare(0, 1, 199, 550),
            hectare(0, 2, 1500, 550),
        ],
        terms: vec![],
    }
}

/// Its table, taken as made for the rule that counted from each year's surface: 180 mm are lost at age 1.
fn thin_peat_restated() -> Site {
    let mut site = thin_peat();
    site.tables[0][1].drainage += 18;
    site
}

/// Each stratum has figures of its own, so that a row of another one shows at once.
fn unsorted() -> Site {
    let table = |stratum: u32| {
        let ages = 1..=5;
        let rows = ages.map(|age| row(45 + 10 * stratum, 20 + 7 * stratum + age, 400 / age));
        rows.collect()
    };
    Site {
        horizon: 5,
        char: 0,
        buffer: 10,
        warming: 28,
        methane: 9,
        site_word: None,
        tables: (0..4).map(table).collect(),
        cells: vec![
            hectare(2, 1, 4500, 600),
            hectare(0, 3, 1200, 600),
            hectare(3, 2, 900, 600),
            hectare(1, 0, 3000, 600),
            hectare(0, 1, 300, 600),
            hectare(2, 5, 299, 600),
            hectare(1, 4, 6000, 600),
        ],
        terms: vec![
            term(1, 3, 12),
            term(2, 7, -35),
            term(4, 1, 80),
            term(4, 8, -5),
        ],
    }
}

fn accepted() -> Vec<Sample> {
    let mut negative = worked();
    negative.terms.push(term(2, 5, -100));
    let mut site_word = worked();
    site_word.site_word = Some(SiteWord {
        guard: 500,
        thickness: 300,
    });
    let mut char = worked();
    char.char = 20;
    let mut three_cells_char = three_cells();
    three_cells_char.char = 13;
    let worked = worked();
    vec![
        Sample::of("worked", WORKED_ABOUT, &worked.contents()).expecting(WORKED_TEXT),
        Sample::of("worked-negative-term", NEGATIVE_ABOUT, &negative.contents())
            .expecting(NEGATIVE_TERM_TEXT),
        Sample::of("worked-site-word", SITE_WORD_ABOUT, &site_word.contents())
            .expecting(SITE_WORD_TEXT),
        Sample::of("worked-char", CHAR_ABOUT, &char.contents()).expecting(CHAR_TEXT),
        Sample::of("worked-benchmark", BENCHMARK_ABOUT, &benchmark().contents())
            .expecting(BENCHMARK_TEXT),
        Sample::of("thin-peat", THIN_PEAT_ABOUT, &thin_peat().contents()),
        Sample::of(
            "thin-peat-restated",
            THIN_PEAT_RESTATED_ABOUT,
            &thin_peat_restated().contents(),
        ),
        Sample::of("three-cells", THREE_CELLS_ABOUT, &three_cells().contents()),
        Sample::of(
            "three-cells-char",
            THREE_CELLS_CHAR_ABOUT,
            &three_cells_char.contents(),
        ),
        Sample::of(
            "three-cells-restated",
            THREE_CELLS_RESTATED_ABOUT,
            &three_cells_restated().contents(),
        ),
        Sample::of("unsorted", UNSORTED_ABOUT, &unsorted().contents()),
        Sample::of("largest", LARGEST_ABOUT, &generate::largest().contents()),
    ]
}

/// The worked listing with one thing invalid, for each number that a listing may be refused by.
fn refused() -> Vec<Sample> {
    let worked = worked();
    let mut no_warming = worked.clone();
    no_warming.warming = 0;
    let mut late = worked.clone();
    late.cells[0].conversion = 3;
    let mut thick = worked.clone();
    thick.site_word = Some(SiteWord {
        guard: 500,
        thickness: 2_001,
    });
    let mut falling = worked.clone();
    falling.terms = vec![term(1, 3, 40), term(2, 4, 25), term(2, 1, 10)];
    vec![
        Sample::of("refused-1", REFUSED_1, &worked.contents()[..1]),
        Sample::of("refused-2", REFUSED_2, &no_warming.contents()),
        Sample::of("refused-3", REFUSED_3, &worked.contents()[..5]),
        Sample::of("refused-4", REFUSED_4, &late.contents()),
        Sample::of("refused-4-site-word", REFUSED_4_SITE, &thick.contents()),
        Sample::of("refused-5", REFUSED_5, &falling.contents()),
    ]
}

fn no_listings() -> Vec<Sample> {
    let mut too_long = sample::bytes(&generate::largest().words());
    too_long.push(0);
    let odd = sample::bytes(&worked().words())[..3].to_vec();
    vec![
        Sample::of_bytes("empty", EMPTY_ABOUT, vec![]),
        Sample::of_bytes("too-long", TOO_LONG_ABOUT, too_long),
        Sample::of_bytes("odd-bytes", ODD_ABOUT, odd),
    ]
}

fn main() -> std::io::Result<()> {
    fs::create_dir_all(sample::directory())?;
    let samples = [accepted(), refused(), no_listings()];
    samples.iter().flatten().try_for_each(Sample::write)
}

const WORKED_ABOUT: &str = "\
The worked listing of document 01: one hectare cell of 2,000 mm, converted in year 1.
Year 1 burns 300 of the 340 mm that could burn, since 400 of the 700 mm above the water stay.";

const NEGATIVE_ABOUT: &str = "\
The worked listing with a term 5 of -100 tonnes in year 2.
The balance after year 2 is below what year 1 paid, so the second issue pays 0.";

const SITE_WORD_ABOUT: &str = "\
The worked listing with a site word as word 2: guard 500 mm, least thickness of peat 300 mm.
Year 1 burns 200 of the 340 mm that could burn, since 500 of the 700 mm above the water stay.";

const CHAR_ABOUT: &str = "\
The worked listing with a char percentage of 20 in word 1: a fifth of the carbon that burns is left as char.
Year 1 burns the same 300 mm, and emits 5,000,000 x 11,000 x 20 x 300 / 3,000,000,000 = 110,000 kg less. Year 2 burns nothing.";

const BENCHMARK_ABOUT: &str = "\
The worked listing with three years of one row, 45 cm. A drainage counts from the surface at conversion, 450 mm above the water.
Year 1 burns 50 mm down to the guard and oxidises 45, so the surface sinks 95 mm. Year 2 begins 355 mm above the water, below the guard: no fire.";

const THIN_PEAT_ABOUT: &str = "\
Three hectare cells of a site with a guard of 250 mm and a least thickness of peat of 200 mm; both stand in word 2.
Cell 0 has just the least thickness, and burns 150 mm in year 1, the drainage of 400 mm less the guard.
Cell 1 is 1 mm short of it, and loses nothing. Cell 2 is converted in year 2.";

const THIN_PEAT_RESTATED_ABOUT: &str = "\
The site of thin-peat.txt, its table taken as made for the old rule, by which a drainage counted from each year's surface, and restated:
150 mm burn and 30 mm oxidise at age 1, so age 2 has 40 + 18 = 58 cm. The lines are what they were by the old rule; those of thin-peat.txt are not.";

const THREE_CELLS_ABOUT: &str = "\
A small site: three hectare cells of two strata, not sorted by stratum.
Stratum 0 lies at the canal and is drained to 80 cm, stratum 1 behind it to 50 cm.
Cell 0 is converted in year 1 and burns 100 mm then; the guard of 400 mm keeps the other 100 mm.
Cell 1 is converted in year 2, so year 2 is its age 1.
Cell 2 has 250 mm: below 300 mm it is not peat, and loses nothing.
Terms: avoided deforestation (1) and harvest areas (4) add, displaced conversion (5) and extraction (6) take away.";

const THREE_CELLS_CHAR_ABOUT: &str = "\
The site of three-cells.txt with a char percentage of 13: word 1's second to fourth digit are 13 x 128 + 20 = 1,684, hexadecimal 694.
Each burned mm has the factor 1,100,000 - 143,000 + 400 x 25 x 12 = 1,077,000 instead of 1,220,000; nothing else differs.";

const THREE_CELLS_RESTATED_ABOUT: &str = "\
The site of three-cells.txt, its tables taken as made for the old rule, by which a drainage counted from each year's surface, and restated:
to each drainage is added what a cell of the stratum has lost before that age, 35 and 39 cm of stratum 0, 14 and 17 cm of stratum 1.
Each d is then what it was by the old rule, and so is each line.";

const UNSORTED_ABOUT: &str = "\
Seven cells of four strata, not sorted by stratum; each stratum has figures of its own.
Cell 3 is never converted (conversion year 0).
Cell 4 has just the least thickness of peat, cell 5 is 1 mm short of it.";

const LARGEST_ABOUT: &str = "\
The longest listing there is: 1,000 cells, 16 strata, 100 years, the site word and all 700 yearly terms, 4,303 words, 17,212 bytes.
Its figures are made up; the cells are not sorted by stratum.";

const REFUSED_1: &str = "\
Refused by number 1 at place 0: a listing has at least two words, and this one ends after word 0.";

const REFUSED_2: &str = "\
Refused by number 2 at place 1: word 1 gives 0 as warming potential of methane, which is 1 to 100.";

const REFUSED_3: &str = "\
Refused by number 3 at place 5, its length: 1 stratum x 2 years + 2 x 1 cell + 2 make 6 words.
The cell's second word, area and carbon density, is missing.";

const REFUSED_4: &str = "\
Refused by number 4 at place 4: the cell's conversion year is 3, and the horizon is 2.";

const REFUSED_4_SITE: &str = "\
Refused by number 4 at place 2: the site word's least thickness is 2,001 mm, and the most is 2,000.";

const REFUSED_5: &str = "\
Refused by number 5 at place 8: terms rise by year, then by term, and term 1 of year 2 comes after its term 4.";

const EMPTY_ABOUT: &str = "\
No bytes at all: a listing of no words, refused by number 1 at place 0.";

const TOO_LONG_ABOUT: &str = "\
17,213 bytes, the listing of largest.bin and one byte more: peatrun takes 17,212 at most.
It says so before it counts whole words. There are no words to show here.";

const ODD_ABOUT: &str = "\
The first three bytes of worked.bin: not a whole number of words, so there are none to show here.";
