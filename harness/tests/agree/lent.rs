//! One call on both sides, and what is lent to it.
use harness::generate::{Call, Random};
use harness::met::Met;
use harness::site::{
    entries, part, tonnes_issued, Site, BOOK_CELL_WORDS, BOOK_HEAD, OLD_BOOK_HEAD,
};
use harness::{Account, Ledger, Total, PROVED, REFERENCE};

/// What the caller lends, with whatever is in it. A conversion alone takes the old book, and writes `book` from it.
#[derive(Clone, Debug, PartialEq)]
pub struct Lent {
    pub listing: Vec<u32>,
    pub old_book: Vec<u32>,
    pub book: Vec<u32>,
    pub lines: Vec<u32>,
    pub output: Vec<u64>,
}

/// Slices for a site, with something in them and some elements beyond what is needed, but no old book.
pub fn lend(random: &mut Random, site: &Site) -> Lent {
    Lent {
        listing: site.words(),
        old_book: Vec::new(),
        book: random.words(site.book_words() + 3),
        lines: random.words(site.line_words() + 4),
        output: (0..site.horizon + 4).map(|_| random.draw()).collect(),
    }
}

/// What any call answers, in one form: of a statement its account, of a forecast its total, of another call its value.
#[derive(Clone, Debug, Default, PartialEq)]
pub struct Answered {
    pub number: u32,
    pub place: usize,
    pub value: u32,
    pub total: u64,
    pub account: Account,
}

fn stated(account: Account) -> Answered {
    Answered {
        number: account.number,
        place: account.place,
        account,
        ..Answered::default()
    }
}

fn totalled(answer: Total) -> Answered {
    Answered {
        number: answer.number,
        place: answer.place,
        total: answer.total,
        ..Answered::default()
    }
}

fn run(ledger: &Ledger, call: Call, lent: &mut Lent) -> Answered {
    let (listing, book) = (&lent.listing[..], &mut lent.book[..]);
    let answer = match call {
        Call::Open => (ledger.open)(listing, book),
        Call::Convert => (ledger.convert)(listing, &lent.old_book, book),
        Call::Close { lines } => (ledger.close)(listing, book, &mut lent.lines[..lines]),
        Call::Replan { cell, year } => (ledger.replan)(listing, book, cell, year),
        Call::Withdraw { cell } => (ledger.withdraw)(listing, book, cell),
        Call::Issue => (ledger.issue)(listing, book),
        Call::Statement { cell } => return stated((ledger.statement)(listing, book, cell)),
        Call::Forecast { output } => {
            return totalled((ledger.forecast)(listing, book, &mut lent.output[..output]))
        }
    };
    Answered {
        number: answer.number,
        place: answer.place,
        value: answer.value,
        ..Answered::default()
    }
}

/// The number that the reference answers, on a copy.
pub fn reference_number(call: Call, lent: &Lent) -> u32 {
    run(&REFERENCE, call, &mut lent.clone()).number
}

/// Runs a call on both, and counts and returns what they agree on.
pub fn agree(met: &mut Met, call: Call, lent: &mut Lent) -> Answered {
    let before = lent.clone();
    let mut reference_lent = lent.clone();
    let proved = run(&PROVED, call, lent);
    let reference = run(&REFERENCE, call, &mut reference_lent);
    assert_eq!(proved, reference, "{call:?} of {before:08X?}");
    assert!(
        *lent == reference_lent,
        "slices after {call:?} of {before:08X?}"
    );
    if proved.number != 0 || matches!(call, Call::Statement { .. }) {
        assert!(*lent == before, "{call:?} wrote, of {before:08X?}");
    }
    assert!(
        lent.old_book == before.old_book,
        "the old book after {call:?} of {before:08X?}"
    );
    met.answer(call.name(), proved.number);
    count_place(met, call, lent, &proved);
    proved
}

/// Which word of the listing or the book was refused.
fn count_place(met: &mut Met, call: Call, lent: &Lent, answer: &Answered) {
    let place = answer.place;
    match (answer.number, call) {
        (2, _) => met.count("2 at", ["word 0", "word 1"][place]),
        (4, _) => met.count("4 at", part(&lent.listing, place)),
        (6, Call::Convert) => {}
        (6, _) => {
            let cells = (lent.listing[0] >> 16 & 0xFFF) as usize;
            let is_old = place == OLD_BOOK_HEAD + BOOK_CELL_WORDS * cells;
            let row = ["less", "the length of an old book"][usize::from(is_old)];
            met.count("6 at", row);
        }
        (8, Call::Convert) => {
            let row = book_part(OLD_BOOK_HEAD, &lent.old_book, place);
            met.count("8 of an old book at", row);
        }
        (8, _) => met.count("8 at", book_part(BOOK_HEAD, &lent.book, place)),
        _ => {}
    }
}

/// The part of a book with such a head in which the word at a place is.
fn book_part(head: usize, book: &[u32], place: usize) -> &'static str {
    match (place, head) {
        (0, _) => "the year",
        (1, OLD_BOOK_HEAD) => "the tonnes issued",
        (1, _) => "the first word of tonnes issued",
        _ if place < head => "the second word of tonnes issued",
        _ => match ((place - head) % BOOK_CELL_WORDS, book[place] >> 28) {
            (0, _) => "a plan year",
            (1, _) => "oxidised mm",
            (_, 12) => "burned mm, by the sum",
            _ => "burned mm, by the kind",
        },
    }
}

/// Opens the site's book, which is always accepted.
pub fn open(met: &mut Met, site: &Site, lent: &mut Lent) {
    assert_eq!(agree(met, Call::Open, lent).number, 0);
    count_limits(met, site);
}

/// Converts a good old book of the site, which is always accepted.
pub fn convert(met: &mut Met, site: &Site, lent: &mut Lent) {
    assert_eq!(agree(met, Call::Convert, lent).number, 0);
    count_limits(met, site);
    count_brought(met, site, &lent.old_book);
}

/// The limits that a good listing is at.
fn count_limits(met: &mut Met, site: &Site) {
    let limits = [
        (site.cells.len(), 1, "1 cell"),
        (site.cells.len(), 256, "256 cells"),
        (site.cells.len(), 257, "257 cells"),
        (site.cells.len(), 1_000, "1,000 cells"),
        (site.tables.len(), 1, "1 stratum"),
        (site.tables.len(), 16, "16 strata"),
        (site.horizon as usize, 1, "1 year"),
        (site.horizon as usize, 100, "100 years"),
        (site.terms.len(), 0, "no term"),
        (site.terms.len(), 700, "700 terms"),
        (site.char as usize, 0, "char 0"),
        (site.char as usize, 1, "char 1"),
        (site.char as usize, 31, "char 31"),
        (site.guard() as usize, 0, "guard 0"),
        (site.guard() as usize, 2_000, "guard 2,000"),
        (site.thickness() as usize, 0, "least thickness 0"),
        (site.thickness() as usize, 2_000, "least thickness 2,000"),
        (usize::from(site.site_word.is_some()), 0, "no site word"),
        (usize::from(site.site_word.is_some()), 1, "a site word"),
    ];
    for (figure, limit, row) in limits {
        if figure == limit {
            met.count("listing with", row);
        }
    }
}

/// What a good old book brings.
fn count_brought(met: &mut Met, site: &Site, book: &[u32]) {
    let (year, tonnes) = (book[0] & 0xFF, tonnes_issued(OLD_BOOK_HEAD, book));
    let mut count = |is: bool, row| met.count_if(is, "brought by a conversion", row);
    count(year == 0, "year 0");
    count(0 < year && year < site.horizon, "a year between");
    count(year == site.horizon, "the horizon");
    match tonnes {
        0 => count(true, "no tonnes"),
        0x0FFF_FFFF => count(true, "268,435,455 t"),
        _ => count(true, "other tonnes"),
    }
    for (cell, entry) in site.cells.iter().zip(entries(OLD_BOOK_HEAD, book)) {
        let lost = entry.lost() > 0;
        let not_by_then = entry.plan == 0 || entry.plan > year;
        count(entry.withdrawn, "a withdrawn cell");
        count(lost, "a cell that lost");
        let row = "a cell that lost, not converted by then";
        count(lost && not_by_then, row);
        let row = "a plan year that is not the listing's";
        count(entry.plan != cell.conversion, row);
    }
}
