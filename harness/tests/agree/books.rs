//! Books that no list need have led to, and forecasts.
use crate::lent::{agree, lend, open, Answered, Lent};
use crate::rule::{count_d, inactive, row_of_year};
use harness::generate::{self, Call, Random};
use harness::loss::CellYear;
use harness::met::{balance_row, Met, LENT};
use harness::site::{entries, head_words, tonnes_issued, Site, BOOK_HEAD, LINE_WORDS};
use harness::{PROVED, REFERENCE};

/// Every call on any accepted book.
pub fn any_book(seed: u64, met: &mut Met) {
    let random = &mut Random(seed);
    for _ in 0..20_000 {
        let site = generate::any_site(random);
        let book = generate::book(random, &site);
        let current = book[0] & 0xFF;
        let mut lent = lend(random, &site);
        for _ in 0..4 {
            lent.book.clone_from(&book);
            let call = generate::call(random, &site, current);
            let answer = agree(met, call, &mut lent);
            assert_ne!(answer.number, 8);
            match call {
                Call::Close { .. } if answer.number == 0 => {
                    count_closing(met, &site, &book, &lent.lines);
                }
                Call::Issue => count_issue(met, &book, &lent, &answer),
                _ => {}
            }
        }
    }
}

/// Issues of the highest balances, for which one word of tonnes issued is too small.
pub fn rich_books(seed: u64, met: &mut Met) {
    let random = &mut Random(seed);
    for _ in 0..1_000 {
        let site = generate::richest(random);
        let mut lent = lend(random, &site);
        let book = generate::book(random, &site);
        lent.book.clone_from(&book);
        let answer = agree(met, Call::Issue, &mut lent);
        count_issue(met, &book, &lent, &answer);
    }
}

/// The cells that may lose in a closing, by the book before it and the lines after it.
fn count_closing(met: &mut Met, site: &Site, book: &[u32], lines: &[u32]) {
    let year = (book[0] & 0xFF) + 1;
    let entries = entries(BOOK_HEAD, book).zip(lines.chunks_exact(LINE_WORDS));
    for (i, (cell, (entry, line))) in site.cells.iter().zip(entries).enumerate() {
        if inactive(site, i, entry.withdrawn, entry.plan, year).is_some() {
            continue;
        }
        let cell_year = CellYear {
            row: row_of_year(site, i, entry.plan, year).expect("a converted cell"),
            guard: site.guard(),
            entered: cell.entered,
            oxidised: entry.oxidised,
            burned: entry.burned,
        };
        let lines = [line[0], line[1]].map(|word| word & 0x0FFF_FFFF);
        count_d(met, LENT, &cell_year, lines);
    }
}

/// The tonnes that a lent book has issued, and what an issue makes of them. A lent book may have lost all of its peat.
fn count_issue(met: &mut Met, before: &[u32], lent: &Lent, answer: &Answered) {
    let issued = tonnes_issued(BOOK_HEAD, before);
    let (first, second) = (issued >> 28, issued & 0x0FFF_FFFF);
    let balance = balance(&lent.listing, before);
    let tonnes = |issued: u64| balance.saturating_sub(issued);
    assert_eq!(u64::from(answer.value), tonnes(issued));
    for (is, row) in [
        (issued == 0, "0"),
        (issued + 1 == balance, "1 below the balance"),
        (balance > 0 && issued == balance, "the balance"),
        (balance > 0 && issued == balance + 1, "1 above the balance"),
        (issued == (1 << 28) - 1, "268,435,455"),
        (issued == 1 << 28, "268,435,456"),
        (issued == (1 << 56) - 1, "72,057,594,037,927,935"),
    ] {
        met.count_if(is, "tonnes issued, lent", row);
    }
    let pays = answer.value > 0;
    for (is, row) in [
        (
            pays && first == 0 && balance >> 28 > 0,
            "that pays, with the first word 0 and then above 0",
        ),
        (pays && first > 0, "that pays, with the first word above 0"),
        (
            tonnes(first << 28) != tonnes(issued),
            "otherwise with the first word alone",
        ),
        (
            tonnes(second) != tonnes(issued),
            "otherwise with the second word alone",
        ),
        (
            tonnes(second << 28 | first) != tonnes(issued),
            "otherwise with the words exchanged",
        ),
    ] {
        met.count_if(is, "issue of a lent book", row);
    }
    if pays {
        assert_eq!(tonnes_issued(BOOK_HEAD, &lent.book), balance);
        met.count("balance paid, lent", balance_row(balance.into()));
    }
}

/// The balance of a book, or 0 where that is negative: what the reference pays where nothing is issued.
fn balance(listing: &[u32], book: &[u32]) -> u64 {
    let nothing_issued = head_words(BOOK_HEAD, book[0] & 0xFF, 0);
    let mut book = [&nothing_issued, &book[BOOK_HEAD..]].concat();
    u64::from((REFERENCE.issue)(listing, &mut book).value)
}

/// The kg to date of all cells, as statements have them.
fn kg_to_date(lent: &Lent, cells: usize) -> u64 {
    let statement = |cell| (PROVED.statement)(&lent.listing, &lent.book, cell);
    (0..cells).map(|cell| u64::from(statement(cell).kg)).sum()
}

/// The forecast beside a closing of every year, which returns the same kilograms and leaves the same book: its numbers
/// so far add up to the kg to date, and all of them to its answer.
pub fn forecasts(seed: u64, met: &mut Met) {
    let random = &mut Random(seed);
    for _ in 0..4_000 {
        let site = generate::any_site(random);
        let mut lent = lend(random, &site);
        let beyond = lent.output.clone();
        let horizon = site.horizon as usize;
        let output = generate::length(random, horizon);
        let answer = agree(met, Call::Forecast { output }, &mut lent);
        if answer.number != 0 {
            assert_eq!(answer.total, 0);
            continue;
        }
        count_forecast(met, &site, output, &lent.output[..horizon], answer.total);
        assert_eq!(lent.output[horizon..], beyond[horizon..]);
        let mut closed = lend(random, &site);
        open(met, &site, &mut closed);
        let lines = site.line_words();
        for year in 0..horizon {
            let call = Call::Close { lines };
            assert_eq!(agree(met, call, &mut closed).number, 0);
            let kg = closed.lines[..lines].iter().skip(2).step_by(LINE_WORDS);
            let kg: u64 = kg.map(|word| u64::from(word & 0x0FFF_FFFF)).sum();
            assert_eq!(lent.output[year], kg);
            let cells = site.cells.len();
            // Each statement reads the whole book: of many cells the kg to date are asked after the last year alone.
            if cells <= 256 || year + 1 == horizon {
                let so_far: u64 = lent.output[..=year].iter().sum();
                assert_eq!(so_far, kg_to_date(&closed, cells));
            }
        }
        assert_eq!(lent.output[..horizon].iter().sum::<u64>(), answer.total);
        let words = site.book_words();
        assert_eq!(lent.book[..words], closed.book[..words]);
    }
}

/// What an accepted forecast is made of, wrote and answered.
fn count_forecast(met: &mut Met, site: &Site, output: usize, numbers: &[u64], total: u64) {
    let mut count = |is: bool, row| {
        if is {
            met.count("accepted forecast", row);
        }
    };
    count(site.horizon == 1, "of 1 year");
    count(site.horizon == 100, "of 100 years");
    count(site.cells.len() == 1, "of 1 cell");
    count(site.cells.len() == 256, "of 256 cells");
    count(site.cells.len() == 257, "of 257 cells");
    count(site.cells.len() == 1_000, "of 1,000 cells");
    let never = site.cells.iter().all(|cell| cell.conversion == 0);
    count(never, "with no cell converted");
    count(output == numbers.len(), "output as long as the horizon");
    count(output > numbers.len(), "output longer");
    count(total == 0, "total 0");
    let small = u32::try_from(total).is_ok();
    count(total > 0 && small, "total above 0 that fits 32 bits");
    count(!small, "total that does not");
    let Some(first) = numbers.iter().position(|&kg| kg > 0) else {
        return;
    };
    let later = &numbers[first..];
    count(first > 0, "nothing in the first year, something later");
    count(
        later.contains(&0),
        "nothing in a year after one with something",
    );
    count(
        later.last() == Some(&0),
        "nothing any more after a year with something",
    );
}
