//! Conversions of old books, good and damaged, and a call on each book that was written.
use crate::lent::{agree, lend, reference_number, Answered, Lent};
use crate::lists::damage_listing;
use harness::generate::{self, Call, Random};
use harness::met::Met;
use harness::site::{entries, tonnes_issued, Entry, Site, BOOK_HEAD, OLD_BOOK_HEAD};

pub fn conversions(seed: u64, met: &mut Met) {
    let random = &mut Random(seed);
    for _ in 0..40_000 {
        let site = generate::any_site(random);
        let mut good = lend(random, &site);
        good.old_book = generate::old_book(random, &site);
        good.book.truncate(site.book_words() + random.below(4));
        if random.once_in(20) {
            other_shapes(random, met, &site, &good);
        }
        let mut lent = good.clone();
        if random.once_in(2) {
            damage(random, met, &site, &mut lent);
        }
        let given = lent.clone();
        let answer = agree(met, Call::Convert, &mut lent);
        if given.listing == good.listing {
            count_lengths(met, &site, &given, &answer);
        }
        if answer.number > 0 {
            count_order(met, &site, &answer, &given, &good);
            continue;
        }
        if given.listing == good.listing {
            assert_kept(&site, &given, &lent);
        }
        call_on_converted(random, met, &site, &mut lent);
    }
}

/// A book of the new shape in place of an old one, and the other way round: word 2 tells them apart.
fn other_shapes(random: &mut Random, met: &mut Met, site: &Site, good: &Lent) {
    let mut lent = good.clone();
    lent.old_book = generate::book(random, site);
    let answer = agree(met, Call::Convert, &mut lent);
    assert_eq!((answer.number, answer.place), (8, OLD_BOOK_HEAD));
    let mut lent = good.clone();
    lent.book = generate::old_book(random, site);
    lent.book.push(random.word());
    let lines = site.line_words();
    let call = random.pick(&[
        Call::Close { lines },
        Call::Replan { cell: 0, year: 0 },
        Call::Withdraw { cell: 0 },
        Call::Issue,
        Call::Statement { cell: 0 },
    ]);
    let answer = agree(met, call, &mut lent);
    assert_eq!((answer.number, answer.place), (8, OLD_BOOK_HEAD));
}

/// A damaged listing, a damaged or short old book, a short new one, or several of these.
fn damage(random: &mut Random, met: &mut Met, site: &Site, lent: &mut Lent) {
    if random.once_in(3) {
        damage_listing(random, met, site, &mut lent.listing);
    }
    if random.once_in(2) {
        generate::damage(random, &mut lent.old_book);
    }
    if random.once_in(3) {
        shorten(random, &mut lent.old_book, site.old_book_words());
    }
    if random.once_in(3) {
        shorten(random, &mut lent.book, site.book_words());
    }
}

/// Often by just one word of those needed.
fn shorten(random: &mut Random, words: &mut Vec<u32>, need: usize) {
    let any = random.below(need);
    words.truncate(random.pick(&[need - 1, any]));
}

/// Year, tonnes issued, marks, plan years and losses are those of the old book, and words beyond those needed are as they
/// were.
fn assert_kept(site: &Site, given: &Lent, lent: &Lent) {
    let cells = site.cells.len();
    let kept = |head: usize, book: &[u32]| {
        let entries: Vec<Entry> = entries(head, book).take(cells).collect();
        (book[0], tonnes_issued(head, book), entries)
    };
    assert_eq!(
        kept(BOOK_HEAD, &lent.book),
        kept(OLD_BOOK_HEAD, &given.old_book)
    );
    let words = site.book_words();
    assert_eq!(lent.book[words..], given.book[words..]);
}

/// No call finds a converted book too short or wrong.
fn call_on_converted(random: &mut Random, met: &mut Met, site: &Site, lent: &mut Lent) {
    let call = generate::call(random, site, lent.book[0] & 0xFF);
    let number = agree(met, call, lent).number;
    assert!(
        !matches!(number, 1..=6 | 8),
        "{call:?} is refused by {number}"
    );
    met.count("on a converted book", call.name());
}

/// How long both books were, and of how many cells.
fn count_lengths(met: &mut Met, site: &Site, given: &Lent, answer: &Answered) {
    let (old, new) = (given.old_book.len(), given.book.len());
    let (old_need, new_need) = (site.old_book_words(), site.book_words());
    let mut count = |is: bool, row| met.count_if(is, "conversion with", row);
    match answer.number {
        0 => {
            let row = "the old book just as long as asked";
            count(old == old_need, row);
            count(old > old_need, "the old book longer");
            let row = "the new book just as long as asked";
            count(new == new_need, row);
            count(new > new_need, "the new book longer");
            let cells = site.cells.len();
            count(cells == 1, "1 cell");
            count(cells == 256, "256 cells");
            count(cells == 257, "257 cells");
            count(cells == 1_000, "1,000 cells");
        }
        6 => {
            let is = old + 1 == old_need && new >= new_need;
            count(is, "the old book a word short");
            let is = old >= old_need && new + 1 == new_need;
            count(is, "the new book a word short");
        }
        _ => {}
    }
}

/// Where two refusals are met at once.
fn count_order(met: &mut Met, site: &Site, answer: &Answered, given: &Lent, good: &Lent) {
    let old_is_short = given.old_book.len() < site.old_book_words();
    let new_is_short = given.book.len() < site.book_words();
    let row = match (answer.number, old_is_short, new_is_short) {
        (1..=5, true, true) => "1 to 5 before 6 of both books",
        _ if given.listing != good.listing => return,
        // The lengths tell which of the two was refused.
        (6, true, true) if given.old_book.len() != given.book.len() => {
            "6 of the old book before 6 of the new one"
        }
        (6, true, false) if has_a_wrong_word(given, good) => "6 of the old book before 8 of it",
        (6, false, true) if has_a_wrong_word(given, good) => {
            "6 of the new book before 8 of the old one"
        }
        (8, ..) if has_a_wrong_word_after(answer.place, given, good) => {
            "8 of several words of the old book"
        }
        _ => return,
    };
    met.count("two at once", row);
}

/// Whether the old book would be refused by 8 if both books were long enough.
fn has_a_wrong_word(given: &Lent, good: &Lent) -> bool {
    let mut mended = given.clone();
    mended.book.clone_from(&good.book);
    let missing = good.old_book.get(given.old_book.len()..).unwrap_or(&[]);
    mended.old_book.extend(missing);
    reference_number(Call::Convert, &mended) == 8
}

/// Whether the old book would still be refused by 8 with the word at a place mended.
fn has_a_wrong_word_after(place: usize, given: &Lent, good: &Lent) -> bool {
    let mut mended = given.clone();
    mended.old_book[place] = good.old_book[place];
    reference_number(Call::Convert, &mended) == 8
}
