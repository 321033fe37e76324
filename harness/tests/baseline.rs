//! The benchmark's baseline beside the reference: it must be correct before its speed says anything.
use harness::generate::{self, Random};
use harness::timed::BASELINE;
use harness::{reference, Answer, Reading};

/// How often each number was answered, 0 for accepted.
#[derive(Default)]
struct Tally([u32; 21]);

impl Tally {
    fn agree(&mut self, baseline: Answer, reference: Answer, what: &str) {
        assert_eq!(baseline, reference, "{what}");
        self.count(baseline.number);
    }

    fn count(&mut self, number: u32) {
        self.0[number as usize] += 1;
    }

    /// A test that never meets a number says nothing about it.
    fn met(&self, numbers: impl IntoIterator<Item = usize>) {
        for number in numbers {
            assert!(self.0[number] > 0, "number {number}: {:?}", self.0);
        }
    }
}

/// Close, issue and forecast on good and damaged listings and books, with all slices as they are left.
#[test]
fn ledger_calls() {
    let random = &mut Random(21);
    let mut tally = Tally::default();
    let mut high_words = 0;
    for _ in 0..40_000 {
        let site = generate::any_site(random);
        let (mut listing, mut book) = (site.words(), generate::book(random, &site));
        match random.between(0, 7) {
            0 => generate::damage(random, &mut listing),
            1 => listing = generate::past_range(random, &site).0,
            2 | 3 => generate::damage(random, &mut book),
            4 => book.truncate(random.below(site.book_words())),
            _ => {}
        }
        let what = format!("{listing:08X?} {book:08X?}");
        let length = generate::length(random, site.line_words());
        let lines = random.words(length);
        let (mut books, mut both_lines) = ([book.clone(), book.clone()], [lines.clone(), lines]);
        let baseline = BASELINE.close(&listing, &mut books[0], &mut both_lines[0]);
        let expected = reference::close(&listing, &mut books[1], &mut both_lines[1]);
        tally.agree(baseline, expected, &what);
        assert!(
            books[0] == books[1] && both_lines[0] == both_lines[1],
            "{what}"
        );
        let baseline = BASELINE.issue(&listing, &mut books[0]);
        tally.agree(baseline, reference::issue(&listing, &mut books[1]), &what);
        assert!(books[0] == books[1], "{what}");
        high_words += u32::from(baseline.value > 0 && books[0][1] != 9 << 28);
        let length = generate::length(random, site.horizon as usize);
        let mut outputs = [vec![7; length], vec![7; length]];
        let baseline = BASELINE.forecast(&listing, &mut books[0], &mut outputs[0]);
        let expected = reference::forecast(&listing, &mut books[1], &mut outputs[1]);
        assert_eq!(baseline, expected, "{what}");
        tally.count(baseline.number);
        assert!(books[0] == books[1] && outputs[0] == outputs[1], "{what}");
    }
    tally.met((0..=9).chain([15]));
    assert!(high_words > 0, "no issue paid up to 2^28 t or more");
}

#[test]
fn readings() {
    let random = &mut Random(22);
    let mut tally = Tally::default();
    for _ in 0..400_000 {
        let reading = generate::reading(random);
        let baseline = match reading {
            Reading::Core(metres) => BASELINE.core(metres),
            Reading::Levels(surface, base) => BASELINE.levels(surface, base),
            Reading::Missing => continue,
        };
        tally.agree(baseline, reference::depth(reading), &format!("{reading:?}"));
    }
    tally.met([0, 16, 17]);
}

#[test]
fn discounts() {
    let random = &mut Random(23);
    let mut tally = Tally::default();
    for _ in 0..400_000 {
        let [first_widths, second_widths, first_stocks, second_stocks] = generate::pools(random);
        let lists = (&first_widths, &second_widths, &first_stocks, &second_stocks);
        let baseline = BASELINE.discount(lists.0, lists.1, lists.2, lists.3);
        let expected = reference::discount(lists.0, lists.1, lists.2, lists.3);
        tally.agree(baseline, expected, &format!("{lists:?}"));
    }
    tally.met([0, 19, 20]);
}
