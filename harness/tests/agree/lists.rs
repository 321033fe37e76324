//! Lists of calls from an accepted open or an accepted conversion, with strays between them, and document 01's four
//! claims.
use crate::lent::{agree, convert, lend, open, reference_number, Lent};
use crate::rule::{count_d, inactive, row_of_year};
use harness::generate::{self, Call, Random};
use harness::loss::{CellYear, Rule};
use harness::met::{balance_row, ListGroups, Met, CONVERTED, OPENED};
use harness::reference::{Fire, History};
use harness::site::{entries, tonnes_issued, Cell, Entry, Site, LINE_WORDS, OLD_BOOK_HEAD};
use harness::{Account, PROVED};
use std::cmp::Ordering;

/// What a list has returned, with what only the table asks: of its cells, and the balances at its issues.
struct ListTally<'a> {
    site: &'a Site,
    history: History,
    cells: Vec<CellTally>,
    /// The tonnes issued that a conversion brought; none from an open.
    brought: Option<i128>,
    balances: Vec<i128>,
}

/// A cell as it is now, with the sums of its lines and of what a conversion brought, and as a conversion brought it; the
/// deepest drainage level of the years in which it was converted, or what was brought where that is deeper; and whether a
/// year found d at 0 since it lost last; in mm.
#[derive(Clone, Default)]
struct CellTally {
    now: Entry,
    brought: Entry,
    deepest: u32,
    rested: bool,
}

impl<'a> ListTally<'a> {
    fn opened(site: &'a Site, listing: &[u32]) -> Self {
        let planned = |cell: &Cell| CellTally {
            now: Entry {
                plan: cell.conversion,
                ..Entry::default()
            },
            ..CellTally::default()
        };
        ListTally {
            site,
            history: History::opened(listing),
            cells: site.cells.iter().map(planned).collect(),
            brought: None,
            balances: Vec::new(),
        }
    }

    fn converted(site: &'a Site, listing: &[u32], old_book: &[u32]) -> Self {
        let brought = |brought: Entry| CellTally {
            now: brought,
            brought,
            deepest: brought.lost(),
            rested: false,
        };
        let entries = entries(OLD_BOOK_HEAD, old_book).take(site.cells.len());
        ListTally {
            site,
            history: History::converted(listing, old_book),
            cells: entries.map(brought).collect(),
            brought: Some(tonnes_issued(OLD_BOOK_HEAD, old_book).into()),
            balances: Vec::new(),
        }
    }

    fn groups(&self) -> &'static ListGroups {
        match self.brought {
            None => &OPENED,
            Some(_) => &CONVERTED,
        }
    }

    /// Counts a row that only lists from a conversion have.
    fn count_after(&self, met: &mut Met, is: bool, row: &str) {
        met.count_if(is && self.brought.is_some(), "after a conversion", row);
    }

    /// After an accepted call of the list.
    fn accepted(&mut self, met: &mut Met, call: Call, value: u32, lines: &[u32]) {
        match call {
            Call::Close { lines: length } => self.closed(met, &lines[..length]),
            Call::Replan { cell, year } => {
                self.history.replanned(cell, year);
                met.count("replan to", if year == 0 { "0" } else { "a year" });
                let rows = ["a replan", "a replan of a cell that lost before"];
                self.count_change(met, cell, rows);
                self.cells[cell].now.plan = year;
            }
            Call::Withdraw { cell } => {
                let rows = ["a withdrawal", "a withdrawal of a cell that lost before"];
                self.count_change(met, cell, rows);
                self.cells[cell].now.withdrawn = true;
            }
            Call::Issue => self.issued(met, value),
            _ => {}
        }
    }

    /// A cell that is replanned or withdrawn after a conversion.
    fn count_change(&self, met: &mut Met, cell: usize, [any, lost]: [&str; 2]) {
        self.count_after(met, true, any);
        self.count_after(met, self.cells[cell].brought.lost() > 0, lost);
    }

    /// After a refused call of the list.
    fn refused(&self, met: &mut Met, call: Call, number: u32) {
        met.count("refused in a list", &number.to_string());
        if let (11, Call::Replan { cell, .. } | Call::Withdraw { cell }) = (number, call) {
            let is = self.cells[cell].brought.withdrawn;
            self.count_after(met, is, "11 for a mark brought");
        }
    }

    /// A balance that is too high has no row: from an open none above 149,914,500 t has one.
    fn issued(&mut self, met: &mut Met, tonnes: u32) {
        let balance = self.history.issued(tonnes);
        met.count(self.groups().balances, balance_row(balance));
        match self.site.buffer {
            0 => met.count("issue with", "p 0"),
            100 => met.count("issue with", "p 100"),
            _ => {}
        }
        if let Some(brought) = self.brought {
            count_issue(met, brought, balance, tonnes);
        }
        self.balances.push(balance);
    }

    /// The claim on fires, asked at each of them, and the law on drainage levels.
    fn closed(&mut self, met: &mut Met, lines: &[u32]) {
        for fire in self.history.closed(lines) {
            let holds = self.history.guard_holds(&fire);
            assert!(holds, "a fire of cell {}", fire.cell);
            met.count(self.groups().claims, "dry after a fire");
            let burned = lines[LINE_WORDS * fire.cell + 1] & 0x0FFF_FFFF;
            self.count_fire(met, &fire, burned);
            self.count_neighbour(met, fire.cell);
        }
        for (i, line) in (0..self.cells.len()).zip(lines.chunks_exact(LINE_WORDS)) {
            let [oxidised, burned] = [line[0], line[1]].map(|word| word & 0x0FFF_FFFF);
            self.count_cell(met, i, [oxidised, burned]);
            let plan = self.cells[i].now.plan;
            let row = row_of_year(self.site, i, plan, self.history.closings());
            let cell = &mut self.cells[i];
            cell.now.oxidised += oxidised;
            cell.now.burned += burned;
            cell.deepest = cell.deepest.max(row.map_or(0, |row| 10 * row.drainage));
            assert!(
                cell.now.lost() <= cell.deepest,
                "cell {i} below its drainage levels"
            );
            if oxidised + burned > 0 && cell.now.lost() == cell.deepest {
                met.count(
                    "cell in a closing",
                    "down to the deepest drainage level so far",
                );
            }
        }
    }

    /// A cell that was converted by the year last closed, as it was at the start of that year.
    fn cell_year(&self, i: usize) -> CellYear {
        let cell = &self.cells[i].now;
        let row = row_of_year(self.site, i, cell.plan, self.history.closings());
        CellYear {
            row: row.expect("a converted cell"),
            guard: self.site.guard(),
            entered: self.site.cells[i].entered,
            oxidised: cell.oxidised,
            burned: cell.burned,
        }
    }

    /// What it left dry, and what the site's figures make possible: a fire down to the water, and of peat thinner than
    /// 300 mm.
    fn count_fire(&self, met: &mut Met, fire: &Fire, burned: u32) {
        let year = self.cell_year(fire.cell);
        let dry = i128::from(year.d(Rule::Benchmark)) - i128::from(burned);
        assert_eq!(fire.stayed_dry, dry, "a fire of cell {}", fire.cell);
        let exactly = fire.stayed_dry == i128::from(year.guard);
        let [_, deeper] = year.losses(Rule::YearsSurface);
        let thin = year.remaining() < self.site.thickness();
        for (is, row) in [
            (exactly, "left exactly the guard"),
            (
                exactly && year.lost() > 0,
                "left exactly the guard, after earlier losses",
            ),
            (
                exactly && year.level() - burned > year.guard,
                "left exactly the guard, more by 10 x the table value",
            ),
            (
                deeper > burned,
                "that would be deeper by 10 x the table value",
            ),
            (fire.stayed_dry == 0, "down to the water, with a guard of 0"),
            (year.guard > 400, "with a guard above 400"),
            (thin, "of a cell sunk below the least thickness"),
            (year.entered < 300, "of a cell entered below 300 mm"),
        ] {
            met.count_if(is, "fire", row);
        }
        self.count_after(met, true, "a fire");
        let lost_before = self.cells[fire.cell].brought.lost() > 0;
        self.count_after(met, lost_before, "a fire of a cell that lost before");
    }

    /// A withdrawn cell before the one that burned, with a table of its own.
    fn count_neighbour(&self, met: &mut Met, cell: usize) {
        let stratum = |cell: usize| self.site.cells[cell].stratum;
        let is = cell.checked_sub(1).is_some_and(|before| {
            self.cells[before].now.withdrawn && stratum(before) != stratum(cell)
        });
        let row = "of a cell behind a withdrawn neighbour of another stratum";
        met.count_if(is, "fire", row);
    }

    /// Which case of the year rule a cell met in the year just closed, and what alone limited its losses.
    fn count_cell(&mut self, met: &mut Met, i: usize, [oxidised, burned]: [u32; 2]) {
        let CellTally { now, brought, .. } = self.cells[i];
        let closings = self.history.closings();
        if let Some(row) = inactive(self.site, i, now.withdrawn, now.plan, closings) {
            let is = brought.withdrawn && self.would_lose(i);
            self.count_after(met, is, "no loss of a cell, for the mark brought alone");
            return met.count("cell in a closing", row);
        }
        let year = self.cell_year(i);
        count_d(met, self.groups().d, &year, [oxidised, burned]);
        self.count_cell_after(met, i, &year, [oxidised, burned]);
        let (d, guard) = (year.d(Rule::Benchmark), year.guard);
        let of_d = ["d below the guard", "d is the guard", "d above the guard"];
        let row = of_d[(d.cmp(&guard) as i8 + 1) as usize];
        met.count("cell in a closing", row);
        let row = "of 0 mm, with a least thickness of 0";
        met.count_if(year.entered == 0, "cell in a closing", row);
        let lost = oxidised + burned > 0;
        let row = "losing again after a year at d 0";
        met.count_if(lost && self.cells[i].rested, "cell in a closing", row);
        self.cells[i].rested = !lost && (self.cells[i].rested || d == 0);
        let remaining = year.remaining();
        let limits = [year.row.burning, remaining, d.saturating_sub(guard)];
        if let Some(limit) = least_alone(limits) {
            let rows = ["b alone", "R alone", "d - guard alone"];
            met.count("burned by", rows[limit]);
        }
        let limits = [year.row.oxidation, remaining - burned, d - burned];
        if let Some(limit) = least_alone(limits) {
            let rows = ["o alone", "R - burned alone", "d - burned alone"];
            met.count("oxidised by", rows[limit]);
        }
    }

    /// Whether a cell would lose in the year last closed if it were not withdrawn.
    fn would_lose(&self, i: usize) -> bool {
        let plan = self.cells[i].now.plan;
        let unmarked = inactive(self.site, i, false, plan, self.history.closings());
        unmarked.is_none() && self.cell_year(i).losses(Rule::Benchmark) != [0, 0]
    }

    /// A cell that may lose in a closing after a conversion, with its lines.
    fn count_cell_after(&self, met: &mut Met, i: usize, year: &CellYear, lines: [u32; 2]) {
        let brought = self.cells[i].brought;
        let nothing_brought = CellYear {
            entered: year.entered - brought.lost(),
            oxidised: year.oxidised - brought.oxidised,
            burned: year.burned - brought.burned,
            ..*year
        };
        let otherwise = nothing_brought.losses(Rule::Benchmark);
        let lost = lines != [0, 0];
        let planned_so = self.cells[i].now.plan == brought.plan;
        let not_the_listings = brought.plan != self.site.cells[i].conversion;
        for (is, row) in [
            (
                otherwise != lines,
                "lines that would differ without what was brought",
            ),
            (
                lines[1] > 0 && otherwise[1] > lines[1],
                "a fire that would be deeper without what was brought",
            ),
            (
                lost && planned_so && not_the_listings,
                "a loss by a plan year that is not the listing's",
            ),
            (
                lost && brought.lost() > 0,
                "a cell that lost before and after",
            ),
        ] {
            self.count_after(met, is, row);
        }
    }

    /// The other three claims, asked after the list.
    fn ended(&self, met: &mut Met, statement: impl Fn(usize) -> Account) {
        let ListGroups { claims, lists, .. } = self.groups();
        for cell in 0..self.site.cells.len() {
            let account = statement(cell);
            assert!(
                self.history.depth_holds(cell, &account),
                "depth of cell {cell}"
            );
            assert!(
                self.history.kilograms_hold(cell),
                "kilograms of cell {cell}"
            );
            met.count(claims, "depth");
            met.count(claims, "kilograms");
            self.count_kilograms(met, &account);
            if self.cells[cell].now.lost() > 0 {
                met.count(claims, "depth of a cell that lost");
                met.count(claims, "kilograms of a cell that lost");
            }
        }
        assert!(self.history.issues_hold(), "tonnes issued");
        met.count(claims, "issues");
        let paid_before = self.brought.unwrap_or(0);
        let row = match (self.balances.iter().max(), self.brought) {
            (None, _) => "with no issue",
            (Some(&highest), _) if highest > paid_before => {
                met.count(claims, "issues with tonnes paid");
                "with tonnes issued"
            }
            (_, None) => "with a balance never above 0",
            (_, Some(_)) => "with a balance never above what was brought",
        };
        met.count(lists, row);
        self.count_balances(met);
    }

    /// What a cell lost that emitted something, and whether its listing has char and methane.
    fn count_kilograms(&self, met: &mut Met, account: &Account) {
        let row = match (account.burned, self.site.char) {
            _ if account.kg == 0 => return,
            (0, 0) => "that oxidised alone, without char",
            (0, _) => "that oxidised alone, with char",
            (_, 0) => "that burned, without char",
            _ if self.site.methane == 0 => "that burned, with char and no methane",
            _ => "that burned, with char and methane",
        };
        met.count("kg to date of a cell", row);
    }

    /// What was paid is the highest balance met; an issue is not paid again where the balance fell below it and rose.
    /// Tonnes that a conversion brought were paid before.
    fn count_balances(&self, met: &mut Met) {
        let group = self.groups().payments;
        let paid_before = self.brought.unwrap_or(0);
        let (mut paid, mut before, mut fell) = (paid_before, paid_before, false);
        for &balance in &self.balances {
            if balance < paid && !fell {
                met.count(group, "fell below what was paid");
            }
            if fell && before < balance && balance <= paid {
                met.count(group, "fell and rose, not above it");
            }
            if fell && balance > paid {
                met.count(group, "fell and rose above it");
            }
            fell = balance < paid;
            paid = paid.max(balance);
            before = balance;
        }
    }
}

/// An issue after a conversion that brought so many tonnes issued.
fn count_issue(met: &mut Met, brought: i128, balance: i128, tonnes: u32) {
    let row = match brought.cmp(&balance) {
        _ if brought == 0 => "with no tonnes brought",
        Ordering::Less => "with tonnes brought below the balance",
        Ordering::Equal => "with tonnes brought that are the balance",
        Ordering::Greater => "with tonnes brought above the balance",
    };
    met.count("issue after a conversion", row);
    let row = match tonnes {
        0 => "that pays 0",
        _ if balance > 0x0FFF_FFFF => "that pays, beyond 268,435,455 t",
        _ => "that pays",
    };
    met.count("issue after a conversion", row);
}

/// The index of the least of three limits, if no other is as small.
fn least_alone(limits: [u32; 3]) -> Option<usize> {
    let least = limits.into_iter().min();
    let mut at_least = (0..3).filter(|&i| Some(limits[i]) == least);
    at_least.next().filter(|_| at_least.next().is_none())
}

/// One thing wrong in a listing, most likely.
pub fn damage_listing(random: &mut Random, met: &mut Met, site: &Site, listing: &mut Vec<u32>) {
    let which;
    match random.between(0, 2) {
        0 => generate::damage(random, listing),
        1 => {
            (*listing, which) = generate::past_range(random, site);
            met.count("listing just past", which);
        }
        _ => {
            (*listing, which) = generate::kind_7(random, site);
            met.count("kind 7 in", which);
        }
    }
}

/// One call on a copy with a damaged listing, a damaged or short book, or both, or a call that no list has.
fn stray(random: &mut Random, met: &mut Met, site: &Site, lent: &Lent) {
    let mut damaged = lent.clone();
    if random.once_in(2) {
        damage_listing(random, met, site, &mut damaged.listing);
    }
    match random.between(0, 5) {
        0 | 1 => generate::damage(random, &mut damaged.book),
        2 => damaged.book.truncate(random.below(site.book_words())),
        _ => {}
    }
    let call = match random.between(0, 7) {
        0 => Call::Open,
        1 => Call::Forecast {
            output: generate::length(random, site.horizon as usize),
        },
        _ => {
            let current = damaged.book.first().map_or(0, |year| year % 128);
            generate::call(random, site, current)
        }
    };
    let number = agree(met, call, &mut damaged.clone()).number;
    count_order(met, number, call, &damaged, lent);
}

/// Where two refusals are met at once: with the first one mended the call is refused by a later number.
fn count_order(met: &mut Met, number: u32, call: Call, damaged: &Lent, good: &Lent) {
    let mut mended = damaged.clone();
    match (number, call) {
        (1..=5, _) => mended.listing.clone_from(&good.listing),
        (6 | 8, _) => mended.book.clone_from(&good.book),
        _ => {}
    }
    let call = match (number, call) {
        (7, Call::Close { .. }) => Call::Close {
            lines: damaged.lines.len(),
        },
        _ => call,
    };
    let row = match (number, reference_number(call, &mended)) {
        (1..=5, 6..) => "1 to 5 before a later one",
        (6, 7) => "6 before 7",
        (7, 8) => "7 before 8",
        (8, 9..=13) => "8 before 9 to 13",
        _ => return,
    };
    met.count("two at once", row);
}

/// The start of a list, and what it has returned so far; what a conversion converted is not lent any more.
fn start<'a>(random: &mut Random, met: &mut Met, site: &'a Site, lent: &mut Lent) -> ListTally<'a> {
    if random.once_in(2) {
        open(met, site, lent);
        return ListTally::opened(site, &lent.listing);
    }
    lent.old_book = generate::old_book(random, site);
    convert(met, site, lent);
    let old_book = std::mem::take(&mut lent.old_book);
    ListTally::converted(site, &lent.listing, &old_book)
}

/// Enough to come to the horizon, but fewer where each call takes long.
fn most_calls(site: &Site) -> u32 {
    let cells = site.cells.len() as u32;
    (3 * site.horizon + 10).min(40_000 / cells)
}

/// An accepted open or conversion, a list of calls with strays between them, and the four claims.
fn list(random: &mut Random, met: &mut Met) {
    let site = generate::any_site(random);
    let mut lent = lend(random, &site);
    let mut tally = start(random, met, &site, &mut lent);
    let length = random.between(0, most_calls(&site));
    for _ in 0..length {
        let call = generate::call(random, &site, tally.history.closings());
        let answer = agree(met, call, &mut lent);
        if answer.number == 0 {
            tally.accepted(met, call, answer.value, &lent.lines);
        } else {
            tally.refused(met, call, answer.number);
        }
        if random.once_in(3) {
            stray(random, met, &site, &lent);
        }
    }
    if length == 0 {
        met.count(tally.groups().lists, "empty");
    }
    tally.ended(met, |cell| {
        (PROVED.statement)(&lent.listing, &lent.book, cell)
    });
}

pub fn lists(seed: u64, met: &mut Met) {
    let random = &mut Random(seed);
    for _ in 0..20_000 {
        list(random, met);
    }
}
