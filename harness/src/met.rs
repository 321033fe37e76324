//! What the random tests met, counted. A row that is never met fails them, so that no test claims what it did not try.
use std::fmt;
use std::num::FpCategory;

/// What the table counts: each group with its rows. A call has the numbers that documents 01 and 02 give it, and no
/// other may be counted for it; but for 14 of a closing, which is proved not to arise and would fail the test.
const GROUPS: &[(&str, &[&str])] = &[
    ("open", &["accepted", "1", "2", "3", "4", "5", "6"]),
    ("convert", &["accepted", "1", "2", "3", "4", "5", "6", "8"]),
    (
        "close",
        &["accepted", "1", "2", "3", "4", "5", "6", "7", "8", "9"],
    ),
    (
        "replan",
        &[
            "accepted", "1", "2", "3", "4", "5", "6", "8", "10", "11", "12", "13",
        ],
    ),
    (
        "withdraw",
        &["accepted", "1", "2", "3", "4", "5", "6", "8", "10", "11"],
    ),
    ("issue", &["accepted", "1", "2", "3", "4", "5", "6", "8"]),
    (
        "statement",
        &["accepted", "1", "2", "3", "4", "5", "6", "8", "10"],
    ),
    (
        "forecast",
        &["accepted", "1", "2", "3", "4", "5", "6", "15"],
    ),
    ("core", &["accepted", "16", "17"]),
    ("levels", &["accepted", "16", "17"]),
    ("missing", &["18"]),
    ("discount", &["accepted", "19", "20"]),
    ("logged", &["accepted", "21", "22"]),
    ("dips", &["accepted", "16", "17", "23", "24"]),
    (
        "accepted forecast",
        &[
            "of 1 year",
            "of 100 years",
            "of 1 cell",
            "of 256 cells",
            "of 257 cells",
            "of 1,000 cells",
            "with no cell converted",
            "output as long as the horizon",
            "output longer",
            "total 0",
            "total above 0 that fits 32 bits",
            "total that does not",
            "nothing in the first year, something later",
            "nothing in a year after one with something",
            "nothing any more after a year with something",
        ],
    ),
    ("2 at", &["word 0", "word 1"]),
    (
        "4 at",
        &[
            "the site word",
            "a table's word",
            "a cell's first word",
            "a cell's second word",
            "a term",
        ],
    ),
    ("6 at", &["the length of an old book", "less"]),
    (
        "8 at",
        &[
            "the year",
            "the first word of tonnes issued",
            "the second word of tonnes issued",
            "a plan year",
            "oxidised mm",
            "burned mm, by the kind",
            "burned mm, by the sum",
        ],
    ),
    (
        "8 of an old book at",
        &[
            "the year",
            "the tonnes issued",
            "a plan year",
            "oxidised mm",
            "burned mm, by the kind",
            "burned mm, by the sum",
        ],
    ),
    (
        "conversion with",
        &[
            "the old book just as long as asked",
            "the old book longer",
            "the old book a word short",
            "the new book just as long as asked",
            "the new book longer",
            "the new book a word short",
            "1 cell",
            "256 cells",
            "257 cells",
            "1,000 cells",
        ],
    ),
    (
        "on a converted book",
        &["close", "replan", "withdraw", "issue", "statement"],
    ),
    ("16 at", &["place 0", "place 1"]),
    ("17 at", &["place 0", "place 1", "place 2"]),
    ("20 at", &["place 0", "place 1", "place 2", "place 3"]),
    ("22 at", &["place 0", "place 1", "place 2"]),
    (OPENED.claims, CLAIMS),
    (CONVERTED.claims, CLAIMS),
    (
        "kg to date of a cell",
        &[
            "that burned, with char and methane",
            "that burned, with char and no methane",
            "that burned, without char",
            "that oxidised alone, with char",
            "that oxidised alone, without char",
        ],
    ),
    ("refused in a list", &["7", "9", "10", "11", "12", "13"]),
    (
        "two at once",
        &[
            "1 to 5 before a later one",
            "6 before 7",
            "7 before 8",
            "8 before 9 to 13",
            "1 to 5 before 6 of both books",
            "6 of the old book before 6 of the new one",
            "6 of the old book before 8 of it",
            "6 of the new book before 8 of the old one",
            "8 of several words of the old book",
            "21 before 22",
            "22 in several lists",
            "23 before 24",
            "23 of the second before 24 of the first",
            "24 of the first before 24 of the second",
            "24 of several days in a recording",
            "24 before 16 or 17",
            "24 of the second before 16 or 17 of the first",
            "17 of a depth before 16 of its tolerance",
            "17 of an earlier dip before 16 of a later one",
            "16 or 17 of the first before one of the second",
            "16 or 17 of the first before a lower index of the second",
        ],
    ),
    (
        "fire",
        &[
            "left exactly the guard",
            "left exactly the guard, after earlier losses",
            "left exactly the guard, more by 10 x the table value",
            "that would be deeper by 10 x the table value",
            "down to the water, with a guard of 0",
            "with a guard above 400",
            "of a cell behind a withdrawn neighbour of another stratum",
            "of a cell sunk below the least thickness",
            "of a cell entered below 300 mm",
        ],
    ),
    (
        "cell in a closing",
        &[
            "withdrawn",
            "plan year 0",
            "plan year ahead",
            "not peat",
            "not peat at 300 mm or more",
            "d below the guard",
            "d is the guard",
            "d above the guard",
            "of 0 mm, with a least thickness of 0",
            "losing again after a year at d 0",
            "down to the deepest drainage level so far",
        ],
    ),
    (OPENED.d[0], D_AFTER_LOSSES),
    (OPENED.d[1], OTHERWISE),
    (CONVERTED.d[0], D_AFTER_LOSSES),
    (CONVERTED.d[1], OTHERWISE),
    (LENT[0], D_AFTER_LOSSES),
    (LENT[1], OTHERWISE),
    ("burned by", &["b alone", "R alone", "d - guard alone"]),
    (
        "oxidised by",
        &["o alone", "R - burned alone", "d - burned alone"],
    ),
    ("replan to", &["0", "a year"]),
    ("issue with", &["p 0", "p 100"]),
    (
        OPENED.balances,
        &[
            "below 0",
            "0 to 1,000,000 t",
            "to 30,000,000 t",
            "to 149,914,500 t",
        ],
    ),
    (CONVERTED.balances, BALANCES),
    (
        "balance paid, lent",
        &[
            "0 to 1,000,000 t",
            "to 30,000,000 t",
            "to 149,914,500 t",
            "to 268,435,455 t",
            "to 861,874,500 t",
        ],
    ),
    (
        "tonnes issued, lent",
        &[
            "0",
            "1 below the balance",
            "the balance",
            "1 above the balance",
            "268,435,455",
            "268,435,456",
            "72,057,594,037,927,935",
        ],
    ),
    (
        "issue of a lent book",
        &[
            "that pays, with the first word 0 and then above 0",
            "that pays, with the first word above 0",
            "otherwise with the first word alone",
            "otherwise with the second word alone",
            "otherwise with the words exchanged",
        ],
    ),
    (OPENED.payments, PAYMENTS),
    (CONVERTED.payments, PAYMENTS),
    (
        OPENED.lists,
        &[
            "empty",
            "with no issue",
            "with a balance never above 0",
            "with tonnes issued",
        ],
    ),
    (
        CONVERTED.lists,
        &[
            "empty",
            "with no issue",
            "with a balance never above what was brought",
            "with tonnes issued",
        ],
    ),
    (
        "brought by a conversion",
        &[
            "year 0",
            "a year between",
            "the horizon",
            "no tonnes",
            "268,435,455 t",
            "other tonnes",
            "a withdrawn cell",
            "a cell that lost",
            "a cell that lost, not converted by then",
            "a plan year that is not the listing's",
        ],
    ),
    (
        "issue after a conversion",
        &[
            "with no tonnes brought",
            "with tonnes brought below the balance",
            "with tonnes brought that are the balance",
            "with tonnes brought above the balance",
            "that pays",
            "that pays, beyond 268,435,455 t",
            "that pays 0",
        ],
    ),
    (
        "after a conversion",
        &[
            "a fire",
            "a fire of a cell that lost before",
            "a fire that would be deeper without what was brought",
            "lines that would differ without what was brought",
            "a loss by a plan year that is not the listing's",
            "a cell that lost before and after",
            "no loss of a cell, for the mark brought alone",
            "a replan",
            "a replan of a cell that lost before",
            "a withdrawal",
            "a withdrawal of a cell that lost before",
            "11 for a mark brought",
        ],
    ),
    (
        "listing with",
        &[
            "1 cell",
            "256 cells",
            "257 cells",
            "1,000 cells",
            "1 stratum",
            "16 strata",
            "1 year",
            "100 years",
            "no term",
            "700 terms",
            "char 0",
            "char 1",
            "char 31",
            "no site word",
            "a site word",
            "guard 0",
            "guard 2,000",
            "least thickness 0",
            "least thickness 2,000",
        ],
    ),
    ("listing just past", PAST),
    (
        "kind 7 in",
        &[
            "word 0",
            "word 1",
            "word 2, a table's word",
            "a table's word",
            "a cell's first word",
            "a cell's second word",
            "a term",
        ],
    ),
    ("core of", FLOATS),
    ("level of", FLOATS),
    (
        "levels that differ by",
        &["-1 mm", "0 mm", "20,000 mm", "20,001 mm"],
    ),
    ("19 by", &["no value", "more than 5", "unequal lengths"]),
    (
        "discount where",
        &[
            "D is 0",
            "400 Q is below 9 D D",
            "400 Q is 9 D D",
            "Q is D D",
            "Q is above D D",
            "a root is taken",
        ],
    ),
    (
        "21 by",
        &[
            "T 0",
            "T above 100",
            "no stratum",
            "more than 8 strata",
            "densities without year 0",
            "other densities too few",
            "densities too many",
            "areas too few",
            "areas with a year 0",
            "other areas too many",
            "discounts too few",
            "discounts too many",
        ],
    ),
    (
        "21, all lists right, by",
        &["T 0", "T 101", "no stratum", "9 strata"],
    ),
    (
        "22 by",
        &[
            "10,001",
            "4,294,967,295",
            "a first value",
            "a last value",
            "a value between",
        ],
    ),
    (
        "logged where",
        &[
            "both sides are 0",
            "both sides are equal, above 0",
            "the left side is greater",
            "the left side is just greater",
            "the left side is less",
            "the left side is just less",
            "a rounded average would answer otherwise",
            "an average rounded up would answer otherwise",
            "years 1 to T alone would answer otherwise",
        ],
    ),
    (
        "logged with",
        &[
            "T 1",
            "T 100",
            "1 stratum",
            "8 strata",
            "a density of 10,000",
            "an area of 10,000",
            "a discount of 0",
            "a discount of 10,000",
            "every value the greatest",
            "no area",
            "no density",
            "the average not whole",
            "the strata in another order",
        ],
    ),
    (
        "23 by",
        &[
            "too few days of the first",
            "too many days of the first",
            "too few depths of the first",
            "too many depths of the first",
            "too few tolerances of the first",
            "too many tolerances of the first",
            "three lengths of the first",
            "too few days of the second",
            "too many days of the second",
            "too few depths of the second",
            "too many depths of the second",
            "too few tolerances of the second",
            "too many tolerances of the second",
            "three lengths of the second",
        ],
    ),
    (
        "24 by",
        &[
            "equal days of the first",
            "falling days of the first",
            "equal days of the second",
            "falling days of the second",
        ],
    ),
    ("16 of dips by", READINGS),
    ("17 of dips by", READINGS),
    ("depth or tolerance of", FLOATS),
    (
        "dips with",
        &[
            "both empty",
            "the first empty",
            "the second empty",
            "no day in common",
            "every day in common",
            "a day of one alone between days of the other",
            "day 0",
            "day 4,294,967,295",
            "a recording of more than 1,000 days",
            "none differs",
            "the first pair differs",
            "only a later pair differs",
            "several pairs differ",
            "day 0 differs first",
            "mm that differ by just the tolerances together",
            "mm that differ by 1 mm more",
            "the first deeper where they differ",
            "the second deeper where they differ",
            "metres not rounded would answer otherwise",
        ],
    ),
];

/// The groups that lists from an open and lists from a conversion have for themselves.
pub struct ListGroups {
    pub claims: &'static str,
    /// Of a cell that may lose in a closing: its d, and the wrong rules by which its lines would be otherwise.
    pub d: [&'static str; 2],
    pub balances: &'static str,
    pub payments: &'static str,
    pub lists: &'static str,
}

pub const OPENED: ListGroups = ListGroups {
    claims: "claim asked, opened",
    d: ["d after losses, opened", "otherwise with, opened"],
    balances: "balance at an issue, opened",
    payments: "balance after a payment, opened",
    lists: "list of calls, opened",
};

pub const CONVERTED: ListGroups = ListGroups {
    claims: "claim asked, converted",
    d: ["d after losses, converted", "otherwise with, converted"],
    balances: "balance at an issue, converted",
    payments: "balance after a payment, converted",
    lists: "list of calls, converted",
};

/// The same two groups of d where a book was lent.
pub const LENT: [&str; 2] = ["d after losses, lent", "otherwise with, lent"];

/// The claims of document 01 on a list of calls.
const CLAIMS: &[&str] = &[
    "depth",
    "depth of a cell that lost",
    "kilograms",
    "kilograms of a cell that lost",
    "dry after a fire",
    "issues",
    "issues with tonnes paid",
];

/// As `balance_row` has them.
const BALANCES: &[&str] = &[
    "below 0",
    "0 to 1,000,000 t",
    "to 30,000,000 t",
    "to 149,914,500 t",
    "to 268,435,455 t",
    "to 861,874,500 t",
];

/// No balance from an open is above this: 1,000 cells that burn 2,550 mm, 104,040 tonnes each, and 700 terms of 65,535.
const HIGHEST_OPENED: i128 = 1_000 * 104_040 + 700 * 65_535;

/// No balance at all is above this: a book that is lent or converted may have 20,000 mm burned, 816,000 tonnes, in each.
const HIGHEST: i128 = 1_000 * 816_000 + 700 * 65_535;

/// The class of a balance, by its name in the table.
pub fn balance_row(balance: i128) -> &'static str {
    let row = match balance {
        ..=-1 => 0,
        0..=1_000_000 => 1,
        1_000_001..=30_000_000 => 2,
        30_000_001..=HIGHEST_OPENED => 3,
        _ if balance <= 0x0FFF_FFFF => 4,
        _ => 5,
    };
    assert!(balance <= HIGHEST, "a balance of {balance} t");
    BALANCES[row]
}

/// Balances that fell after tonnes were paid for them.
const PAYMENTS: &[&str] = &[
    "fell below what was paid",
    "fell and rose, not above it",
    "fell and rose above it",
];

/// d of a cell whose O + B is above 0 at the start of the year.
const D_AFTER_LOSSES: &[&str] = &[
    "O alone above 0",
    "B alone above 0",
    "both above 0",
    "above 0",
    "0, as O + B is 10 x the table value",
    "0, as O + B is above 10 x the table value",
    "1 mm",
    "1 mm below the guard",
    "the guard",
    "1 mm above the guard",
    "limits oxidation after a fire",
];

/// As `loss::WRONG_RULES` has them.
const OTHERWISE: &[&str] = &[
    "10 x the table value",
    "O alone taken off",
    "B alone taken off",
    "the absolute difference",
    "the wrapped difference",
    "the year's fire taken off too",
];

/// A reading of two recordings, by the recording that it is in.
const READINGS: &[&str] = &[
    "a depth of the first",
    "a tolerance of the first",
    "a depth of the second",
    "a tolerance of the second",
];

/// A figure of a listing just past an end of its range; `generate::past_range` makes each.
pub const PAST: &[&str] = &[
    "cells 0",
    "cells 1,001",
    "strata 0",
    "strata 17",
    "horizon 0",
    "horizon 101",
    "p 101",
    "G 0",
    "G 101",
    "e 101",
    "guard 2,001",
    "least thickness 2,001",
    "stratum",
    "conversion year",
    "depth 20,001",
    "area 0",
    "area 10,001",
    "density 0",
    "density 2,401",
    "term 0",
    "term 2",
    "term 9",
    "term's year 0",
    "term's year",
];

/// The classes of binary32 numbers; `class` says which a number is in.
const FLOATS: &[&str] = &[
    "0",
    "-0",
    "a subnormal above 0",
    "a subnormal below 0",
    "20",
    "the next below 20",
    "the next above 20",
    "-100",
    "the next below -100",
    "the next above -100",
    "3,000",
    "the next below 3,000",
    "the next above 3,000",
    "infinity",
    "-infinity",
    "a quiet NaN",
    "a signalling NaN",
    "another number",
];

/// The first bit of the fraction, which tells a quiet NaN from a signalling one.
const QUIET: u32 = 1 << 22;

/// The class of a number, by its name in the table.
pub fn class(number: f32) -> &'static str {
    let ends = [(20.0f32, 4), (-100.0, 7), (3_000.0, 10)];
    for (end, row) in ends {
        for (i, neighbour) in [end, end.next_down(), end.next_up()].iter().enumerate() {
            if number == *neighbour {
                return FLOATS[row + i];
            }
        }
    }
    let row = match (number.is_sign_negative(), number.classify()) {
        (false, FpCategory::Zero) => 0,
        (true, FpCategory::Zero) => 1,
        (false, FpCategory::Subnormal) => 2,
        (true, FpCategory::Subnormal) => 3,
        (false, FpCategory::Infinite) => 13,
        (true, FpCategory::Infinite) => 14,
        (_, FpCategory::Nan) if number.to_bits() & QUIET != 0 => 15,
        (_, FpCategory::Nan) => 16,
        (_, FpCategory::Normal) => 17,
    };
    FLOATS[row]
}

/// The counts, group by group.
pub struct Met(Vec<Vec<u64>>);

impl Default for Met {
    fn default() -> Met {
        Met(GROUPS.iter().map(|(_, rows)| vec![0; rows.len()]).collect())
    }
}

impl Met {
    /// Counts a row that the table has.
    pub fn count(&mut self, group: &str, row: &str) {
        let found = GROUPS.iter().position(|(name, _)| *name == group);
        let group = found.unwrap_or_else(|| panic!("{group} is not in the table"));
        let (name, rows) = GROUPS[group];
        let found = rows.iter().position(|name| *name == row);
        let row = found.unwrap_or_else(|| panic!("{name}: {row} is not in the table"));
        self.0[group][row] += 1;
    }

    /// Counts a row where its class is met.
    pub fn count_if(&mut self, is: bool, group: &str, row: &str) {
        if is {
            self.count(group, row);
        }
    }

    /// Counts what a call answered: accepted, or refused by a number.
    pub fn answer(&mut self, call: &str, number: u32) {
        match number {
            0 => self.count(call, "accepted"),
            _ => self.count(call, &number.to_string()),
        }
    }

    pub fn add(&mut self, other: &Met) {
        let counts = self.0.iter_mut().flatten();
        for (count, more) in counts.zip(other.0.iter().flatten()) {
            *count += more;
        }
    }

    /// How many answers were counted: the groups down to that of two recordings are calls.
    pub fn cases(&self) -> u64 {
        let calls = GROUPS.iter().position(|(name, _)| *name == "dips");
        self.0[..=calls.unwrap()].iter().flatten().sum()
    }

    /// The rows that were never met.
    pub fn never(&self) -> Vec<String> {
        let mut never = Vec::new();
        for ((name, rows), counts) in GROUPS.iter().zip(&self.0) {
            let missing = rows.iter().zip(counts).filter(|(_, count)| **count == 0);
            never.extend(missing.map(|(row, _)| format!("{name}: {row}")));
        }
        never
    }
}

impl fmt::Display for Met {
    fn fmt(&self, f: &mut fmt::Formatter) -> fmt::Result {
        for ((name, rows), counts) in GROUPS.iter().zip(&self.0) {
            write!(f, "{name:<36}")?;
            for (i, (row, count)) in rows.iter().zip(counts).enumerate() {
                let comma = if i == 0 { "" } else { ", " };
                write!(f, "{comma}{row}: {count}")?;
            }
            writeln!(f)?;
        }
        Ok(())
    }
}
