//! The rule of drainage from the surface at conversion, class by class.
use harness::loss::{CellYear, Rule, WRONG_RULES};
use harness::met::Met;
use harness::site::{Row, Site};

/// The row of a cell's age in a year; none where its plan year is 0 or above the year.
pub fn row_of_year(site: &Site, cell: usize, plan: u32, year: u32) -> Option<Row> {
    let table = &site.tables[site.cells[cell].stratum as usize];
    let age = year.checked_sub(plan).filter(|_| plan > 0);
    age.map(|age| table[age as usize])
}

/// Why a cell may lose nothing in a year, by its row in the table of what was met.
pub fn inactive(
    site: &Site,
    cell: usize,
    withdrawn: bool,
    plan: u32,
    year: u32,
) -> Option<&'static str> {
    let (entered, thickness) = (site.cells[cell].entered, site.thickness());
    match (withdrawn, plan) {
        (true, _) => Some("withdrawn"),
        (_, 0) => Some("plan year 0"),
        _ if plan > year => Some("plan year ahead"),
        _ if entered < 300.min(thickness) => Some("not peat"),
        _ if entered < thickness => Some("not peat at 300 mm or more"),
        _ => None,
    }
}

/// Of a cell that may lose, with the oxidised and burned mm that were handed out: its d, and the wrong rules by which
/// they would be otherwise, in these two groups.
pub fn count_d(met: &mut Met, [of_d, otherwise]: [&str; 2], year: &CellYear, lines: [u32; 2]) {
    assert_eq!(year.losses(Rule::Benchmark), lines, "{year:?}");
    for (rule, row) in WRONG_RULES {
        met.count_if(year.losses(rule) != lines, otherwise, row);
    }
    if year.lost() == 0 {
        return;
    }
    let (d, guard, burned) = (year.d(Rule::Benchmark), year.guard, lines[1]);
    let others = year.row.oxidation.min(year.remaining() - burned);
    for (is, row) in [
        (year.burned == 0, "O alone above 0"),
        (year.oxidised == 0, "B alone above 0"),
        (year.oxidised > 0 && year.burned > 0, "both above 0"),
        (d > 0, "above 0"),
        (
            year.level() == year.lost(),
            "0, as O + B is 10 x the table value",
        ),
        (
            year.level() < year.lost(),
            "0, as O + B is above 10 x the table value",
        ),
        (d == 1, "1 mm"),
        (d + 1 == guard, "1 mm below the guard"),
        (d == guard && guard > 0, "the guard"),
        (d == guard + 1 && guard > 0, "1 mm above the guard"),
        (
            burned > 0 && d - burned < others,
            "limits oxidation after a fire",
        ),
    ] {
        met.count_if(is, of_d, row);
    }
}
