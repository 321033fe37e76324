//! Logged blocks. Which rows of the table are met is worked out here from the input alone.
use harness::generate::{self, LoggedBlocks, Random};
use harness::met::Met;
use harness::{Ledger, LoggedAnswer, PROVED, REFERENCE};

pub fn logged_blocks(seed: u64, met: &mut Met) {
    let random = &mut Random(seed);
    for _ in 0..200_000 {
        let blocks = generate::logged_blocks(random);
        let [proved, reference] = [&PROVED, &REFERENCE].map(|ledger| answer(ledger, &blocks));
        assert_eq!(proved, reference, "{blocks:?}");
        let reversed = reversed(&blocks);
        assert_eq!(answer(&PROVED, &reversed), reference, "{reversed:?}");
        met.answer("logged", reference.number);
        if reference.number == 0 && reversed.discounts != blocks.discounts {
            met.count("logged with", "the strata in another order");
        }
        count(met, &blocks);
    }
}

fn answer(ledger: &Ledger, blocks: &LoggedBlocks) -> LoggedAnswer {
    let LoggedBlocks {
        years,
        strata,
        densities,
        areas,
        discounts,
    } = blocks;
    (ledger.logged)(*years, *strata, densities, areas, discounts)
}

/// The same with the last stratum first, in all three lists.
fn reversed(blocks: &LoggedBlocks) -> LoggedBlocks {
    let mut reversed = blocks.clone();
    let strata = blocks.strata.clamp(1, 8) as usize;
    for list in [
        &mut reversed.densities,
        &mut reversed.areas,
        &mut reversed.discounts,
    ] {
        list.chunks_mut(strata).for_each(<[u32]>::reverse);
    }
    reversed
}

fn count(met: &mut Met, blocks: &LoggedBlocks) {
    let lists = [&blocks.densities, &blocks.areas, &blocks.discounts];
    let is_refused = |list: &&Vec<u32>| list.iter().any(|&value| value > 10_000);
    let refused: Vec<usize> = (0..3).filter(|&place| is_refused(&lists[place])).collect();
    if let Some(row) = wrong_tables(blocks) {
        met.count("21 by", row);
        count_sizes(met, blocks);
        if !refused.is_empty() {
            met.count("two at once", "21 before 22");
        }
    } else if let Some(&place) = refused.first() {
        met.count("22 at", ["place 0", "place 1", "place 2"][place]);
        count_values(met, lists[place]);
        if refused.len() > 1 {
            met.count("two at once", "22 in several lists");
        }
    } else {
        count_sides(met, blocks);
        count_limits(met, blocks);
    }
}

/// The first condition of 21 that is met, in the order of the rows.
fn wrong_tables(blocks: &LoggedBlocks) -> Option<&'static str> {
    let lists = [&blocks.densities, &blocks.areas, &blocks.discounts];
    let [densities, areas, discounts] = lists.map(|list| list.len() as u64);
    let (t, strata) = (u64::from(blocks.years), u64::from(blocks.strata));
    // No product passes 64 bits: (2^32 - 1) × 2^32 is below 2^64.
    let (without_year_0, with_year_0) = (t * strata, (t + 1) * strata);
    let conditions = [
        (t == 0, "T 0"),
        (t > 100, "T above 100"),
        (strata == 0, "no stratum"),
        (strata > 8, "more than 8 strata"),
        (densities == without_year_0, "densities without year 0"),
        (densities < with_year_0, "other densities too few"),
        (densities > with_year_0, "densities too many"),
        (areas < without_year_0, "areas too few"),
        (areas == with_year_0, "areas with a year 0"),
        (areas > without_year_0, "other areas too many"),
        (discounts < strata, "discounts too few"),
        (discounts > strata, "discounts too many"),
    ];
    let first = conditions.iter().find(|(is_met, _)| *is_met);
    first.map(|(_, row)| *row)
}

/// T and the number of strata just past an end of their ranges, where every list is as long as they ask.
fn count_sizes(met: &mut Met, blocks: &LoggedBlocks) {
    let lists = [&blocks.densities, &blocks.areas, &blocks.discounts];
    let (t, strata) = (u64::from(blocks.years), u64::from(blocks.strata));
    if lists.map(|list| list.len() as u64) != [(t + 1) * strata, t * strata, strata] {
        return;
    }
    let row = match (t, strata) {
        (0, 1..=8) => "T 0",
        (101, 1..=8) => "T 101",
        (1..=100, 0) => "no stratum",
        (1..=100, 9) => "9 strata",
        _ => return,
    };
    met.count("21, all lists right, by", row);
}

/// Of the list that 22 is answered for, where one value alone is above 10,000.
fn count_values(met: &mut Met, list: &[u32]) {
    let above = |&place: &usize| list[place] > 10_000;
    let places: Vec<usize> = (0..list.len()).filter(above).collect();
    let [place] = places[..] else { return };
    match list[place] {
        10_001 => met.count("22 by", "10,001"),
        u32::MAX => met.count("22 by", "4,294,967,295"),
        _ => {}
    }
    let row = match place {
        0 => "a first value",
        last if last + 1 == list.len() => "a last value",
        _ => "a value between",
    };
    met.count("22 by", row);
}

/// Both sides and the average, each times 10,000 × T, so that all are whole. The right side is at most 8 × 10^6 ha times
/// 808 × 10^8, which 64 bits hold, and the left side at most 8 × 10^6 ha times 100 × 10^8.
struct Sides {
    left: u64,
    right: u64,
    average: u64,
    average_without_year_0: u64,
    area: u64,
    /// 10,000 × T.
    whole: u64,
}

fn sides(blocks: &LoggedBlocks) -> Sides {
    let strata = blocks.strata as usize;
    let discounts = blocks.discounts.iter().cycle();
    let pairs = blocks.densities.iter().zip(discounts);
    let products: Vec<u64> = pairs
        .map(|(&density, &discount)| u64::from(density) * u64::from(discount))
        .collect();
    let t = u64::from(blocks.years);
    let from_year_1 = &products[strata..];
    let areas = blocks.areas.iter().map(|&area| u64::from(area));
    let left: u64 = areas.clone().zip(from_year_1).map(|(a, p)| a * p).sum();
    let (area, average) = (areas.sum::<u64>(), products.iter().sum::<u64>());
    Sides {
        left: t * left,
        right: area * average,
        average,
        average_without_year_0: from_year_1.iter().sum(),
        area,
        whole: 10_000 * t,
    }
}

/// Which side is greater. Just greater or less is by less than a tenth of a t C on each ha, which is the unit of the
/// average.
fn count_sides(met: &mut Met, blocks: &LoggedBlocks) {
    let sides = sides(blocks);
    let (left, right) = (sides.left, sides.right);
    let just = left.abs_diff(right) < sides.area * sides.whole;
    let row = match left.cmp(&right) {
        std::cmp::Ordering::Equal if left == 0 => "both sides are 0",
        std::cmp::Ordering::Equal => "both sides are equal, above 0",
        std::cmp::Ordering::Greater if just => "the left side is just greater",
        std::cmp::Ordering::Greater => "the left side is greater",
        std::cmp::Ordering::Less if just => "the left side is just less",
        std::cmp::Ordering::Less => "the left side is less",
    };
    met.count("logged where", row);
    let Sides { average, whole, .. } = sides;
    let others = [
        (
            average / whole * whole,
            "a rounded average would answer otherwise",
        ),
        (
            average.div_ceil(whole) * whole,
            "an average rounded up would answer otherwise",
        ),
        (
            sides.average_without_year_0,
            "years 1 to T alone would answer otherwise",
        ),
    ];
    for (other, row) in others {
        if (left >= sides.area * other) != (left >= right) {
            met.count("logged where", row);
        }
    }
    if average % whole != 0 {
        met.count("logged with", "the average not whole");
    }
}

/// The limits that accepted lists are at.
fn count_limits(met: &mut Met, blocks: &LoggedBlocks) {
    let (densities, areas) = (&blocks.densities, &blocks.areas);
    let discounts = &blocks.discounts;
    let all = |list: &[u32], value| list.iter().all(|&v| v == value);
    let greatest = [densities, areas, discounts].map(|list| all(list, 10_000));
    let (t, strata) = (blocks.years, blocks.strata);
    let limits = [
        (t == 1, "T 1"),
        (t == 100, "T 100"),
        (strata == 1, "1 stratum"),
        (strata == 8, "8 strata"),
        (densities.contains(&10_000), "a density of 10,000"),
        (areas.contains(&10_000), "an area of 10,000"),
        (discounts.contains(&0), "a discount of 0"),
        (discounts.contains(&10_000), "a discount of 10,000"),
        (
            t == 100 && strata == 8 && greatest == [true; 3],
            "every value the greatest",
        ),
        (all(areas, 0), "no area"),
        (all(densities, 0), "no density"),
    ];
    for (is_met, row) in limits {
        if is_met {
            met.count("logged with", row);
        }
    }
}
