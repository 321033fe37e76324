//! Two recordings held against each other. Which rows of the table are met is worked out here from the input alone.
use crate::readings::millimetres;
use harness::generate::{self, OwnedRecording, Random};
use harness::met::{class, Met};
use harness::{DipsAnswer, Recording, PROVED, REFERENCE};

pub fn dips(seed: u64, met: &mut Met) {
    let random = &mut Random(seed);
    for _ in 0..200_000 {
        let recordings = generate::recordings(random);
        let [first, second] = recordings.each_ref().map(OwnedRecording::lent);
        let answer = agree(first, second);
        let exchanged = agree(second, first);
        met.answer("dips", answer.number);
        if answer.number == 0 {
            let DipsAnswer {
                paired,
                only_first,
                only_second,
                ..
            } = answer;
            assert_eq!(paired + only_first, first.days.len());
            assert_eq!(paired + only_second, second.days.len());
            let expected = DipsAnswer {
                only_first: only_second,
                only_second: only_first,
                ..answer
            };
            assert_eq!(exchanged, expected);
        } else {
            assert_ne!(exchanged.number, 0);
        }
        count(met, [first, second]);
    }
}

fn agree(first: Recording, second: Recording) -> DipsAnswer {
    let [proved, reference] = [&PROVED, &REFERENCE].map(|ledger| (ledger.dips)(first, second));
    assert_eq!(proved, reference, "{first:?} {second:?}");
    proved
}

const NAMES: [&str; 2] = ["the first", "the second"];

/// What is wrong in a recording, whether or not it is what the call is refused for.
struct Faults {
    lengths_differ: bool,
    /// The index of each day that is not above the one before.
    days: Vec<usize>,
    /// In the order in which they are tried.
    readings: Vec<WrongReading>,
}

struct WrongReading {
    number: u32,
    place: usize,
}

fn faults(recording: Recording) -> Faults {
    let days = recording.days;
    let lengths = [recording.depths.len(), recording.tolerances.len()];
    let does_not_rise = |&place: &usize| days[place] <= days[place - 1];
    let numbers = readings(recording).map(|(place, _, metres)| WrongReading {
        number: number(metres),
        place,
    });
    Faults {
        lengths_differ: lengths != [days.len(); 2],
        days: (1..days.len()).filter(does_not_rise).collect(),
        readings: numbers.filter(|reading| reading.number != 0).collect(),
    }
}

/// Each reading with its place and what it is, in the order in which they are tried.
fn readings(recording: Recording<'_>) -> impl Iterator<Item = (usize, &'static str, f32)> + '_ {
    let dips = recording.depths.iter().zip(recording.tolerances);
    dips.enumerate().flat_map(|(place, (&depth, &tolerance))| {
        [(place, "a depth", depth), (place, "a tolerance", tolerance)]
    })
}

/// The number that a reading is refused by, or 0. -0 is not below 0.
fn number(metres: f32) -> u32 {
    if !metres.is_finite() {
        16
    } else if !(0.0..=20.0).contains(&metres) {
        17
    } else {
        0
    }
}

fn count(met: &mut Met, recordings: [Recording; 2]) {
    let faults = recordings.map(faults);
    let lengths_differ = faults.iter().position(|faults| faults.lengths_differ);
    let days_do_not_rise = faults.iter().position(|faults| !faults.days.is_empty());
    if let Some(which) = lengths_differ {
        count_wrong_lengths(met, recordings[which], NAMES[which]);
        count_beside_23(met, &faults);
    } else if let Some(which) = days_do_not_rise {
        count_wrong_days(met, recordings[which].days, &faults[which], NAMES[which]);
        count_beside_24(met, &faults);
    } else {
        count_readings(met, recordings, &faults);
    }
}

/// Which list has another length than the other two, if these have one length.
fn count_wrong_lengths(met: &mut Met, recording: Recording, name: &str) {
    let lists = ["days", "depths", "tolerances"];
    let lengths = [
        recording.days.len(),
        recording.depths.len(),
        recording.tolerances.len(),
    ];
    for (list, [one, other]) in [[1, 2], [0, 2], [0, 1]].into_iter().enumerate() {
        if lengths[one] == lengths[other] {
            let too = if lengths[list] < lengths[one] {
                "too few"
            } else {
                "too many"
            };
            met.count("23 by", &format!("{too} {} of {name}", lists[list]));
            return;
        }
    }
    met.count("23 by", &format!("three lengths of {name}"));
}

/// Where 23 is answered: whether there is a 24 too.
fn count_beside_23(met: &mut Met, [first, second]: &[Faults; 2]) {
    if !first.days.is_empty() || !second.days.is_empty() {
        met.count("two at once", "23 before 24");
    }
    if !first.lengths_differ && !first.days.is_empty() {
        met.count("two at once", "23 of the second before 24 of the first");
    }
}

/// Of the recording that 24 is answered for.
fn count_wrong_days(met: &mut Met, days: &[u32], faults: &Faults, name: &str) {
    let place = faults.days[0];
    let kind = if days[place] == days[place - 1] {
        "equal"
    } else {
        "falling"
    };
    met.count("24 by", &format!("{kind} days of {name}"));
    if faults.days.len() > 1 {
        met.count("two at once", "24 of several days in a recording");
    }
}

/// Where 24 is answered: whether there is another in the second recording, and a 16 or 17 too.
fn count_beside_24(met: &mut Met, [first, second]: &[Faults; 2]) {
    if !first.days.is_empty() && !second.days.is_empty() {
        met.count("two at once", "24 of the first before 24 of the second");
    }
    if !first.readings.is_empty() || !second.readings.is_empty() {
        met.count("two at once", "24 before 16 or 17");
    }
    if first.days.is_empty() && !first.readings.is_empty() {
        let row = "24 of the second before 16 or 17 of the first";
        met.count("two at once", row);
    }
}

/// The classes of the readings down to the first that is refused, and which that is.
fn count_readings(met: &mut Met, recordings: [Recording; 2], faults: &[Faults; 2]) {
    for (which, recording) in recordings.into_iter().enumerate() {
        for (_, kind, metres) in readings(recording) {
            met.count("depth or tolerance of", class(metres));
            let group = match number(metres) {
                0 => continue,
                16 => "16 of dips by",
                _ => "17 of dips by",
            };
            met.count(group, &format!("{kind} of {}", NAMES[which]));
            count_beside_a_reading(met, &faults[which].readings);
            count_both_wrong(met, faults);
            return;
        }
    }
    count_days(met, recordings.map(|recording| recording.days));
    count_pairs(met, &pairs(recordings));
}

/// Of the recording that 16 or 17 is answered for, by the first of its wrong readings.
fn count_beside_a_reading(met: &mut Met, wrong: &[WrongReading]) {
    let WrongReading { number, place } = wrong[0];
    if number != 17 {
        return;
    }
    let not_finite = wrong.iter().filter(|reading| reading.number == 16);
    let places: Vec<usize> = not_finite.map(|reading| reading.place).collect();
    if places.contains(&place) {
        met.count("two at once", "17 of a depth before 16 of its tolerance");
    }
    if places.iter().any(|&later| later > place) {
        let row = "17 of an earlier dip before 16 of a later one";
        met.count("two at once", row);
    }
}

/// Where both recordings have a wrong reading.
fn count_both_wrong(met: &mut Met, [first, second]: &[Faults; 2]) {
    let (Some(first), Some(second)) = (first.readings.first(), second.readings.first()) else {
        return;
    };
    let row = "16 or 17 of the first before one of the second";
    met.count("two at once", row);
    if second.place < first.place {
        let row = "16 or 17 of the first before a lower index of the second";
        met.count("two at once", row);
    }
}

/// The days of accepted recordings.
fn count_days(met: &mut Met, [first, second]: [&[u32]; 2]) {
    let any_empty = first.is_empty() || second.is_empty();
    let in_common = first.iter().any(|day| second.binary_search(day).is_ok());
    let any = |day| first.contains(&day) || second.contains(&day);
    let rows = [
        (first.is_empty() && second.is_empty(), "both empty"),
        (first.is_empty() && !second.is_empty(), "the first empty"),
        (!first.is_empty() && second.is_empty(), "the second empty"),
        (!any_empty && !in_common, "no day in common"),
        (!any_empty && first == second, "every day in common"),
        (
            is_between(first, second) || is_between(second, first),
            "a day of one alone between days of the other",
        ),
        (any(0), "day 0"),
        (any(u32::MAX), "day 4,294,967,295"),
        (
            first.len() > 1_000 || second.len() > 1_000,
            "a recording of more than 1,000 days",
        ),
    ];
    count_rows(met, &rows);
}

/// Whether the days have one that the others have not, with some of the others before it and some after it.
fn is_between(days: &[u32], others: &[u32]) -> bool {
    let between = |day: &u32| match others.binary_search(day) {
        Ok(_) => false,
        Err(before) => before > 0 && before < others.len(),
    };
    days.iter().any(between)
}

fn count_rows(met: &mut Met, rows: &[(bool, &str)]) {
    for (is_met, row) in rows {
        if *is_met {
            met.count("dips with", row);
        }
    }
}

/// The two dips of a day that is in both recordings.
struct Pair {
    day: u32,
    depths: [f32; 2],
    tolerances: [f32; 2],
}

/// The pairs of two recordings whose days rise.
fn pairs([first, second]: [Recording; 2]) -> Vec<Pair> {
    let mut pairs = Vec::new();
    for (place, &day) in first.days.iter().enumerate() {
        if let Ok(other) = second.days.binary_search(&day) {
            pairs.push(Pair {
                day,
                depths: [first.depths[place], second.depths[other]],
                tolerances: [first.tolerances[place], second.tolerances[other]],
            });
        }
    }
    pairs
}

impl Pair {
    /// How many mm the first dip is deeper than the second.
    fn deeper(&self) -> i64 {
        let [first, second] = self.depths.map(millimetres);
        first - second
    }

    /// By how many mm they differ beyond the tolerances together: 0 at the limit, above 0 where they differ.
    fn beyond(&self) -> i64 {
        let [first, second] = self.tolerances.map(millimetres);
        self.deeper().abs() - (first + second)
    }

    /// The same in metres that are not rounded, but for the rounding of f64, which is far below a millionth of a mm.
    fn metres_beyond(&self) -> f64 {
        let [first, second] = self.depths.map(f64::from);
        let [first_tolerance, second_tolerance] = self.tolerances.map(f64::from);
        (first - second).abs() - (first_tolerance + second_tolerance)
    }

    fn has_tolerances(&self) -> bool {
        self.tolerances.map(millimetres).iter().all(|&mm| mm > 0)
    }

    /// Whether the metres would answer otherwise than the mm, and not by the rounding of f64.
    fn is_decided_by_rounding(&self) -> bool {
        let beyond = self.metres_beyond();
        beyond.abs() > 1e-9 && (beyond > 0.0) != (self.beyond() > 0)
    }
}

/// The pairs of accepted recordings. Those at the limit, or decided by rounding, are counted only where no earlier pair
/// differs, and at the limit only with both tolerances above 0 mm.
fn count_pairs(met: &mut Met, pairs: &[Pair]) {
    let differing = pairs.iter().filter(|pair| pair.beyond() > 0).count();
    let place = pairs.iter().position(|pair| pair.beyond() > 0);
    let deciding = &pairs[..place.map_or(pairs.len(), |place| place + 1)];
    let any = |holds: fn(&Pair) -> bool| deciding.iter().any(holds);
    let rows = [
        (!pairs.is_empty() && differing == 0, "none differs"),
        (place == Some(0), "the first pair differs"),
        (
            differing > 0 && place != Some(0),
            "only a later pair differs",
        ),
        (differing > 1, "several pairs differ"),
        (
            any(|pair| pair.beyond() == 0 && pair.has_tolerances()),
            "mm that differ by just the tolerances together",
        ),
        (
            any(|pair| pair.beyond() == 1 && pair.has_tolerances()),
            "mm that differ by 1 mm more",
        ),
        (
            any(Pair::is_decided_by_rounding),
            "metres not rounded would answer otherwise",
        ),
    ];
    count_rows(met, &rows);
    if let Some(place) = place {
        count_first_that_differs(met, &pairs[place]);
    }
}

fn count_first_that_differs(met: &mut Met, pair: &Pair) {
    let deeper = pair.deeper();
    let rows = [
        (pair.day == 0, "day 0 differs first"),
        (deeper > 0, "the first deeper where they differ"),
        (deeper < 0, "the second deeper where they differ"),
    ];
    count_rows(met, &rows);
}
