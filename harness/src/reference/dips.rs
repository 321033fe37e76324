//! "Hand dips held against the logger" of document 02, each day looked up in the other recording;
//! all that is quoted here is document 02's.
//!
//! "Each recording is a list of day numbers (32-bit), depths and tolerances (binary32 metres, both
//! read as core depths)." A recording may be empty.

use super::readings::millimetres;
use super::stops::{
    days_not_rising, dip_not_finite, dip_out_of_range, lists_differ_in_length, stop,
};
use super::words::{at, index, length};
use crate::{Answer, DipsAnswer, Recording};

/// "A dip carries its depth and its tolerance in metres."
struct Dip {
    depth: f32,
    tolerance: f32,
}

/// The dip at an index, from 0 on, of a recording.
fn dip(recording: Recording, place: i128) -> Dip {
    Dip {
        depth: recording.depths[index(place)],
        tolerance: recording.tolerances[index(place)],
    }
}

/// The dip of a day that the recording has; its days rise strictly, so that it is the only one.
fn dip_of_day(recording: Recording, day: u32) -> Dip {
    let place = (0..length(recording.days)).find(|&place| at(recording.days, place) == day);
    dip(recording, place.expect("a paired day is in both"))
}

/// Whether a recording has a day.
fn has_day(recording: Recording, day: u32) -> bool {
    recording.days.contains(&day)
}

/// "Days present in both are paired." They rise, as those of the first recording do.
fn paired_days(first: Recording, second: Recording) -> Vec<u32> {
    let mut days = Vec::new();
    for &day in first.days {
        if has_day(second, day) {
            days.push(day);
        }
    }
    days
}

/// The days of a recording that are only in it, and not in the other.
fn days_only_in(recording: Recording, other: Recording) -> Vec<u32> {
    let mut days = Vec::new();
    for &day in recording.days {
        if !has_day(other, day) {
            days.push(day);
        }
    }
    days
}

/// Of a paired day, "whose mm differ by more than the two tolerances in mm together": depths and
/// tolerances are whole mm, each rounded down by itself.
fn differ(first: Dip, second: Dip) -> bool {
    let difference = (millimetres(first.depth) - millimetres(second.depth)).abs();
    let together = millimetres(first.tolerance) + millimetres(second.tolerance);
    difference > together
}

/// "the day number of the first paired day whose mm differ by more .., if there is one"
fn first_day_that_differs(first: Recording, second: Recording) -> Option<u32> {
    paired_days(first, second)
        .into_iter()
        .find(|&day| differ(dip_of_day(first, day), dip_of_day(second, day)))
}

/// Where a depth or a tolerance stops: "A reading that is not finite or out of range gives 16 or
/// 17, place its index."
fn stop_number(metres: f32, place: i128) -> Result<(), Answer> {
    stop(16, dip_not_finite(metres, place))?;
    stop(17, dip_out_of_range(metres, place))
}

/// Where the readings of a recording stop: "Readings are tried one after the other, .. by index, a
/// depth before its tolerance."
fn stop_readings(recording: Recording) -> Result<(), Answer> {
    for place in 0..length(recording.days) {
        let dip = dip(recording, place);
        stop_number(dip.depth, place)?;
        stop_number(dip.tolerance, place)?;
    }
    Ok(())
}

/// Where the call stops: 23 "checked first"; 24 "the first recording before the second, before any
/// reading"; then readings, "the first recording before the second".
fn stop_dips(first: Recording, second: Recording) -> Result<(), Answer> {
    stop(23, lists_differ_in_length(first))?;
    stop(23, lists_differ_in_length(second))?;
    stop(24, days_not_rising(first))?;
    stop(24, days_not_rising(second))?;
    stop_readings(first)?;
    stop_readings(second)
}

/// "The result has the number of paired days, of days only in the first and of days only in the
/// second, and the day number of the first paired day" that differs; where none does, `differs` is
/// false and `day` 0.
pub fn dips(first: Recording, second: Recording) -> DipsAnswer {
    if let Err(Answer { number, place, .. }) = stop_dips(first, second) {
        return DipsAnswer {
            number,
            place,
            ..DipsAnswer::default()
        };
    }
    let paired = length(&paired_days(first, second));
    let only_first = length(&days_only_in(first, second));
    let only_second = length(&days_only_in(second, first));
    assert_adds_up(first, paired, only_first);
    assert_adds_up(second, paired, only_second);
    let day = first_day_that_differs(first, second);
    DipsAnswer {
        number: 0,
        place: 0,
        paired: index(paired),
        only_first: index(only_first),
        only_second: index(only_second),
        differs: day.is_some(),
        day: day.unwrap_or(0),
    }
}

/// "Paired plus only-first equals the first list's length, and the same for the second."
fn assert_adds_up(recording: Recording, paired: i128, only_in_it: i128) {
    assert_eq!(paired + only_in_it, length(recording.days));
}
