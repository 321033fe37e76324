//! Readings of every class of binary32 numbers.
use harness::generate::{self, Random};
use harness::met::{class, Met};
use harness::{Answer, Reading, PROVED, REFERENCE};

fn depth(met: &mut Met, reading: Reading) -> Answer {
    let answer = (PROVED.depth)(reading);
    assert_eq!(answer, (REFERENCE.depth)(reading), "{reading:?}");
    match reading {
        Reading::Core(core) => {
            met.count("core of", class(core));
            met.answer("core", answer.number);
        }
        Reading::Levels(surface, base) => {
            met.answer("levels", answer.number);
            count_levels(met, surface, base, answer);
        }
        Reading::Missing => met.answer("missing", answer.number),
    }
    let row = ["place 0", "place 1", "place 2"][answer.place];
    match answer.number {
        16 => met.count("16 at", row),
        17 => met.count("17 at", row),
        _ => {}
    }
    answer
}

/// Of a finite number of metres. 24 bits times 1,000 fit the 53 bits of an f64.
pub fn millimetres(metres: f32) -> i64 {
    (f64::from(metres) * 1_000.0).floor() as i64
}

/// The classes of both levels, unless the surface alone decided, and differences at the ends of their range.
fn count_levels(met: &mut Met, surface: f32, base: f32, answer: Answer) {
    met.count("level of", class(surface));
    if answer.number != 0 && answer.place == 0 {
        return;
    }
    met.count("level of", class(base));
    if answer.number != 0 && answer.place == 1 {
        return;
    }
    match millimetres(surface) - millimetres(base) {
        -1 => met.count("levels that differ by", "-1 mm"),
        0 => met.count("levels that differ by", "0 mm"),
        20_000 => met.count("levels that differ by", "20,000 mm"),
        20_001 => met.count("levels that differ by", "20,001 mm"),
        _ => {}
    }
}

/// Each sign and exponent with the mantissas at its ends, then random ones.
pub fn readings(seed: u64, met: &mut Met) {
    let mantissas = [
        0, 1, 2, 0x33_3333, 0x3F_FFFF, 0x40_0000, 0x7F_FFFE, 0x7F_FFFF,
    ];
    for sign_and_exponent in 0..512u32 {
        for mantissa in mantissas {
            let metres = f32::from_bits(sign_and_exponent << 23 | mantissa);
            depth(met, Reading::Core(metres));
            for other in [0.0, -0.0, 12.5, -100.0, 3_000.0, 3_000.5, f32::NAN, metres] {
                depth(met, Reading::Levels(metres, other));
                depth(met, Reading::Levels(other, metres));
            }
        }
    }
    let random = &mut Random(seed);
    for _ in 0..400_000 {
        depth(met, generate::reading(random));
    }
}

/// Each float next to a whole mm of a core, from both sides.
pub fn cores_next_to_whole_millimetres(_: u64, met: &mut Met) {
    for millimetres in 0..=20_001u32 {
        let nearest = (f64::from(millimetres) / 1_000.0) as f32;
        for metres in [nearest.next_down(), nearest, nearest.next_up()] {
            let answer = depth(met, Reading::Core(metres));
            if answer.number == 0 {
                // Exact: both sides have at most 53 bits.
                let thousandfold = f64::from(metres) * 1_000.0;
                assert!(f64::from(answer.value) <= thousandfold);
                assert!(thousandfold < f64::from(answer.value + 1));
            }
        }
    }
}
