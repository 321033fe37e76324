//! "A list of 32-bit words": their bits, kinds and numbers.

/// Bits `high` to `low` of a word, both included, named as the paper names them ("bits 27–16").
pub fn bits(word: u32, high: u32, low: u32) -> i128 {
    (i128::from(word) >> low) % (1 << (high - low + 1))
}

/// "Bits 31–28 are the kind".
pub fn kind(word: u32) -> i128 {
    bits(word, 31, 28)
}

/// "A number whose bits are not named fills bits 27–0."
pub fn number(word: u32) -> i128 {
    bits(word, 27, 0)
}

/// The word of a kind with a number in bits 27–0.
pub fn word(kind: i128, number: i128) -> u32 {
    let one_of_kind = power_of_two(28);
    assert!((0..one_of_kind).contains(&number));
    (kind * one_of_kind + number).try_into().unwrap()
}

/// 2 to an exponent from 0 on.
pub fn power_of_two(exponent: i128) -> i128 {
    2_i128.pow(exponent.try_into().unwrap())
}

/// A place in a slice as an index.
pub fn index(place: i128) -> usize {
    place.try_into().unwrap()
}

/// The word at a place: "Cells, strata and words count from 0."
pub fn at(words: &[u32], place: i128) -> u32 {
    words[index(place)]
}

/// The length of a slice.
pub fn length<T>(slice: &[T]) -> i128 {
    slice.len().try_into().unwrap()
}
