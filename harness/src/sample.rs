//! Reading the files of samples/, and the listings worked on paper as they are printed there.
use std::path::PathBuf;

/// What peatrun prints of two years.
macro_rules! two_years {
    ($first:literal, $second:literal, $left:literal) => {
        concat!(
            "year ox burn kg issued\n",
            $first,
            "\n",
            $second,
            "\nleft ",
            $left,
            "\n"
        )
    };
}

pub const WORKED: [u32; 6] = [
    0x10010102, 0x2014190C, 0x3460B554, 0x3460B400, 0x400107D0, 0x527101F4,
];
/// Term 5, year 2, −100 tonnes.
pub const NEGATIVE_TERM: u32 = 0x6505FF9C;

pub const WORKED_TEXT: &str = two_years!("1 45 300 692500 553", "2 45 0 82500 67", "1610");
/// "The listing with 6505FF9C appended: second issue 0."
pub const NEGATIVE_TERM_TEXT: &str = two_years!("1 45 300 692500 553", "2 45 0 82500 0", "1610");

/// Guard 500 and least thickness 300, as word 2 of the worked listing.
pub const SITE_WORD: u32 = 0x707D012C;

pub const SITE_WORD_TEXT: &str = two_years!("1 45 200 489166 391", "2 45 0 82500 65", "1710");

/// Three years, each with a drainage of 45 cm from the surface at conversion: the fire of
/// year 1 leaves the guard, and no later one can.
pub const BENCHMARK: [u32; 7] = [
    0x10010103, 0x2014190C, 0x32D0B554, 0x32D0B554, 0x32D0B554, 0x400107D0, 0x527101F4,
];

pub const BENCHMARK_TEXT: &str = "year ox burn kg issued
1 45 50 184166 147
2 45 0 82500 65
3 45 0 82500 67
left 1815
";

/// The worked listing with that word, or another, as word 2, before the tables.
pub fn with_site_word(word: u32) -> Vec<u32> {
    [&WORKED[..2], &[word], &WORKED[2..]].concat()
}

/// Word 1 of the worked listing with a char percentage of 20.
pub const CHAR_WORD: u32 = 0x2A14190C;

pub const CHAR_TEXT: &str = two_years!("1 45 300 582500 465", "2 45 0 82500 67", "1610");

/// The worked listing with another word in place of one of its own.
pub fn worked_with(place: usize, word: u32) -> Vec<u32> {
    let mut words = WORKED.to_vec();
    words[place] = word;
    words
}

pub fn directory() -> PathBuf {
    PathBuf::from(concat!(env!("CARGO_MANIFEST_DIR"), "/../samples"))
}

/// What peatrun reads: little-endian words.
pub fn bytes(words: &[u32]) -> Vec<u8> {
    words.iter().flat_map(|word| word.to_le_bytes()).collect()
}

/// The words of a companion: eight hexadecimal digits on each line, before its remark.
pub fn words(companion: &str) -> Vec<u32> {
    let lines = companion
        .lines()
        .map(|line| line.split('#').next().unwrap());
    let words = lines.map(str::trim).filter(|word| !word.is_empty());
    words
        .map(|word| {
            assert_eq!(word.len(), 8, "eight digits: {word}");
            u32::from_str_radix(word, 16).expect("hexadecimal digits")
        })
        .collect()
}
