//! The files of samples/: companions against the bytes, expected texts against the reference and what was worked on paper.
use harness::sample::{
    with_site_word, worked_with, BENCHMARK, BENCHMARK_TEXT, CHAR_TEXT, CHAR_WORD, NEGATIVE_TERM,
    NEGATIVE_TERM_TEXT, SITE_WORD, SITE_WORD_TEXT, WORKED, WORKED_TEXT,
};
use harness::{reference, sample};
use std::fs;
use std::path::Path;
use std::process::{Command, Output};

fn read(name: &str, ending: &str) -> Vec<u8> {
    let path = sample::directory().join(format!("{name}.{ending}"));
    fs::read(&path).unwrap_or_else(|error| panic!("{}: {error}", path.display()))
}

fn text(name: &str, ending: &str) -> String {
    String::from_utf8(read(name, ending)).expect("plain text")
}

/// All names, each of which has exactly its three files.
fn names() -> Vec<String> {
    let files = fs::read_dir(sample::directory()).expect("samples/");
    let files: Vec<String> = files
        .map(|file| file.unwrap().file_name().into_string().unwrap())
        .collect();
    let names = files.iter().filter_map(|file| file.strip_suffix(".bin"));
    let names: Vec<String> = names.map(String::from).collect();
    assert_eq!(files.len(), 3 * names.len(), "{files:?}");
    names
}

#[test]
fn companions_say_the_bytes() {
    for name in names() {
        let (bytes, companion) = (read(&name, "bin"), text(&name, "txt"));
        assert!(companion.starts_with("# "), "{name} is not explained");
        let words = sample::words(&companion);
        if bytes.len().is_multiple_of(4) {
            assert_eq!(sample::bytes(&words), bytes, "{name}");
        } else {
            assert!(words.is_empty(), "{name}");
        }
    }
}

/// The converter of docs/GUIDE.md.
fn convert(text: &Path, more: &[&str]) -> Output {
    let converter = concat!(env!("CARGO_MANIFEST_DIR"), "/../tools/text-to-listing");
    let command = &mut Command::new(converter);
    command.arg(text).args(more).output().expect("perl")
}

#[test]
fn the_converter_makes_the_bytes() {
    for name in names() {
        let bytes = read(&name, "bin");
        if bytes.len().is_multiple_of(4) {
            let text = sample::directory().join(format!("{name}.txt"));
            let converted = convert(&text, &[]);
            assert!(converted.status.success(), "{name}");
            assert_eq!(converted.stdout, bytes, "{name}");
        }
    }
    let three_cells = sample::directory().join("three-cells.txt");
    let shown = String::from_utf8(convert(&three_cells, &["--place", "8"]).stdout).unwrap();
    assert!(shown.ends_with(
        "line 15: 41010BB8 # cell 0: stratum 1, conversion year 1, entered depth 3000 mm\n"
    ));
}

/// Each line that is neither a word, a remark nor empty is reported by its number, and nothing is converted.
#[test]
fn the_converter_complains() {
    let good = "# a remark\n\n  10010102\r\n2014190c # lower case, and a remark\n";
    let bad = [
        (
            "3460B55",
            "'3460B55' has 7 hexadecimal digits, and a word has 8",
        ),
        (
            "3460B5540",
            "'3460B5540' has 9 hexadecimal digits, and a word has 8",
        ),
        (
            "3460B55G",
            "'3460B55G' is not a word of 8 hexadecimal digits, and a remark begins with #",
        ),
        (
            "stratum 0",
            "'stratum' is not a word of 8 hexadecimal digits, and a remark begins with #",
        ),
        (
            "3460B554 age 1",
            "only a remark may follow a word, and a remark begins with #",
        ),
        (
            "3460B554,3460B400",
            "'3460B554,3460B400' is not a word of 8 hexadecimal digits, and a remark begins with #",
        ),
    ];
    let path = Path::new(env!("CARGO_TARGET_TMPDIR")).join("site.txt");
    fs::write(&path, good).unwrap();
    let converted = convert(&path, &[]);
    assert_eq!(converted.stdout, sample::bytes(&sample::WORKED[..2]));
    for (line, reason) in bad {
        fs::write(&path, format!("{good}{line}\n")).unwrap();
        let refused = convert(&path, &[]);
        assert_eq!(refused.status.code(), Some(1), "{line}");
        assert!(refused.stdout.is_empty(), "{line}");
        let expected = format!("{} line 5: {reason}\n", path.display());
        assert_eq!(String::from_utf8(refused.stderr).unwrap(), expected);
    }
}

#[test]
fn the_reference_gives_the_expected_text() {
    for name in names() {
        let printed = reference::program(&read(&name, "bin"));
        assert_eq!(printed, text(&name, "expected"), "{name}");
    }
}

#[test]
fn worked_ones_are_those_worked_on_paper() {
    let with_term = [&WORKED[..], &[NEGATIVE_TERM]].concat();
    let worked = [
        ("worked", WORKED.to_vec(), WORKED_TEXT),
        ("worked-negative-term", with_term, NEGATIVE_TERM_TEXT),
        (
            "worked-site-word",
            with_site_word(SITE_WORD),
            SITE_WORD_TEXT,
        ),
        ("worked-char", worked_with(1, CHAR_WORD), CHAR_TEXT),
        ("worked-benchmark", BENCHMARK.to_vec(), BENCHMARK_TEXT),
    ];
    for (name, words, printed) in worked {
        assert_eq!(read(name, "bin"), sample::bytes(&words));
        assert_eq!(text(name, "expected"), printed);
    }
}

/// Tables taken as made for the old rule and restated give what they gave by it: these texts are what
/// three-cells and thin-peat printed before. Of thin-peat the table as it was gives another.
#[test]
fn restated_tables_keep_the_lines() {
    let three_cells = "year ox burn kg issued\n1 40 100 332000 325\n2 80 300 908000 407\n3 70 0 154000 163\nleft 4660\n";
    assert_eq!(text("three-cells-restated", "expected"), three_cells);
    let thin_peat = "year ox burn kg issued\n1 30 150 390720 331\n2 30 170 434749 370\nleft 1519\n";
    assert_eq!(text("thin-peat-restated", "expected"), thin_peat);
    assert_ne!(text("thin-peat", "expected"), thin_peat);
}

#[test]
fn each_refusal_of_a_listing_has_its_sample() {
    for number in 1..=5 {
        let expected = text(&format!("refused-{number}"), "expected");
        assert!(expected.starts_with(&format!("refused {number} ")));
    }
    assert_eq!(text("empty", "expected"), "refused 1 0\n");
    assert_eq!(text("too-long", "expected"), "too long\n");
    assert_eq!(text("odd-bytes", "expected"), "odd bytes\n");
    assert_eq!(text("refused-4-site-word", "expected"), "refused 4 2\n");
    assert_eq!(read("largest", "bin").len(), 17_212);
    assert_eq!(read("too-long", "bin").len(), 17_213);
}
