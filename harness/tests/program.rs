//! The program peatrun, run as a user would: samples, bad input, and random listings beside the reference.
use harness::generate::{self, Random};
use harness::{reference, sample};
use std::fs;
use std::io::Write;
use std::process::{Command, Output, Stdio};

const PEATRUN: &str = concat!(env!("CARGO_MANIFEST_DIR"), "/../crates/peatrun/out/peatrun");

fn run(command: &mut Command, input: &[u8]) -> Output {
    let command = command.stdout(Stdio::piped()).stderr(Stdio::piped());
    let mut child = command
        .spawn()
        .expect("run `rt run` in crates/peatrun first");
    if let Some(mut stdin) = child.stdin.take() {
        // A program that has read enough may leave; what it printed is looked at below.
        let _ = stdin.write_all(input);
    }
    child.wait_with_output().unwrap()
}

/// What it prints on standard output, with nothing on standard error and status 0.
fn peatrun(input: &[u8]) -> String {
    let output = run(Command::new(PEATRUN).stdin(Stdio::piped()), input);
    assert_eq!(output.status.code(), Some(0));
    assert_eq!(String::from_utf8(output.stderr).unwrap(), "");
    String::from_utf8(output.stdout).unwrap()
}

/// A read or a write that fails: one line on standard error, nothing on standard output, status 0.
fn says_on_standard_error(said: &str, command: &mut Command, input: &[u8]) {
    let output = run(command, input);
    assert_eq!(output.status.code(), Some(0));
    assert_eq!(String::from_utf8(output.stdout).unwrap(), "");
    assert_eq!(String::from_utf8(output.stderr).unwrap(), said);
}

#[test]
fn samples() {
    let mut count = 0;
    for file in fs::read_dir(sample::directory()).expect("samples/") {
        let path = file.unwrap().path();
        if path.extension().is_some_and(|ending| ending == "bin") {
            let expected = fs::read_to_string(path.with_extension("expected")).unwrap();
            let printed = peatrun(&fs::read(&path).unwrap());
            assert_eq!(printed, expected, "{}", path.display());
            count += 1;
        }
    }
    assert!(count >= 18);
}

#[test]
fn failed_reads() {
    let said = "peatrun: standard input cannot be read\n";
    // A shell closes standard input; Command can only redirect it.
    let mut closed = Command::new("sh");
    says_on_standard_error(said, closed.args(["-c", "exec \"$0\" <&-", PEATRUN]), &[]);
    let directory = fs::File::open(sample::directory()).unwrap();
    says_on_standard_error(said, Command::new(PEATRUN).stdin(directory), &[]);
}

/// A full disk and a closed output, for a table and for each answer that is none.
#[test]
fn failed_writes() {
    let said = "peatrun: standard output cannot be written\n";
    for name in ["three-cells", "refused-4", "odd-bytes", "too-long"] {
        let input = fs::read(sample::directory().join(format!("{name}.bin"))).unwrap();
        for script in ["exec \"$0\" > /dev/full", "exec \"$0\" >&-"] {
            let mut shell = Command::new("sh");
            let command = shell.args(["-c", script, PEATRUN]).stdin(Stdio::piped());
            says_on_standard_error(said, command, &input);
        }
    }
}

#[test]
fn lengths() {
    let words = sample::bytes(&generate::largest().words());
    assert_eq!(peatrun(&[]), "refused 1 0\n");
    for length in 1..=3 {
        assert_eq!(peatrun(&words[..length]), "odd bytes\n");
    }
    assert_eq!(peatrun(&words[..4]), "refused 1 0\n");
    assert_eq!(words.len(), 17_212);
    assert_eq!(peatrun(&words[..17_211]), "odd bytes\n");
    // A term less, and the limit of earlier releases, which ends within the cells.
    for length in [17_208, 11_260] {
        let shorter = &words[..length];
        assert_eq!(peatrun(shorter), reference::program(shorter));
    }
    assert_eq!(peatrun(&words), reference::program(&words));
    assert_eq!(peatrun(&[0; 17_212]), "refused 2 0\n");
    for length in [17_213, 17_214, 17_216, 300_000] {
        assert_eq!(peatrun(&vec![0; length]), "too long\n");
    }
}

/// A head of 1,000 cells, which the tests of lengths has too, and of one cell more.
#[test]
fn most_cells() {
    let mut words = generate::largest().words();
    assert_eq!(words[0], 0x13E8_1064);
    assert!(peatrun(&sample::bytes(&words)).starts_with("year "));
    words[0] = 0x13E9_1064;
    assert_eq!(peatrun(&sample::bytes(&words)), "refused 2 0\n");
}

/// The greatest lines: 1,000 cells of 20,000 mm, which burn 1,023 mm a year down to 2,550, with a guard of 0. Each mm of
/// them all emits 40,800,000 kg, and nothing is withheld.
#[test]
fn greatest_lines() {
    let head = [0x13E8_0104, 0x2000_6464, 0x7000_012C];
    let rows = [0x3FF0_03FF; 4];
    let cells = [0x4001_4E20, 0x5271_0960].repeat(1_000);
    let words = [&head[..], &rows, &cells].concat();
    let text = "year ox burn kg issued
1 0 1023000 41738400000 41738400
2 0 1023000 41738400000 41738400
3 0 504000 20563200000 20563200
4 0 0 0 0
left 17450000
";
    assert_eq!(peatrun(&sample::bytes(&words)), text);
}

/// A site word that is out of range, a first row taken for one, and a word 1 of its kind.
#[test]
fn refused_site_words() {
    let refused = [
        (sample::with_site_word(0x707D_07D1), "refused 4 2\n"),
        (sample::worked_with(2, 0x7460_B554), "refused 3 6\n"),
        (sample::worked_with(1, 0x7014_190C), "refused 2 1\n"),
    ];
    for (words, text) in refused {
        assert_eq!(peatrun(&sample::bytes(&words)), text);
    }
}

/// Input that comes in small parts is read to its end.
#[test]
fn input_in_parts() {
    let mut parts = Command::new("sh");
    let script = "{ head -c 5; sleep 0.1; cat; } | \"$0\"";
    parts.args(["-c", script, PEATRUN]).stdin(Stdio::piped());
    let output = run(&mut parts, &sample::bytes(&sample::WORKED));
    assert_eq!(
        String::from_utf8(output.stdout).unwrap(),
        sample::WORKED_TEXT
    );
}

/// What peatrun prints for random listings, good and damaged; how often it begins with each text is counted.
#[test]
fn random_listings() {
    let mut random = Random(8);
    let beginnings = [
        "year ",
        "refused 1 ",
        "refused 2 ",
        "refused 3 ",
        "refused 4 ",
        "refused 5 ",
    ];
    let mut met = [0; 6];
    for round in 0..1_000 {
        let mut words = match round % 6 {
            0 => {
                let count = random.below(60);
                random.words(count)
            }
            _ => generate::any_site(&mut random).words(),
        };
        if round % 2 == 1 {
            generate::damage(&mut random, &mut words);
        }
        let input = sample::bytes(&words);
        let expected = reference::program(&input);
        assert_eq!(peatrun(&input), expected, "{words:08X?}");
        let beginning = beginnings
            .iter()
            .position(|text| expected.starts_with(text));
        met[beginning.expect("a table or a refusal by 1 to 5")] += 1;
    }
    assert!(met.iter().all(|&count| count > 0), "{met:?}");
}
