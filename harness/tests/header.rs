//! include/peat.h, by a C program: nothing else holds the header to the library.
use std::path::Path;
use std::process::Command;

/// The figures are document 01's, "Worked on paper"; 6 words are needed for the book, and 5 for an old one. 775000 are
/// the kg of the two years. The first old book goes on from year 1 as the book above it would, 620 − 553 = 67 t; the
/// second has more issued than that balance. A new book's word 2 is of kind 9, and an old one's of kind 10. The last
/// forecast is of 50 cells that burn 2,550 mm less the guard of 400, each of 40,800 kg, and more than 32 bits hold. Of
/// logged blocks the average is 200 / 2, and 10 × 50 + 30 × 150 is more than 40 × 100. Dips are paired of days 4 and 7,
/// both 500 mm apart, with tolerances of 250 + 250 and of 250 + 125 mm; day 3 at place 3 is not above day 5.
const EXPECTED: &str = "\
open 6 5 0
0 0 0: D000002D E000012C F00A9114, 553 t
replan 12, withdraw 0
statement 0 0: 2000 1655 45 300 692500 1 1
forecast 0 0 775000: 692500 82500
forecast 15 1 0
convert 0 0 0: 80000001 90000000 90000229 A0000001 B000002D C000012C
0 0: D000002D E0000000 F0014244, 67 t
convert 0 0 0: 80000002 90000000 9FFFFFFF A0000101 B000005A C000012C
0, 0 t
convert 6 4, 6 5, 8 2
forecast 0 0 4386000000
depths 699 2250, missing 18
discount 8499
logged 0 0: 100 1, without year 0 21
dips 0 0: 2 3 4, 1 7
dips 0 0: 2 4 3, 1 7
dips 24 3: 0 0 0, 0 0
";

#[test]
fn a_c_program_gets_the_worked_figures() {
    let root = Path::new(env!("CARGO_MANIFEST_DIR")).join("..");
    let program = Path::new(env!("CARGO_TARGET_TMPDIR")).join("header");
    let compiled = Command::new("cc")
        .args(["-std=c99", "-Wall", "-Wextra", "-pedantic", "-Werror"])
        .arg("-I")
        .arg(root.join("include"))
        .arg(root.join("harness/tests/header.c"))
        .arg(root.join("crates/capi/out/libcapi.a"))
        .arg("-o")
        .arg(&program)
        .status()
        .expect("a C compiler, cc");
    assert!(compiled.success());
    let output = Command::new(&program).output().unwrap();
    assert!(output.status.success());
    assert_eq!(String::from_utf8(output.stdout).unwrap(), EXPECTED);
}
