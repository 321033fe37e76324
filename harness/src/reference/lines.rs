//! Close: "three line words per cell into the lines buffer (kind 13 oxidised, 14 burned, 15 kg)".

use super::words::{at, index, number, word};

/// Line words of each cell.
const CELL_WORDS: i128 = 3;

/// A cell's lines of a year: mm oxidised, mm burned and kg CO2e.
pub struct Lines {
    pub oxidised: i128,
    pub burned: i128,
    pub kilograms: i128,
}

/// The words of a lines buffer of so many cells: "3 × cells words".
pub fn lines_words(cells: i128) -> i128 {
    CELL_WORDS * cells
}

/// Writes a cell's three line words.
pub fn write_lines(buffer: &mut [u32], cell: i128, lines: &Lines) {
    let place = index(CELL_WORDS * cell);
    buffer[place] = word(13, lines.oxidised);
    buffer[place + 1] = word(14, lines.burned);
    buffer[place + 2] = word(15, lines.kilograms);
}

/// "the numbers that each accepted closing leaves for it in the lines buffer"
pub fn read_lines(buffer: &[u32], cell: i128) -> Lines {
    let place = CELL_WORDS * cell;
    Lines {
        oxidised: number(at(buffer, place)),
        burned: number(at(buffer, place + 1)),
        kilograms: number(at(buffer, place + 2)),
    }
}
