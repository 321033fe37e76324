//! The reference: the peat ledger in plain Rust, to be read beside document 01 ("the paper"), and
//! "Guard and thickness as site figures", "Logged blocks", "Char left after a fire", "A faster
//! forecast", "Hand dips held against the logger", "Drainage from the benchmark" and "A thousand
//! cells" of document 02.
//! Document 02 is quoted on the site word, its guard and least thickness, on all of logged blocks,
//! with the draft methodology's EQ34 and EQ48, on the char percentage, the emission to date and
//! what a cell's kilogram lines add up to, on the forecast's last total and what its numbers add up
//! to, on all of hand dips, on a cell's d in a year, with the surface it counts from and the water
//! that a fire leaves the guard dry above, and on how many cells the head allows, the book's words
//! of kind 9 and its length, the program's limit, the conversion of a book of the old shape, and a
//! list of calls that starts from a converted book; all else that is quoted is the paper's. The
//! paper's book is the old shape, and its limit of cells is no longer in force.
//!
//! It is written from these alone and shares no code with the other implementations, only the types
//! of the answers. Words are converted to i128 when read, and back when written.
//! In the order of the paper:
//!
//! - `words`: bits, kinds and numbers of a word;
//! - `listing`: "Project listing", with the char percentage, the site word and the cells that the
//!   head allows of document 02;
//! - `year`: "A cell's year", with a cell's d in a year and the emission to date of document 02;
//! - `book`, `lines`, `calls`, `balance`: "Book and calls", and the forecast, with the last total,
//!   the new shape of the book and the conversion of document 02;
//! - `history`: "Lists of calls", with a cell's d in a year and the converted book of document 02;
//! - `stops`: "Where a call stops", and the numbers of document 02's "Logged blocks", "Hand dips
//!   held against the logger" and "A thousand cells";
//! - `readings`, `discount`, `program`: "Forecast, readings, discount, program";
//! - `logging`: "Logged blocks" of document 02;
//! - `dips`: "Hand dips held against the logger" of document 02.

mod balance;
mod book;
mod calls;
mod dips;
mod discount;
mod history;
mod lines;
mod listing;
mod logging;
mod program;
mod readings;
mod stops;
mod words;
mod year;

pub use calls::{close, convert, forecast, issue, open, replan, statement, withdraw};
pub use dips::dips;
pub use discount::discount;
pub use history::{Fire, History};
pub use listing::guard;
pub use logging::logged;
pub use program::program;
pub use readings::depth;
