//! "Lists of calls", and of document 02 a list that starts from a converted book: the four claims
//! of demand 3, read off what was returned and off the listing, never off the book; what a
//! converted book brings is read off the book of the old shape that was converted.

use super::balance::balance;
use super::book::{current_year, entry, issued, OLD_SHAPE};
use super::lines::read_lines;
use super::listing::{cells, conversion_year, entered_depth, guard};
use super::words::index;
use super::year::{d_of_year, emission, is_converted};
use crate::Account;

/// What a list of calls has returned since the open or the conversion it starts from, what a
/// converted book brings counting as returned before.
pub struct History {
    listing: Vec<u32>,
    /// Accepted closings, with a converted book's current year as that many.
    closings: u32,
    /// What is known of each cell.
    of_cells: Vec<OfCell>,
    /// The answers of all issues, added, with the issued tonnes of a converted book as one of them.
    tonnes_issued: i128,
    /// The highest balance met at an issue, with the issued tonnes of a converted book as one met;
    /// none before the first issue of an opened one.
    highest_balance: Option<i128>,
}

/// A cell's plan year, and the sums of the lines returned for it, or brought as such.
struct OfCell {
    plan_year: i128,
    oxidised: i128,
    burned: i128,
    kilograms: i128,
}

/// A burned line above 0: what stayed dry after the fire, in mm, "above the water of its own year".
pub struct Fire {
    pub cell: usize,
    pub stayed_dry: i128,
}

impl History {
    /// "The list starts from the book as an accepted open wrote it." Nothing is returned, and a
    /// cell's plan year is "the listing's".
    pub fn opened(listing: &[u32]) -> History {
        let nothing = |cell: i128| OfCell {
            plan_year: conversion_year(listing, cell),
            oxidised: 0,
            burned: 0,
            kilograms: 0,
        };
        History {
            listing: listing.to_vec(),
            closings: 0,
            of_cells: (0..cells(listing)).map(nothing).collect(),
            tonnes_issued: 0,
            highest_balance: None,
        }
    }

    /// "A list of calls may start from a converted book too, as an accepted conversion wrote it,
    /// and then takes that conversion's listing." `old` is the book that was converted. "The O, B,
    /// their emission and the issued tonnes that it brings then count as lines and an issue handed
    /// out before, and its issued tonnes as a balance met there. Its current year counts as that
    /// many accepted closings, its plan years stand in for the listing's".
    ///
    /// "the margin is asked of the fires that follow": a B that it brings is no fire.
    pub fn converted(listing: &[u32], old: &[u32]) -> History {
        let brought = |cell: i128| {
            let entry = entry(OLD_SHAPE, old, cell);
            OfCell {
                plan_year: entry.plan_year,
                oxidised: entry.oxidised,
                burned: entry.burned,
                kilograms: emission(listing, cell, entry.oxidised, entry.burned),
            }
        };
        History {
            listing: listing.to_vec(),
            closings: current_year(old).try_into().unwrap(),
            of_cells: (0..cells(listing)).map(brought).collect(),
            tonnes_issued: issued(OLD_SHAPE, old),
            highest_balance: Some(issued(OLD_SHAPE, old)),
        }
    }

    /// "A cell's lines are the numbers that each accepted closing leaves for it in the lines
    /// buffer." "A cell burned in a year if its burned line is above 0. What stayed dry after the
    /// fire is d of that year less this line", and that d goes by "O + B at the start of that
    /// year": a cell's lines are added to its sums only after its fire.
    pub fn closed(&mut self, lines: &[u32]) -> Vec<Fire> {
        self.closings += 1;
        let mut fires = Vec::new();
        for cell in 0..cells(&self.listing) {
            let line = read_lines(lines, cell);
            if line.burned > 0 {
                let stayed_dry = self.d(cell) - line.burned;
                fires.push(Fire {
                    cell: index(cell),
                    stayed_dry,
                });
            }
            let sums = &mut self.of_cells[index(cell)];
            sums.oxidised += line.oxidised;
            sums.burned += line.burned;
            sums.kilograms += line.kilograms;
        }
        fires
    }

    /// d of the year last closed, asked before this year's lines of the cell are added to its sums.
    /// "O, B .. are the sums of these lines", and "O + B at the start of that year" are the lines
    /// of the years before; "where the plan year is 0 or above the year, d counts as 0".
    fn d(&self, cell: i128) -> i128 {
        let year = i128::from(self.closings);
        let sums = &self.of_cells[index(cell)];
        if is_converted(sums.plan_year, year) {
            let lost = sums.oxidised + sums.burned;
            d_of_year(&self.listing, cell, sums.plan_year, year, lost)
        } else {
            0
        }
    }

    /// "A cell's plan year in it is that of the cell's last accepted replan before that closing",
    /// and until its first one the listing's, or the converted book's.
    pub fn replanned(&mut self, cell: usize, year: u32) {
        self.of_cells[cell].plan_year = i128::from(year);
    }

    /// "Tonnes issued are the answers of all issues." Answers "the balance at an issue": "with the
    /// count of accepted closings before it as the current year and the kg lines handed out before
    /// it as kg to date".
    pub fn issued(&mut self, tonnes: u32) -> i128 {
        let kilograms = self.of_cells.iter().map(|sums| sums.kilograms).sum();
        let balance = balance(&self.listing, i128::from(self.closings), kilograms);
        self.tonnes_issued += i128::from(tonnes);
        self.highest_balance = self.highest_balance.max(Some(balance));
        balance
    }

    /// "the count of accepted closings" so far, a converted book's current year counting "as that
    /// many".
    pub fn closings(&self) -> u32 {
        self.closings
    }

    /// Guard: "After a fire at least the listing's guard then stays dry", and "A fire still leaves
    /// the guard dry above the water of its own year."
    pub fn guard_holds(&self, fire: &Fire) -> bool {
        fire.stayed_dry >= guard(&self.listing)
    }

    /// Depth: the statement after the list is accepted, and what it says remains, with all
    /// oxidised and burned lines returned for the cell, or brought as such, makes its entered depth.
    pub fn depth_holds(&self, cell: usize, account: &Account) -> bool {
        let sums = &self.of_cells[cell];
        let entered = entered_depth(&self.listing, cell.try_into().unwrap());
        let remaining = i128::from(account.remaining);
        account.number == 0 && remaining + sums.oxidised + sums.burned == entered
    }

    /// Kilograms: "a cell's kilogram lines still add up to this emission of its two sums", with
    /// "them as O and B".
    pub fn kilograms_hold(&self, cell: usize) -> bool {
        let sums = &self.of_cells[cell];
        let place = cell.try_into().unwrap();
        sums.kilograms == emission(&self.listing, place, sums.oxidised, sums.burned)
    }

    /// Issues: all tonnes issued together are the highest balance met at an issue, or 0 where no
    /// issue met a balance above 0; what a converted book brings as issued is among both.
    pub fn issues_hold(&self) -> bool {
        self.tonnes_issued == self.highest_balance.unwrap_or(0).max(0)
    }
}
