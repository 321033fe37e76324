//! A cell's losses of a year from plain numbers: by the rule, and by rules that it could be mistaken for.
use crate::site::Row;

/// How d is counted; all but the first are wrong.
#[derive(Clone, Copy, PartialEq)]
pub enum Rule {
    /// 10 times the table value less O + B at the start of the year, or 0 if that is negative.
    Benchmark,
    /// 10 times the table value, whatever was lost.
    YearsSurface,
    OxidisedAlone,
    BurnedAlone,
    /// Not stopped at 0.
    Absolute,
    Wrapped,
    /// For oxidation the year's own fire is taken off once more.
    FireToo,
}

/// The wrong rules, by their rows in the table of what was met.
pub const WRONG_RULES: [(Rule, &str); 6] = [
    (Rule::YearsSurface, "10 x the table value"),
    (Rule::OxidisedAlone, "O alone taken off"),
    (Rule::BurnedAlone, "B alone taken off"),
    (Rule::Absolute, "the absolute difference"),
    (Rule::Wrapped, "the wrapped difference"),
    (Rule::FireToo, "the year's fire taken off too"),
];

/// A cell that may lose, at the start of a year: its row, the guard, its entered depth, and O and B, in mm.
#[derive(Clone, Copy, Debug)]
pub struct CellYear {
    pub row: Row,
    pub guard: u32,
    pub entered: u32,
    pub oxidised: u32,
    pub burned: u32,
}

impl CellYear {
    pub fn lost(&self) -> u32 {
        self.oxidised + self.burned
    }

    pub fn remaining(&self) -> u32 {
        self.entered - self.lost()
    }

    /// How far the water of the year is below the surface at conversion.
    pub fn level(&self) -> u32 {
        10 * self.row.drainage
    }

    pub fn d(&self, rule: Rule) -> u32 {
        let level = self.level();
        match rule {
            Rule::Benchmark | Rule::FireToo => level.saturating_sub(self.lost()),
            Rule::YearsSurface => level,
            Rule::OxidisedAlone => level.saturating_sub(self.oxidised),
            Rule::BurnedAlone => level.saturating_sub(self.burned),
            Rule::Absolute => level.abs_diff(self.lost()),
            Rule::Wrapped => level.wrapping_sub(self.lost()),
        }
    }

    /// Oxidised and burned mm of the year.
    pub fn losses(&self, rule: Rule) -> [u32; 2] {
        let d = self.d(rule);
        let above_the_guard = d.saturating_sub(self.guard);
        let burned = self.row.burning.min(self.remaining()).min(above_the_guard);
        let once_more = if rule == Rule::FireToo { burned } else { 0 };
        let dry = (d - burned).saturating_sub(once_more);
        let oxidised = self.row.oxidation.min(self.remaining() - burned).min(dry);
        [oxidised, burned]
    }
}
