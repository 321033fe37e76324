//! The proved calls over their C interface, the reference to compare them with, and what the tests need.
pub mod baseline;
pub mod generate;
pub mod loss;
pub mod met;
pub mod proved;
pub mod reference;
pub mod sample;
pub mod site;
pub mod timed;

/// What a call answers: number 0 is accepted, else the number and place of document 01's table.
#[repr(C)]
#[derive(Clone, Copy, Debug, Default, PartialEq, Eq)]
pub struct Answer {
    pub number: u32,
    pub value: u32,
    pub place: usize,
}

/// What a statement answers; every figure is 0 where it is refused.
#[repr(C)]
#[derive(Clone, Copy, Debug, Default, PartialEq, Eq)]
pub struct Account {
    pub number: u32,
    pub place: usize,
    pub entered: u32,
    pub remaining: u32,
    pub oxidised: u32,
    pub burned: u32,
    pub kg: u32,
    pub plan_year: u32,
    pub withdrawn: bool,
}

/// What a forecast answers: the kg to date of all cells after the last year; 0 where it is refused.
#[repr(C)]
#[derive(Clone, Copy, Debug, Default, PartialEq, Eq)]
pub struct Total {
    pub number: u32,
    pub place: usize,
    pub total: u64,
}

/// What the test of logged blocks answers; where it is refused, `average` is 0 and `holds` false.
#[repr(C)]
#[derive(Clone, Copy, Debug, Default, PartialEq, Eq)]
pub struct LoggedAnswer {
    pub number: u32,
    pub place: usize,
    pub average: u32,
    pub holds: bool,
}

/// What two recordings held against each other answer; `day` is 0 where none differs. Where they are refused, every
/// count is 0, `differs` false and `day` 0, and `place` is an index in one of the two.
#[repr(C)]
#[derive(Clone, Copy, Debug, Default, PartialEq, Eq)]
pub struct DipsAnswer {
    pub number: u32,
    pub place: usize,
    pub paired: usize,
    pub only_first: usize,
    pub only_second: usize,
    pub differs: bool,
    pub day: u32,
}

/// A recording of a well: for each dip its day number, each above the one before, its depth and its tolerance, 0 to 20
/// metres.
#[derive(Clone, Copy, Debug)]
pub struct Recording<'a> {
    pub days: &'a [u32],
    pub depths: &'a [f32],
    pub tolerances: &'a [f32],
}

/// A field reading in metres.
#[derive(Clone, Copy, Debug)]
pub enum Reading {
    Core(f32),
    Levels(f32, f32),
    Missing,
}

/// Half-widths of the first class and of the second, then their stocks.
type Discount = fn(&[u32], &[u32], &[u32], &[u32]) -> Answer;

/// T and the number of strata; carbon densities, areas and discounts.
type Logged = fn(u32, u32, &[u32], &[u32], &[u32]) -> LoggedAnswer;

/// The calls of one implementation, so that tests can run either in the same way.
pub struct Ledger {
    pub open: fn(&[u32], &mut [u32]) -> Answer,
    /// The old book, then the new one.
    pub convert: fn(&[u32], &[u32], &mut [u32]) -> Answer,
    pub close: fn(&[u32], &mut [u32], &mut [u32]) -> Answer,
    pub replan: fn(&[u32], &mut [u32], usize, u32) -> Answer,
    pub withdraw: fn(&[u32], &mut [u32], usize) -> Answer,
    pub issue: fn(&[u32], &mut [u32]) -> Answer,
    pub statement: fn(&[u32], &[u32], usize) -> Account,
    pub forecast: fn(&[u32], &mut [u32], &mut [u64]) -> Total,
    pub depth: fn(Reading) -> Answer,
    pub discount: Discount,
    pub logged: Logged,
    pub dips: fn(Recording, Recording) -> DipsAnswer,
}

pub const PROVED: Ledger = Ledger {
    open: proved::open,
    convert: proved::convert,
    close: proved::close,
    replan: proved::replan,
    withdraw: proved::withdraw,
    issue: proved::issue,
    statement: proved::statement,
    forecast: proved::forecast,
    depth: proved::depth,
    discount: proved::discount,
    logged: proved::logged,
    dips: proved::dips,
};

pub const REFERENCE: Ledger = Ledger {
    open: reference::open,
    convert: reference::convert,
    close: reference::close,
    replan: reference::replan,
    withdraw: reference::withdraw,
    issue: reference::issue,
    statement: reference::statement,
    forecast: reference::forecast,
    depth: reference::depth,
    discount: reference::discount,
    logged: reference::logged,
    dips: reference::dips,
};
