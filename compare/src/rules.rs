//! Where a false economy departs from the rules of document 01 and requests 1, 3, 4, 5, 6 and 7; those of requests
//! 2 and 8 change the page and D alone, those of requests 9 to 11 what is done to a made drive, and those of request 12
//! have ways of their own.

use crate::image::{Problem, Sizes};

/// Where a command's limits count.
#[derive(Clone, Copy, PartialEq, Eq)]
pub enum Use {
    /// Number 7.
    Crossing,
    /// Number 17.
    Stop,
    /// zb.
    Magnitude,
    /// w in Y.
    Spread,
    /// Number 14.
    Start,
    Sweep,
    /// w in the error bound.
    Bound,
    /// The held step of D.
    Distance,
}

/// The command whose limits stand in for those of a command.
pub type Other = fn(usize, &Sizes) -> usize;

/// A row's products, undivided: those of M y with those of h, or of A with those of B.
pub struct Row {
    pub commands: Vec<i128>,
    pub states: Vec<i128>,
    pub targets: Vec<i128>,
    pub bits: u32,
}

/// The terms of one of a row's sums, in their order.
pub type Terms = fn(&mut Row) -> Vec<&mut i128>;

/// How often a loop adds the term of an index, given the number of terms.
pub type Times = fn(usize, usize) -> i128;

/// The word of a double, or None for 5.
pub type Conversion = fn(u64, &Sizes) -> Option<i64>;

/// The default is the papers' rules.
#[derive(Clone, Copy, Default)]
pub struct Rules {
    pub round_toward_zero: bool,
    pub momentum_from_unclamped: bool,
    pub y_rounded_once: bool,
    pub first_q_is_one: bool,
    pub width_left_out: bool,
    pub target_limit_below_zero: bool,
    /// Another conversion for the lines of some kinds.
    pub other_conversion: Option<(&'static [u8], Conversion)>,
    /// Another c of n and of nx + nr.
    pub other_c: Option<fn(usize, usize) -> usize>,
    /// Another loop over the terms of a sum, in the row that `other_t` is given.
    pub other_loop: Option<(Terms, Times)>,
    /// Another t of a row's products.
    pub other_t: Option<fn(&Row) -> i128>,
    /// Another test of a command's low and high for 17.
    pub other_stop: Option<fn(&Problem, (i64, i64)) -> bool>,
    /// Another A + B of a row, behind the tests of P and Y.
    pub other_headroom: Option<fn(&Problem, usize) -> i128>,
    /// Another command's limits in some uses.
    pub other_limits: Option<(&'static [Use], Other)>,
}
