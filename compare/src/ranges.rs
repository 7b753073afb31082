//! Request 12: a state that is known only within ranges. A lowest and a highest value go through each sweep, between
//! which the values of the solve are for every state inside the ranges.

use crate::image::{Number, Problem, bytes, open, words};
use crate::rules::Rules;
use crate::solve::{held, read_start, read_target};

/// The lowest values, then the highest.
pub type Ends = [Vec<i64>; 2];

/// The end of a list of values: 0 for the lowest, 1 for the highest.
pub const LOWEST: usize = 0;
pub const HIGHEST: usize = 1;
pub const BOTH: [usize; 2] = [LOWEST, HIGHEST];

pub fn opposite(end: usize) -> usize {
    1 - end
}

/// The undivided products of a row's lowest sum, or of its highest: a negative factor takes the opposite end.
pub fn products_at(row: &[i64], values: &Ends, end: usize) -> impl Iterator<Item = i128> {
    let value = move |i: usize, factor: i64| values[if factor < 0 { opposite(end) } else { end }][i];
    row.iter().enumerate().map(move |(i, &factor)| i128::from(factor) * i128::from(value(i, factor)))
}

/// All that a sweep carries, at both ends.
pub struct Carried<'a> {
    problem: &'a Problem,
    /// h.
    pub linear: Ends,
    pub t: Ends,
    pub z: Ends,
    pub y: Ends,
}

impl<'a> Carried<'a> {
    /// The inputs are the state, then the target, which has the same value at both ends.
    pub fn new(problem: &'a Problem, inputs: &Ends, start: &[i64]) -> Carried<'a> {
        let both = || [start.to_vec(), start.to_vec()];
        let mut carried = Carried { problem, linear: both(), t: both(), z: both(), y: both() };
        carried.linear = BOTH.map(|end| problem.gains.rows().map(|row| carried.sum(row, inputs, end)).collect());
        carried
    }

    fn down(&self, value: i128) -> i64 {
        (value >> self.problem.sizes.bits) as i64
    }

    /// A product of the y step, rounded down by itself.
    pub fn product(&self, factor: i64, value: i64) -> i64 {
        self.down(i128::from(factor) * i128::from(value))
    }

    /// A row of M y, or of h, at one end: rounded down once, at the highest end too.
    pub fn sum(&self, row: &[i64], values: &Ends, end: usize) -> i64 {
        self.down(products_at(row, values, end).sum())
    }

    pub fn step(&mut self) {
        let (problem, n) = (self.problem, self.problem.sizes.commands());
        // What is taken off is largest where the rest is least.
        let t = |end: usize, k: usize| self.sum(&problem.descent[k], &self.y, end) - self.linear[opposite(end)][k];
        self.t = BOTH.map(|end| (0..n).map(|k| t(end, k)).collect());
        let z = |end: usize, k: usize| held(self.t[end][k], (problem.lower[k], problem.upper[k]));
        let new = BOTH.map(|end| (0..n).map(|k| z(end, k)).collect());
        let old: Ends = std::mem::replace(&mut self.z, new);
        self.y = BOTH.map(|end| (0..n).map(|k| self.point(self.z[end][k], old[opposite(end)][k])).collect());
    }

    /// y: a new low with an old high, or the reverse.
    fn point(&self, new: i64, old: i64) -> i64 {
        let momentum = self.problem.momentum;
        self.product(self.problem.sizes.one() + momentum, new) - self.product(momentum, old)
    }

    /// The answer: the lowest commands, then the highest.
    pub fn bytes(&self) -> Vec<u8> {
        self.z.each_ref().map(|commands| bytes(commands)).concat()
    }
}

/// Without bounds and without D.
pub fn answer_len(commands: usize) -> usize {
    8 * commands
}

/// Number 13, in the place that it has in a solve: nx lows and then nx highs, no low above its high, and every end within
/// the state's limit.
pub fn read_ranges(problem: &Problem, ranges: &[u8]) -> Result<Ends, Number> {
    let states = problem.sizes.states;
    if ranges.len() != 8 * states {
        return Err(13);
    }
    let [lows, highs] = ends_of(ranges);
    let fits = |i: usize| {
        let limit = problem.input_limits[i];
        lows[i] <= highs[i] && lows[i].abs() <= limit && highs[i].abs() <= limit
    };
    if (0..states).all(fits) { Ok([lows, highs]) } else { Err(13) }
}

/// The words of ranges, or of an answer, whose length is right.
pub fn ends_of(bytes: &[u8]) -> Ends {
    let (lows, highs) = bytes.split_at(bytes.len() / 2);
    [words(lows), words(highs)]
}

/// The ranges with the target behind them at both ends.
pub fn with_target(ranges: Ends, target: &[i64]) -> Ends {
    ranges.map(|state| [&state, target].concat())
}

/// The exported range solve, of an image, ranges, a target and a start.
pub fn range_call(lent: [&[u8]; 4], out_len: usize, rules: Rules) -> Result<Vec<u8>, Number> {
    let [image, ranges, target, start] = lent;
    let problem = open(image, rules)?;
    let ranges = read_ranges(&problem, ranges)?;
    let inputs = with_target(ranges, &read_target(&problem, target)?);
    let start = read_start(&problem, start)?;
    if out_len != answer_len(start.len()) {
        return Err(15);
    }
    let mut carried = Carried::new(&problem, &inputs, &start);
    (0..problem.sizes.iterations).for_each(|_| carried.step());
    Ok(carried.bytes())
}
