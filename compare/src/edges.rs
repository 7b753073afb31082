//! The edges of check 12 by request 4: images whose B comes to any undivided sum, and a look at the edge where an image
//! lies. And such a look for check 17, and for the numbers of tables.

use crate::double::{Rounding, is_count, to_word};
use crate::draft::Draft;
use crate::generate::beside;
use crate::image::{COST, GAIN, Number, Problem, STATE_LIMIT, Sizes, TABLES, TARGET_GAIN, TARGET_LIMIT, excludes_zero};
use crate::random::Random;
use crate::rules::Use;

/// Puts a row at the last sum of B that passes, or a little below it. False where the inputs can't come to it.
pub fn reach(random: &mut Random, draft: &mut Draft) -> bool {
    let row = random.below(draft.sizes.commands());
    let less = random.magnitude(draft.sizes.one());
    let sum = room(draft, row) - random.pick(&[0, 0, 1, less]) as i128;
    put_sum(random, draft, row, sum)
}

/// Puts a row just beyond that sum, most often by 1.
pub fn pass(random: &mut Random, draft: &mut Draft) -> bool {
    let row = random.below(draft.sizes.commands());
    let more = 1 + random.magnitude(draft.sizes.one());
    let sum = room(draft, row) + random.pick(&[1, 1, 1, more]) as i128;
    put_sum(random, draft, row, sum)
}

/// Puts a row so far beyond it that 64 bits do not hold the sum, or just do; cut to them it would often pass.
pub fn overflow(random: &mut Random, draft: &mut Draft) -> bool {
    let row = random.below(draft.sizes.commands());
    let (room, most) = (room(draft, row), most_sum(&draft.sizes));
    let part = random.between(0, room as i64) as i128;
    let mut sums = vec![most];
    for whole in [1i128 << 63, 1 << 64, 1 << 65, 3 << 64] {
        sums.extend([whole - 1, whole, whole + part, whole + room, whole - part]);
    }
    sums.retain(|&sum| (1 << 62..=most).contains(&sum));
    !sums.is_empty() && {
        let sum = random.pick(&sums);
        put_sum(random, draft, row, sum)
    }
}

/// What A leaves for B in a row, undivided. P and Y are at most top.
fn room(draft: &Draft, row: usize) -> i128 {
    let problem = draft.problem();
    let points = problem.point_bounds().expect("the draft is accepted");
    let [a, _] = problem.headroom_sums(row, &points);
    (draft.sizes.top() as i128 - problem.up(a)) << draft.sizes.bits
}

fn inputs(sizes: &Sizes) -> usize {
    sizes.states + sizes.targets
}

/// What all inputs but one can come to.
fn most_sum(sizes: &Sizes) -> i128 {
    (inputs(sizes) as i128 - 1) * (sizes.top() as i128).pow(2)
}

/// Sets all inputs anew, so that a row's B comes to this sum; the other rows take no part in them. One input, which has
/// limit 1, makes up for what the products of the others leave.
fn put_sum(random: &mut Random, draft: &mut Draft, row: usize, sum: i128) -> bool {
    if sum > most_sum(&draft.sizes) {
        return false;
    }
    draft.section(GAIN).fill(0);
    draft.section(TARGET_GAIN).fill(0);
    let top = draft.sizes.top() as i128;
    let mut columns: Vec<usize> = (0..inputs(&draft.sizes)).collect();
    let last = columns.swap_remove(random.below(columns.len()));
    let mut rest = sum;
    while !columns.is_empty() {
        let column = columns.swap_remove(random.below(columns.len()));
        // What the columns to come can't take.
        let least = (rest - columns.len() as i128 * top * top).max(0);
        let least_limit = over(least, top).max(1);
        let limits =
            [random.between(least_limit, top as i64), least_limit + random.magnitude(top as i64 - least_limit)];
        let limit = random.pick(&limits);
        let most_gain = (rest / limit as i128).min(top) as i64;
        let least_gain = if columns.is_empty() { most_gain } else { over(least, limit as i128) };
        let gain = random.between(least_gain, most_gain);
        put_input(draft, row, column, gain * random.sign(), limit);
        rest -= gain as i128 * limit as i128;
    }
    put_input(draft, row, last, rest as i64 * random.sign(), 1);
    true
}

/// Rounded up.
fn over(value: i128, divisor: i128) -> i64 {
    ((value + divisor - 1) / divisor) as i64
}

fn put_input(draft: &mut Draft, row: usize, column: usize, gain: i64, limit: i64) {
    let Sizes { states, targets, .. } = draft.sizes;
    let (table, columns, limits, column) = match column.checked_sub(states) {
        None => (GAIN, states, STATE_LIMIT, column),
        Some(column) => (TARGET_GAIN, targets, TARGET_LIMIT, column),
    };
    draft.section(table)[row * columns + column] = gain;
    draft.section(limits)[column] = limit;
}

/// The edges of check 12 that a run has to meet.
const SUM_EDGES: [&str; 9] = [
    "accepted, A + B is top",
    "accepted, A is 0 and B undivided top × 2^b",
    "12, A + B is top + 1",
    "12, A is 0 and B undivided top × 2^b + 1",
    "12, A and B rounded up together would pass",
    "12, B would pass in signed 64 bits",
    "12, B with targets would pass in signed 64 bits",
    "12, B would pass in unsigned 64 bits",
    "12, B with targets would pass in unsigned 64 bits",
];

/// Those of check 17.
const ZERO_EDGES: [&str; 8] = [
    "accepted, zero at a low limit",
    "accepted, zero at a high limit",
    "accepted, zero at both limits",
    "accepted, zero at a limit of every command",
    "17, a single low of 1",
    "17, a single high of -1",
    "17, the first command of several alone",
    "17, the last command of several alone",
];

pub fn all() -> impl Iterator<Item = &'static str> {
    SUM_EDGES.into_iter().chain(ZERO_EDGES)
}

/// The edges where the image of a solve with this number lies.
pub fn of_problem(problem: &Problem, number: Number) -> Vec<&'static str> {
    match number {
        0 => [of_sums(problem), of_limits(problem)].concat(),
        12 => of_sums(problem),
        17 => of_limits(problem),
        _ => Vec::new(),
    }
}

/// Those of some edges that hold.
pub fn met<const N: usize>(edges: [&'static str; N], holds: [bool; N]) -> Vec<&'static str> {
    edges.into_iter().zip(holds).filter(|(_, holds)| *holds).map(|(edge, _)| edge).collect()
}

/// For an image that is accepted or 17.
fn of_limits(problem: &Problem) -> Vec<&'static str> {
    let limits = problem.command_ranges(Use::Stop);
    let last = limits.len() - 1;
    let without_zero: Vec<usize> = (0..=last).filter(|&k| excludes_zero(limits[k])).collect();
    let accepted = without_zero.is_empty();
    let some = |at: fn(i64, i64) -> bool| limits.iter().any(|&(low, high)| at(low, high));
    let single = |at: &dyn Fn(usize) -> bool| without_zero.len() == 1 && at(without_zero[0]);
    let holds = [
        accepted && some(|low, high| low == 0 && high > 0),
        accepted && some(|low, high| low < 0 && high == 0),
        accepted && some(|low, high| low == 0 && high == 0),
        accepted && !some(|low, high| low < 0 && high > 0),
        single(&|k| limits[k].0 == 1),
        single(&|k| limits[k].1 == -1),
        single(&|k| k == 0 && last > 0),
        single(&|k| k == last && last > 0),
    ];
    met(ZERO_EDGES, holds)
}

/// For an image that passes the checks up to 11.
fn of_sums(problem: &Problem) -> Vec<&'static str> {
    let Some(points) = problem.point_bounds() else {
        return Vec::new();
    };
    let (top, bits, n) = (problem.sizes.top() as i128, problem.sizes.bits, problem.sizes.commands());
    let sums: Vec<[i128; 2]> = (0..n).map(|k| problem.headroom_sums(k, &points)).collect();
    let some = |at: &dyn Fn(i128, i128) -> bool| sums.iter().any(|&[a, b]| at(a, b));
    // Would every row pass with another B?
    let passes = |other: fn(i128) -> i128| !some(&|a, b| problem.up(a) + problem.up(other(b)) > top);
    let accepted = passes(|b| b);
    let with_target = (0..n).any(|k| problem.gains[k][problem.sizes.states..].iter().any(|&gain| gain != 0));
    let (signed, unsigned) = (passes(|b| b as i64 as i128), passes(|b| b as u64 as i128));
    let holds = [
        accepted && some(&|a, b| problem.up(a) + problem.up(b) == top),
        accepted && some(&|a, b| a == 0 && b == top << bits),
        some(&|a, b| problem.up(a) + problem.up(b) == top + 1),
        some(&|a, b| a == 0 && b == (top << bits) + 1),
        !accepted && !some(&|a, b| problem.up(a + b) > top),
        !accepted && signed,
        !accepted && signed && with_target,
        !accepted && unsigned,
        !accepted && unsigned && with_target,
    ];
    met(SUM_EDGES, holds)
}

/// What becomes of a table's number that is not a whole count.
#[derive(Clone, Copy, Debug, PartialEq, Eq, PartialOrd, Ord)]
pub enum Fate {
    Tie(Rounding),
    /// By the last bit no tie.
    BesideTie(Rounding),
    Moved(Rounding),
    /// From beyond top to it.
    HeldAtTop,
    /// A tie beyond top, which is 5.
    Refused,
}

/// A kind, whether the number is below zero, and what becomes of it.
pub type TableEdge = (u8, bool, Fate);

/// Those that a run has to meet. H has no entry at top in an accepted image.
pub fn of_tables() -> Vec<TableEdge> {
    use Fate::*;
    use Rounding::{Down, Up};
    let fates = [Tie(Up), Tie(Down), BesideTie(Up), BesideTie(Down), Moved(Up), Moved(Down), HeldAtTop, Refused];
    let kinds = TABLES.into_iter().flat_map(|kind| [(kind, false), (kind, true)]);
    let edges = kinds.flat_map(|(kind, below)| fates.map(|fate| (kind, below, fate)));
    edges.filter(|&(kind, _, fate)| (kind, fate) != (COST, HeldAtTop)).collect()
}

/// What became of an accepted sheet's number of a table, by its given and its kept double.
pub fn of_accepted(sizes: &Sizes, given: u64, kept: u64) -> Vec<Fate> {
    let word = to_word(kept, sizes.bits, sizes.width, Rounding::Down).expect("a kept double is a word's");
    // Where the given double lies from the word.
    let (side, rounding) =
        if f64::from_bits(given) > f64::from_bits(kept) { (1, Rounding::Down) } else { (-1, Rounding::Up) };
    let is_tie = |double| is_count(double, 2 * word + side, sizes.bits + 1);
    let fate = match (is_tie(given), is_tie(beside(given, side))) {
        (true, _) => Fate::Tie(rounding),
        (false, true) => Fate::BesideTie(rounding),
        (false, false) => Fate::Moved(rounding),
    };
    let held = word == side * sizes.top();
    if held { vec![fate, Fate::HeldAtTop] } else { vec![fate] }
}

/// Is this a tie beyond top?
pub fn is_refused_tie(sizes: &Sizes, double: u64) -> bool {
    [1, -1].iter().any(|sign| is_count(double, sign * (2 * sizes.top() + 1), sizes.bits + 1))
}
