//! Ranges of random states, and near misses of 13.

use super::{Plan, RANGE_SOLVE_NUMBERS, SolveCase, case_of_sizes, damage, iterations, other_size, out_len};
use crate::image::{Sizes, bytes, sizes_of_word_fit};
use crate::random::Random;
use crate::{ranges, solve};

/// How wide the ranges of a state are.
#[derive(Clone, Copy)]
enum Width {
    Point,
    Narrow,
    Any,
    Whole,
    /// From the low limit, or to the high one.
    FromLow,
    ToHigh,
    /// Each value has a width of its own.
    Mixed,
}
use Width::*;

const WIDTHS: [Width; 6] = [Point, Narrow, Any, Whole, FromLow, ToHigh];

/// A low and a high within limits.
fn range(random: &mut Random, (low, high): (i64, i64), width: Width) -> (i64, i64) {
    let (one, other) = (random.between(low, high), random.between(low, high));
    let (lower, upper) = (one.min(other), one.max(other));
    match width {
        Point => (one, one),
        Narrow => (one, (one + 1 + random.magnitude(7)).min(high)),
        Any => (lower, upper),
        Whole => (low, high),
        FromLow => (low, upper),
        ToHigh => (lower, high),
        Mixed => {
            let width = random.pick(&WIDTHS);
            range(random, (low, high), width)
        }
    }
}

/// Ranges within limits, mostly of one width.
fn ranges_within(random: &mut Random, limits: &[(i64, i64)]) -> Vec<(i64, i64)> {
    let width = random.pick(&[Point, Narrow, Narrow, Any, Any, Whole, FromLow, ToHigh, Mixed, Mixed, Mixed]);
    limits.iter().map(|&limits| range(random, limits, width)).collect()
}

/// The lows, then the highs.
pub fn lent(ranges: &[(i64, i64)]) -> Vec<u8> {
    let (lows, highs): (Vec<i64>, Vec<i64>) = ranges.iter().copied().unzip();
    bytes(&[lows, highs].concat())
}

/// Spoilt, another length, or one range that crosses or has an end beyond its limit.
fn words_of_ranges(random: &mut Random, limits: &[(i64, i64)], spoilt: bool) -> Vec<u8> {
    let mut ranges = ranges_within(random, limits);
    if !spoilt {
        return lent(&ranges);
    }
    if random.one_in(3) {
        let (mut buffer, states) = (lent(&ranges), ranges.len());
        let other = other_size(random, buffer.len());
        buffer.resize(random.pick(&[4 * states, 12 * states, 16 * states, other, other]), 0);
        return buffer;
    }
    let any = random.below(ranges.len());
    let index = random.pick(&[0, ranges.len() - 1, any]);
    ranges[index] = spoilt_range(random, limits[index], ranges[index]);
    lent(&ranges)
}

fn spoilt_range(random: &mut Random, (low, high): (i64, i64), (lower, upper): (i64, i64)) -> (i64, i64) {
    let (least, most) = (i32::MIN as i64, i32::MAX as i64);
    let far = random.magnitude(1 << 20);
    let crossing =
        [(upper + 1, upper), (lower, lower - 1), (upper, lower - 1), (high, low - 1 + i64::from(low < high))];
    let lows = [(low - 1, upper), (low - 1, upper), (low - 1 - far, upper), (least, upper)];
    let highs = [(lower, high + 1), (lower, high + 1), (lower, high + 1 + far), (lower, most)];
    let both = [(low - 1, high + 1), (low - 1, low - 1), (high + 1, high + 1), (high + 1, high + 1 + far)];
    let wrong_side = [(high + 1, upper), (lower, low - 1), (most, lower), (upper, least)];
    let list = random.pick(&[crossing, crossing, lows, highs, both, wrong_side]);
    random.pick(&list)
}

impl Plan {
    /// In turn nothing, the plans of a solve, nothing, and 13 alone or before another number, or 15.
    pub fn of_ranges(random: &mut Random, index: u64) -> Plan {
        match index % 4 {
            0 | 2 => Plan::nothing(),
            1 => Plan::new(random, index / 4, &RANGE_SOLVE_NUMBERS),
            _ => Plan {
                numbers: random.pick(&[[13, 13], [13, 16], [13, 14], [13, 15], [15, 15]]).to_vec(),
                damage: false,
            },
        }
    }
}

/// The sizes of a turn: all of them, and all pairs of b and W, come in few turns.
fn sizes_of_turn(random: &mut Random, turn: usize) -> Sizes {
    let pairs: Vec<(usize, usize)> = (1..=4).flat_map(|nu| (1..=16 / nu).map(move |steps| (nu, steps))).collect();
    let formats: Vec<(i64, i64)> = (4..=20).flat_map(|b| (8..=32).map(move |w| (b, w))).collect();
    let formats: Vec<(i64, i64)> = formats.into_iter().filter(|&(b, w)| sizes_of_word_fit(b, w)).collect();
    let ((motors, steps), (bits, width)) = (pairs[turn % pairs.len()], formats[turn % formats.len()]);
    let (states, targets) = (1 + turn / pairs.len() % 12, random.pick(&[0, 0, 1, 2, 3, 4]));
    Sizes { motors, steps, states, bits: bits as u32, width: width as u32, iterations: iterations(random), targets }
}

/// A solve's case, and ranges in the place of its state, spoilt as planned.
pub fn range_case(random: &mut Random, plan: &Plan, index: u64) -> (SolveCase, Vec<u8>) {
    let sizes = if plan.is_nothing() { sizes_of_turn(random, index as usize / 2) } else { plan.sizes(random) };
    with_ranges(random, plan, sizes)
}

/// The same with four commands at most, and with nothing spoilt.
pub fn few_ranges(random: &mut Random) -> (SolveCase, Vec<u8>) {
    let plan = Plan::nothing();
    let (motors, steps) = random.pick(&[(1, 1), (1, 1), (1, 2), (2, 1), (1, 3), (1, 4), (2, 2)]);
    let sizes = Sizes { motors, steps, ..plan.sizes(random) };
    with_ranges(random, &plan, sizes)
}

fn with_ranges(random: &mut Random, plan: &Plan, sizes: Sizes) -> (SolveCase, Vec<u8>) {
    let case = case_of_sizes(random, plan, sizes);
    let mut ranges = words_of_ranges(random, &case.draft.problem().state_ranges(), plan.has(13));
    if plan.damage && random.one_in(3) && !ranges.is_empty() {
        damage(random, &mut ranges);
    }
    (case, ranges)
}

/// The length of an answer, which might be taken for that of a solve's, or for that of one end.
pub fn range_len(random: &mut Random, plan: &Plan, sizes: &Sizes) -> usize {
    let n = sizes.commands();
    let exact = ranges::answer_len(n);
    let mistaken = [solve::answer_len(n), solve::answer_len(n), 4 * n, 16 * n, exact - 4, exact + 4];
    if plan.has(15) && random.one_in(2) { random.pick(&mistaken) } else { out_len(random, plan, exact) }
}

/// Ranges inside others.
pub fn inside(random: &mut Random, ranges: &[(i64, i64)]) -> Vec<(i64, i64)> {
    ranges_within(random, ranges)
}

/// A state inside ranges: in turn their lows, their highs, any corner, and any other.
pub fn state_inside(random: &mut Random, ranges: &[(i64, i64)], turn: usize) -> Vec<i64> {
    let value = |&(low, high): &(i64, i64)| match turn {
        0 => low,
        1 => high,
        2 | 3 => random.pick(&[low, high]),
        _ => random.between(low, high),
    };
    ranges.iter().map(value).collect()
}
