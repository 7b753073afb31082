//! Request 4's false economies: other roundings of a row's sums, and other arithmetic in check 12.

use super::{Economy, rule};
use crate::image::{Problem, products};
use crate::rules::{Row, Rules, Use};

/// Terms over 2^b, rounded by their sum or one by one.
impl Row {
    pub fn inputs(&self) -> Vec<i128> {
        [&self.states[..], &self.targets].concat()
    }

    pub fn down(&self, terms: &[i128]) -> i128 {
        terms.iter().sum::<i128>() >> self.bits
    }

    fn each_down(&self, terms: &[i128]) -> i128 {
        terms.iter().map(|term| term >> self.bits).sum()
    }

    fn up(&self, terms: &[i128]) -> i128 {
        -(-terms.iter().sum::<i128>() >> self.bits)
    }

    fn each_up(&self, terms: &[i128]) -> i128 {
        terms.iter().map(|&term| self.up(&[term])).sum()
    }

    fn toward_zero(&self, terms: &[i128]) -> i128 {
        terms.iter().sum::<i128>() / (1 << self.bits)
    }

    fn nearest(&self, terms: &[i128]) -> i128 {
        (terms.iter().sum::<i128>() + (1 << (self.bits - 1))) >> self.bits
    }
}

pub fn economies() -> Vec<Economy> {
    [with_other_sums(), with_other_c(), with_other_roundings_up(), with_short_sums()].into_iter().flatten().collect()
}

fn with_other_sums() -> Vec<Economy> {
    let t = |name: &str, t: fn(&Row) -> i128| rule(name, Rules { other_t: Some(t), ..Rules::default() });
    vec![
        t("rounds each product", |row| row.each_down(&row.commands) - row.each_down(&row.inputs())),
        t("rounds each product of M y", |row| row.each_down(&row.commands) - row.down(&row.inputs())),
        t("rounds each product of h", |row| row.down(&row.commands) - row.each_down(&row.inputs())),
        t("rounds the parts of h apart", |row| {
            row.down(&row.commands) - row.down(&row.states) - row.down(&row.targets)
        }),
        t("rounds the sum of M y toward zero", |row| row.toward_zero(&row.commands) - row.down(&row.inputs())),
        t("rounds the sum of h toward zero", |row| row.down(&row.commands) - row.toward_zero(&row.inputs())),
        t("rounds the sum of M y to the nearest count", |row| row.nearest(&row.commands) - row.down(&row.inputs())),
        t("rounds the sum of h to the nearest count", |row| row.down(&row.commands) - row.nearest(&row.inputs())),
        t("rounds the sum of h up", |row| row.down(&row.commands) - row.up(&row.inputs())),
        t("rounds M y less h once", |row| {
            let taken_off = row.inputs().into_iter().map(|term| -term);
            row.down(&row.commands.iter().copied().chain(taken_off).collect::<Vec<i128>>())
        }),
        t("adds products in 32 bits", |row| {
            let short = |terms: &[i128]| row.down(&[terms.iter().sum::<i128>() as i32 as i128]);
            short(&row.commands) - short(&row.inputs())
        }),
        rule("rounds y once", Rules { y_rounded_once: true, ..Rules::default() }),
    ]
}

fn with_other_c() -> Vec<Economy> {
    let c = |name: &str, c: fn(usize, usize) -> usize| rule(name, Rules { other_c: Some(c), ..Rules::default() });
    vec![
        c("keeps the former c", |n, inputs| n.max(inputs)),
        c("takes n for c", |n, _| n),
        c("takes nx + nr for c", |_, inputs| inputs),
        c("leaves out c", |_, _| 0),
        c("counts both roundings of t in c", |_, _| 2),
    ]
}

/// A drive with another A + B.
pub fn headroom(name: &str, a_and_b: fn(&Problem, usize) -> i128) -> Economy {
    rule(name, Rules { other_headroom: Some(a_and_b), ..Rules::default() })
}

/// The terms of A and of B.
pub fn bounds(problem: &Problem, k: usize) -> Row {
    let points = problem.point_bounds().expect("P and Y are tested before");
    let mut row = problem.row(k, &points, &problem.input_limits);
    for terms in [&mut row.commands, &mut row.states, &mut row.targets] {
        terms.iter_mut().for_each(|term| *term = term.abs());
    }
    row
}

/// A + B without the target's terms: request 1's.
pub fn without_targets(problem: &Problem, k: usize) -> i128 {
    let row = bounds(problem, k);
    row.up(&row.commands) + row.up(&row.states)
}

fn with_other_roundings_up() -> Vec<Economy> {
    vec![
        headroom("rounds each term of A and B up", |problem, k| {
            let row = bounds(problem, k);
            row.each_up(&row.commands) + row.each_up(&row.inputs())
        }),
        headroom("rounds each term of A up", |problem, k| {
            let row = bounds(problem, k);
            row.each_up(&row.commands) + row.up(&row.inputs())
        }),
        headroom("rounds each term of B up", |problem, k| {
            let row = bounds(problem, k);
            row.up(&row.commands) + row.each_up(&row.inputs())
        }),
        headroom("rounds the parts of B up apart", |problem, k| {
            let row = bounds(problem, k);
            row.up(&row.commands) + row.up(&row.states) + row.up(&row.targets)
        }),
        headroom("rounds A + B up once", |problem, k| {
            let row = bounds(problem, k);
            row.up(&[row.commands.clone(), row.inputs()].concat())
        }),
        headroom("rounds A down", |problem, k| {
            let row = bounds(problem, k);
            row.down(&row.commands) + row.up(&row.inputs())
        }),
        headroom("rounds B down", |problem, k| {
            let row = bounds(problem, k);
            row.up(&row.commands) + row.down(&row.inputs())
        }),
        headroom("takes Y into A unrounded", with_exact_points),
    ]
}

/// Y in units of 2^-2b, so that A is divided twice.
fn with_exact_points(problem: &Problem, k: usize) -> i128 {
    let exact = |j: usize| {
        let (low, high) = problem.limits(Use::Magnitude, j);
        low.abs().max(high.abs()) * problem.sizes.one() + problem.momentum * problem.width(Use::Spread, j)
    };
    let points: Vec<i64> = (0..problem.sizes.commands()).map(exact).collect();
    let a = products(&problem.descent[k], &points).map(i128::abs).sum();
    let row = bounds(problem, k);
    problem.up(problem.up(a)) + row.up(&row.inputs())
}

/// A drive whose sums of A and of B are taken in arithmetic of its own; it is given the true sum and top × 2^b.
fn with_short_sums() -> Vec<Economy> {
    fn cut(problem: &Problem, k: usize, sum: fn(i128, i128) -> i128) -> i128 {
        let (row, most) = (bounds(problem, k), (problem.sizes.top() as i128) << problem.sizes.bits);
        let short = |terms: &[i128]| row.up(&[sum(terms.iter().sum(), most)]);
        short(&row.commands) + short(&row.inputs())
    }
    vec![
        headroom("adds A and B in signed 64 bits", |problem, k| cut(problem, k, |sum, _| sum as i64 as i128)),
        headroom("adds A and B in unsigned 64 bits", |problem, k| cut(problem, k, |sum, _| sum as u64 as i128)),
        headroom("stops the sums of A and B at top × 2^b", |problem, k| cut(problem, k, i128::min)),
        headroom("refuses a sum that reaches top × 2^b", |problem, k| {
            cut(problem, k, |sum, most| if sum == most { most + 1 } else { sum })
        }),
        headroom("keeps A and B in 32 bits", |problem, k| {
            let row = bounds(problem, k);
            [row.up(&row.commands), row.up(&row.inputs())].map(|counts| counts as u32 as i128).iter().sum()
        }),
    ]
}
