//! Request 8: D, which no command is further from the optimum than. In whole numbers of 2^-2b, so that nothing is
//! rounded before the last division.

use crate::edges::met;
use crate::image::{Problem, products};
use crate::rules::Use;
use crate::solve::held;

/// By how much a command's gradient step differs from it, F z − H z − G from F z: before it is held to low × F and
/// high × F, and behind.
struct Step {
    free: i128,
    held: i128,
}

/// From H and not through M, as a drive might have it.
fn steps(problem: &Problem, inputs: &[i64], commands: &[i64]) -> Vec<Step> {
    let one = i128::from(problem.sizes.one());
    let linear = problem.linear_sums(inputs);
    let step = |k: usize| {
        let own = one * i128::from(commands[k]);
        let step = own - products(&problem.cost[k], commands).sum::<i128>() - linear[k];
        let (low, high) = problem.limits(Use::Distance, k);
        Step { free: step - own, held: held(step, (one * i128::from(low), one * i128::from(high))) - own }
    };
    (0..commands.len()).map(step).collect()
}

/// What R is the largest of, with its signs.
pub fn differences(problem: &Problem, inputs: &[i64], commands: &[i64]) -> Vec<i128> {
    steps(problem, inputs, commands).iter().map(|step| step.held).collect()
}

/// R.
pub fn largest(differences: &[i128]) -> i128 {
    differences.iter().map(|difference| difference.abs()).max().expect("there is a command")
}

/// Rounded up; the value is not below 0.
pub fn over(value: i128, divisor: i64) -> u64 {
    let divisor = i128::from(divisor);
    ((value + divisor - 1) / divisor) as u64
}

/// D: R over the least margin.
pub fn distance(problem: &Problem, inputs: &[i64], commands: &[i64]) -> u64 {
    over(largest(&differences(problem, inputs, commands)), problem.least_margin())
}

/// What a run has to meet.
pub const EDGES: [&str; 17] = [
    "D is 0",
    "D of eight digits",
    "D of sixteen digits",
    "D above every width",
    "R / m is whole, m above 1",
    "R / m is a fraction",
    "R is upward",
    "R is downward",
    "R of the first command alone",
    "R of the last command alone",
    "R of a command between alone",
    "m of the first row alone",
    "m of the last row alone",
    "m of a row between alone",
    "a limit holds the step of R",
    "no limit holds the step of R",
    "D would be larger if no limit held a step",
];

/// Those of them that an accepted solve lies at.
pub fn edges(problem: &Problem, inputs: &[i64], commands: &[i64]) -> Vec<&'static str> {
    let (steps, margins) = (steps(problem, inputs, commands), problem.margins());
    let (r, m) = (largest(&differences(problem, inputs, commands)), problem.least_margin());
    let (d, last) = (over(r, m), commands.len() - 1);
    let at_r: Vec<usize> = (0..=last).filter(|&k| r > 0 && steps[k].held.abs() == r).collect();
    let at_m: Vec<usize> = (0..=last).filter(|&k| margins[k] == m).collect();
    let alone = |at: &[usize]| {
        let single = last > 0 && at.len() == 1;
        [single && at[0] == 0, single && at[0] == last, single && (1..last).contains(&at[0])]
    };
    let [r_first, r_last, r_between] = alone(&at_r);
    let [m_first, m_last, m_between] = alone(&at_m);
    let some = |at: fn(&Step) -> bool| at_r.iter().any(|&k| at(&steps[k]));
    let holds = [
        d == 0,
        (1..1 << 32).contains(&d),
        d >= 1 << 32,
        (0..=last).all(|k| d > problem.width(Use::Distance, k) as u64),
        r > 0 && m > 1 && r % i128::from(m) == 0,
        r % i128::from(m) != 0,
        some(|step| step.held > 0),
        some(|step| step.held < 0),
        r_first,
        r_last,
        r_between,
        m_first,
        m_last,
        m_between,
        some(|step| step.held != step.free),
        some(|step| step.held == step.free),
        steps.iter().any(|step| over(step.free.abs(), m) > d),
    ];
    met(EDGES, holds)
}
