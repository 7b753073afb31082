//! Request 12's false economies: ends that are taken, rounded, held or crossed otherwise, other answers, loops that end
//! too early, and ranges that are read or tested otherwise.

use super::loops::{MISTAKES, shows};
use super::{Economy, Table, lazy, solve, write};
use crate::drive::{Drive, Kind, Reference};
use crate::harness::untouched;
use crate::image::{HEADER_WORDS, Number, Problem, Sizes, bytes, open, words};
use crate::ranges::{BOTH, Ends, HIGHEST, LOWEST, answer_len, ends_of, opposite, with_target};
use crate::rules::{Rules, Times};
use crate::solve::{answer, held, read_start};

/// The value of the two ends that a factor takes for a sum at an end.
type Pick = fn(i64, [i64; 2], usize) -> i64;
/// An undivided sum or product over 2^b, at an end.
type Round = fn(i128, u32, usize) -> i64;

/// One command of a sweep that is about to be left, at both ends.
struct Step {
    one: i64,
    momentum: i64,
    limits: (i64, i64),
    t: [i64; 2],
    old: [i64; 2],
    old_point: [i64; 2],
    /// z, once it is found.
    new: [i64; 2],
}

impl Step {
    fn held(&self, end: usize) -> i64 {
        held(self.t[end], self.limits)
    }

    /// y of a new and an old command.
    fn point(&self, new: i64, old: i64) -> i64 {
        ((self.one + self.momentum) * new).div_euclid(self.one) - (self.momentum * old).div_euclid(self.one)
    }
}

/// z and y at both ends.
#[derive(Clone, PartialEq)]
struct Iterate {
    z: Ends,
    y: Ends,
}

impl Iterate {
    /// The lists of z and of y, lowest and highest.
    fn lists(&self) -> [&[i64]; 4] {
        [&self.z[LOWEST], &self.z[HIGHEST], &self.y[LOWEST], &self.y[HIGHEST]]
    }
}

/// How a drive goes through a range solve.
#[derive(Clone, Copy)]
struct Ways {
    /// The state's ends and the target's.
    inputs: fn(&Problem, Ends, &[i64]) -> Ends,
    /// On the diagonal of M, beside it, and in h.
    on_diagonal: Pick,
    beside: Pick,
    in_linear: Pick,
    round: Round,
    round_linear: Round,
    /// How often the terms of M y, or of h, are added at some ends.
    point_times: Option<(&'static [usize], Times)>,
    linear_times: Option<(&'static [usize], Times)>,
    /// The end of h that an end of t takes.
    linear: fn(usize) -> usize,
    z: fn(&Step, usize) -> i64,
    y: fn(&Step, usize) -> i64,
    sweeps: fn(usize) -> usize,
    /// Is the loop to end, by all that it has had?
    ends: fn(&Problem, &[Iterate]) -> bool,
    answer: fn(&[Iterate]) -> Ends,
}

fn own(end: usize) -> usize {
    end
}

fn down(value: i128, bits: u32, _: usize) -> i64 {
    (value >> bits) as i64
}

fn up(value: i128, bits: u32, _: usize) -> i64 {
    -(-value >> bits) as i64
}

fn highest_up(value: i128, bits: u32, end: usize) -> i64 {
    if end == HIGHEST { up(value, bits, end) } else { down(value, bits, end) }
}

fn by_sign(factor: i64, values: [i64; 2], end: usize) -> i64 {
    values[if factor < 0 { opposite(end) } else { end }]
}

/// As request 12 has it.
const RIGHT: Ways = Ways {
    inputs: |_, ranges, target| with_target(ranges, target),
    on_diagonal: by_sign,
    beside: by_sign,
    in_linear: by_sign,
    round: down,
    round_linear: down,
    point_times: None,
    linear_times: None,
    linear: opposite,
    z: Step::held,
    y: |step, end| step.point(step.new[end], step.old[opposite(end)]),
    sweeps: |sweeps| sweeps,
    ends: |_, _| false,
    answer: |course| course[course.len() - 1].z.clone(),
};

/// A range solve that is accepted, or would be if its ranges were tested otherwise.
struct Solve {
    problem: Problem,
    ranges: Ends,
    target: Vec<i64>,
    start: Vec<i64>,
}

impl Solve {
    fn of(inputs: &[&[u8]]) -> Solve {
        let problem = open(inputs[0], Rules::default()).expect("the image is accepted");
        Solve { problem, ranges: ends_of(inputs[1]), target: words(inputs[2]), start: words(inputs[3]) }
    }

    fn sweeps(&self) -> usize {
        self.problem.sizes.iterations
    }

    fn course(&self, ways: &Ways) -> Vec<Iterate> {
        let Solve { problem, start, .. } = self;
        let bits = problem.sizes.bits;
        let inputs = (ways.inputs)(problem, self.ranges.clone(), &self.target);
        let both = || [start.clone(), start.clone()];
        let sum = |k: usize, row: &[i64], values: &Ends, end: usize, is_linear: bool| -> i64 {
            let times = if is_linear { ways.linear_times } else { ways.point_times };
            let term = |(i, &factor): (usize, &i64)| {
                let pick = match (is_linear, i == k) {
                    (true, _) => ways.in_linear,
                    (_, true) => ways.on_diagonal,
                    _ => ways.beside,
                };
                let times = times.filter(|(ends, _)| ends.contains(&end)).map_or(1, |(_, times)| times(i, row.len()));
                let value = pick(factor, [values[LOWEST][i], values[HIGHEST][i]], end);
                i128::from(factor) * i128::from(value) * times
            };
            let round = if is_linear { ways.round_linear } else { ways.round };
            round(row.iter().enumerate().map(term).sum(), bits, end)
        };
        let linear = BOTH.map(|end| {
            let rows = problem.gains.rows().enumerate();
            rows.map(|(k, row)| sum(k, row, &inputs, end, true)).collect::<Vec<i64>>()
        });
        let mut course = vec![Iterate { z: both(), y: both() }];
        for _ in 0..(ways.sweeps)(self.sweeps()) {
            let old = &course[course.len() - 1];
            let mut new = old.clone();
            for k in 0..start.len() {
                let t = |end| sum(k, &problem.descent[k], &old.y, end, false) - linear[(ways.linear)(end)][k];
                let mut step = Step {
                    one: problem.sizes.one(),
                    momentum: problem.momentum,
                    limits: (problem.lower[k], problem.upper[k]),
                    t: BOTH.map(t),
                    old: BOTH.map(|end| old.z[end][k]),
                    old_point: BOTH.map(|end| old.y[end][k]),
                    new: [0; 2],
                };
                step.new = BOTH.map(|end| (ways.z)(&step, end));
                for end in BOTH {
                    new.z[end][k] = step.new[end];
                    new.y[end][k] = (ways.y)(&step, end);
                }
            }
            course.push(new);
            if (ways.ends)(problem, &course) {
                break;
            }
        }
        course
    }

    fn answer(&self, ways: &Ways) -> Ends {
        (ways.answer)(&self.course(ways))
    }

    /// The commands of the ordinary solve.
    fn commands(&self, state: &[i64]) -> Vec<i64> {
        answer(&self.problem, &[state, &self.target].concat(), &self.start).commands
    }

    /// The least and the largest commands of these states' solves.
    fn hull(&self, states: Vec<Vec<i64>>) -> Ends {
        let all: Vec<Vec<i64>> = states.iter().map(|state| self.commands(state)).collect();
        let of = |k: usize| all.iter().map(move |commands| commands[k]);
        let n = self.start.len();
        [(0..n).map(|k| of(k).min().unwrap()).collect(), (0..n).map(|k| of(k).max().unwrap()).collect()]
    }

    fn corners(&self) -> Vec<Vec<i64>> {
        let states = self.problem.sizes.states;
        let corner = |mask: usize| (0..states).map(|i| self.ranges[mask >> i & 1][i]).collect();
        (0..1 << states).map(corner).collect()
    }
}

/// A drive with an answer of its own where a range solve is accepted.
fn answering(name: &str, answer: impl Fn(&Solve) -> Ends + 'static) -> Economy {
    of_ranges(name, &[0], move |inputs, out| write(&bytes(&answer(&Solve::of(inputs)).concat()), out))
}

fn drive(name: &str, ways: Ways) -> Economy {
    answering(name, move |solve| solve.answer(&ways))
}

/// A drive that answers on its own where a range solve has one of these numbers.
fn of_ranges(name: &str, at: &'static [Number], answer: impl Fn(&[&[u8]], &mut [u8]) -> Number + 'static) -> Economy {
    let economy =
        lazy(
            name,
            move |kind, inputs, number, out| {
                if kind == Kind::RangeSolve && at.contains(&number) { answer(inputs, out) } else { number }
            },
        );
    Economy { found_on: Table::Ranges, ..economy }
}

pub fn economies() -> Vec<Economy> {
    let carried = [with_other_factors(), with_other_linear(), with_other_inputs(), with_other_roundings()];
    let swept = [with_other_holds(), with_other_points(), with_other_loops(), with_early_ends(), with_ends_in_part()];
    let answered = [with_other_sweeps(), with_other_answers(), with_other_bytes(), with_other_lengths()];
    let tested = [with_other_tests(), with_other_reading(), with_other_orders()];
    carried.into_iter().chain(swept).chain(answered).chain(tested).flatten().collect()
}

/// Drives that take other ways to the same ends: no case may tell them from the papers' drive.
pub fn right() -> Vec<Economy> {
    let product = |factor: i64, values: [i64; 2], end: usize| {
        let key = |&value: &i64| if end == LOWEST { factor * value } else { -factor * value };
        values.into_iter().min_by_key(key).unwrap()
    };
    vec![
        drive("goes through all sweeps", RIGHT),
        drive("takes the least and the largest product", Ways { on_diagonal: product, beside: product, ..RIGHT }),
        drive("does not heed the sign on the diagonal", Ways { on_diagonal: |_, values, end| values[end], ..RIGHT }),
        drive(
            "holds an end at its nearer limit first",
            Ways {
                z: |step, end| {
                    if end == LOWEST { step.t[end].max(step.limits.0).min(step.limits.1) } else { step.held(end) }
                },
                ..RIGHT
            },
        ),
        drive("ends when all four lists rest", Ways { ends: |_, course| still(course, 1, &ALL), ..RIGHT }),
        // The first such sweep makes y what the next makes it.
        drive(
            "ends when two sweeps leave z",
            Ways { ends: |_, course| still(course, 1, &COMMANDS) && still(course, 2, &COMMANDS), ..RIGHT },
        ),
        // With no low above its high the others follow.
        of_ranges("tests each end on its own side", &[13], |inputs, out| {
            tested(inputs, out, |low, high, limit| low <= high && low >= -limit && high <= limit)
        }),
    ]
}

fn with_other_factors() -> Vec<Economy> {
    let ignored: Pick = |_, values, end| values[end];
    let reversed: Pick = |factor, values, end| by_sign(-factor, values, end);
    let lowest: Pick = |_, values, _| values[LOWEST];
    let highest: Pick = |_, values, _| values[HIGHEST];
    let middle: Pick = |_, values, _| (values[LOWEST] + values[HIGHEST]).div_euclid(2);
    let by_value: Pick = |_, values, end| values[if values[end] < 0 { opposite(end) } else { end }];
    let largest: Pick = |_, values, _| {
        if values[LOWEST].abs() > values[HIGHEST].abs() { values[LOWEST] } else { values[HIGHEST] }
    };
    let picks: [(&str, Pick); 7] = [
        ("ignores the sign of a factor", ignored),
        ("takes the opposite end at a positive factor", reversed),
        ("takes the lowest value at every factor", lowest),
        ("takes the highest value at every factor", highest),
        ("takes the middle at every factor", middle),
        ("goes by the sign of the value", by_value),
        ("takes the value of the larger magnitude", largest),
    ];
    let mut economies = Vec::new();
    for (name, pick) in picks {
        economies.push(drive(&format!("{name} of M y"), Ways { on_diagonal: pick, beside: pick, ..RIGHT }));
        economies.push(drive(&format!("{name} of h"), Ways { in_linear: pick, ..RIGHT }));
        economies.push(drive(&format!("{name} of M beside the diagonal"), Ways { beside: pick, ..RIGHT }));
    }
    economies.push(drive("takes the opposite end on the diagonal", Ways { on_diagonal: reversed, ..RIGHT }));
    economies
}

fn with_other_linear() -> Vec<Economy> {
    let taking = |name: &str, linear: fn(usize) -> usize| drive(name, Ways { linear, ..RIGHT });
    vec![
        taking("takes the lowest h off the lowest M y", own),
        taking("takes the lowest h off both", |_| LOWEST),
        taking("takes the highest h off both", |_| HIGHEST),
        drive(
            "does not heed signs, nor crosses h",
            Ways { in_linear: |_, values, end| values[end], linear: own, ..RIGHT },
        ),
    ]
}

fn with_other_inputs() -> Vec<Economy> {
    type Inputs = fn(&Problem, Ends, &[i64]) -> Ends;
    let taking = |name: &str, inputs: Inputs| drive(name, Ways { inputs, ..RIGHT });
    vec![
        taking("takes the limits for the ranges", |problem, _, target| {
            let limits = &problem.input_limits[..problem.sizes.states];
            with_target([limits.iter().map(|limit| -limit).collect(), limits.to_vec()], target)
        }),
        taking("takes the lows alone", |_, [lows, _], target| with_target([lows.clone(), lows], target)),
        taking("takes the highs alone", |_, [_, highs], target| with_target([highs.clone(), highs], target)),
        taking("takes the lows and a count more", |_, [lows, _], target| {
            with_target([lows.clone(), lows.iter().map(|low| low + 1).collect()], target)
        }),
        taking("takes a range for the first value alone", |_, [lows, mut highs], target| {
            highs[1..].copy_from_slice(&lows[1..]);
            with_target([lows, highs], target)
        }),
        taking("takes a range for the last value alone", |_, [lows, mut highs], target| {
            let last = lows.len() - 1;
            highs[..last].copy_from_slice(&lows[..last]);
            with_target([lows, highs], target)
        }),
        taking("takes the first range for every value", |_, ends, target| {
            with_target(ends.map(|values| vec![values[0]; values.len()]), target)
        }),
        taking("exchanges the ends", |_, [lows, highs], target| with_target([highs, lows], target)),
        taking("takes the target within its limits", |problem, [lows, highs], _| {
            let limits = &problem.input_limits[problem.sizes.states..];
            let below: Vec<i64> = limits.iter().map(|limit| -limit).collect();
            [[lows, below].concat(), [&highs[..], limits].concat()]
        }),
        taking("takes the target from zero on", |_, [lows, highs], target| {
            let ends =
                [target.iter().map(|&t| t.min(0)).collect::<Vec<i64>>(), target.iter().map(|&t| t.max(0)).collect()];
            [[lows, ends[0].clone()].concat(), [highs, ends[1].clone()].concat()]
        }),
        taking("takes the target with either sign", |_, [lows, highs], target| {
            let size: Vec<i64> = target.iter().map(|t| t.abs()).collect();
            [[lows, size.iter().map(|t| -t).collect()].concat(), [highs, size].concat()]
        }),
        taking("takes the target at the lowest end alone", |_, [lows, highs], target| {
            [[&lows[..], target].concat(), [highs, vec![0; target.len()]].concat()]
        }),
        taking("takes the target at the highest end alone", |_, [lows, highs], target| {
            [[lows, vec![0; target.len()]].concat(), [&highs[..], target].concat()]
        }),
        taking("leaves the target out", |_, ranges, target| with_target(ranges, &vec![0; target.len()])),
    ]
}

fn with_other_roundings() -> Vec<Economy> {
    let nearest: Round = |value, bits, _| ((2 * value + (1 << bits)) >> (bits + 1)) as i64;
    let toward_zero: Round = |value, bits, _| (value / (1 << bits)) as i64;
    let lowest_up: Round = |value, bits, end| highest_up(value, bits, opposite(end));
    let rounds: [(&str, Round); 5] = [
        ("rounds the highest sum up", highest_up),
        ("rounds the lowest sum up", lowest_up),
        ("rounds both sums up", up),
        ("rounds both sums toward zero", toward_zero),
        ("rounds both sums to the nearest count", nearest),
    ];
    let mut economies = Vec::new();
    for (name, round) in rounds {
        economies.push(drive(&format!("{name} in M y"), Ways { round, ..RIGHT }));
        economies.push(drive(&format!("{name} in h"), Ways { round_linear: round, ..RIGHT }));
        economies.push(drive(&format!("{name} everywhere"), Ways { round, round_linear: round, ..RIGHT }));
    }
    economies
}

fn with_other_holds() -> Vec<Economy> {
    type Hold = fn(&Step, usize) -> i64;
    let holding = |name: &str, z: Hold| drive(name, Ways { z, ..RIGHT });
    // What is carried on is not held.
    let at_last = |name: &str, z: Hold| {
        answering(name, move |solve| {
            let limits = |k: usize| (solve.problem.lower[k], solve.problem.upper[k]);
            let ends = solve.answer(&Ways { z, ..RIGHT });
            ends.map(|list| list.iter().enumerate().map(|(k, &z)| held(z, limits(k))).collect())
        })
    };
    let free: Hold = |step, end| step.t[end];
    let lowest: Hold = |step, end| if end == LOWEST { step.held(end) } else { step.t[end] };
    let highest: Hold = |step, end| if end == HIGHEST { step.held(end) } else { step.t[end] };
    vec![
        holding("does not hold the ends", free),
        holding("does not hold the highest", lowest),
        holding("does not hold the lowest", highest),
        at_last("holds the ends of the answer alone", free),
        at_last("holds the highest of the answer alone", lowest),
        at_last("holds the lowest of the answer alone", highest),
        holding("holds the lowest at the low limit alone", |step, end| {
            if end == LOWEST { step.t[end].max(step.limits.0) } else { step.held(end) }
        }),
        holding("holds the highest at the high limit alone", |step, end| {
            if end == HIGHEST { step.t[end].min(step.limits.1) } else { step.held(end) }
        }),
        holding("holds the lowest at the high limit alone", |step, end| {
            if end == LOWEST { step.t[end].min(step.limits.1) } else { step.held(end) }
        }),
        holding("holds the highest at the low limit alone", |step, end| {
            if end == HIGHEST { step.t[end].max(step.limits.0) } else { step.held(end) }
        }),
        holding("takes the other end where a limit holds one", |step, end| {
            if step.held(end) == step.t[end] { step.t[end] } else { step.held(opposite(end)) }
        }),
        holding("lets the ends only come nearer", |step, end| {
            if step.old[LOWEST] == step.old[HIGHEST] {
                return step.held(end);
            }
            if end == LOWEST { step.held(end).max(step.old[end]) } else { step.held(end).min(step.old[end]) }
        }),
        holding("lets the ends only go apart", |step, end| {
            if end == LOWEST { step.held(end).min(step.old[end]) } else { step.held(end).max(step.old[end]) }
        }),
        holding("carries the middle", |step, _| (step.held(LOWEST) + step.held(HIGHEST)).div_euclid(2)),
        holding("widens each end by a count", |step, end| {
            held(step.t[end] + if end == LOWEST { -1 } else { 1 }, step.limits)
        }),
    ]
}

fn with_other_points() -> Vec<Economy> {
    type Point = fn(&Step, usize) -> i64;
    let pointing = |name: &str, y: Point| drive(name, Ways { y, ..RIGHT });
    vec![
        pointing("does not cross the y step", |step, end| step.point(step.new[end], step.old[end])),
        pointing("does not cross the lowest y", |step, end| {
            step.point(step.new[end], step.old[if end == LOWEST { end } else { opposite(end) }])
        }),
        pointing("does not cross the highest y", |step, end| {
            step.point(step.new[end], step.old[if end == HIGHEST { end } else { opposite(end) }])
        }),
        pointing("takes the new commands for the old ones", |step, end| {
            step.point(step.new[end], step.new[opposite(end)])
        }),
        // In place: the lowest is at hand before the highest, or behind it.
        pointing("takes the new lowest into the highest y", |step, end| {
            step.point(step.new[end], if end == HIGHEST { step.new[LOWEST] } else { step.old[HIGHEST] })
        }),
        pointing("takes the new highest into the lowest y", |step, end| {
            step.point(step.new[end], if end == LOWEST { step.new[HIGHEST] } else { step.old[LOWEST] })
        }),
        pointing("crosses the new commands", |step, end| step.point(step.new[opposite(end)], step.old[end])),
        pointing("crosses all", |step, end| step.point(step.new[opposite(end)], step.old[opposite(end)])),
        pointing("takes y from the unheld t", |step, end| step.point(step.t[end], step.old[opposite(end)])),
        pointing("takes the old y for the old commands", |step, end| {
            step.point(step.new[end], step.old_point[opposite(end)])
        }),
        pointing("takes z for y", |step, end| step.new[end]),
        pointing("rounds the y step once", |step, end| {
            let old = step.momentum * step.old[opposite(end)];
            ((step.one + step.momentum) * step.new[end] - old).div_euclid(step.one)
        }),
        pointing("rounds the highest y up", |step, end| {
            let up = |factor: i64, value: i64| -(-factor * value).div_euclid(step.one);
            if end == LOWEST {
                return step.point(step.new[end], step.old[opposite(end)]);
            }
            up(step.one + step.momentum, step.new[end]) - up(step.momentum, step.old[LOWEST])
        }),
        pointing("rounds what the y step takes off up", |step, end| {
            let new = ((step.one + step.momentum) * step.new[end]).div_euclid(step.one);
            new + (-step.momentum * step.old[opposite(end)]).div_euclid(step.one)
        }),
        pointing("holds y to the limits", |step, end| {
            held(step.point(step.new[end], step.old[opposite(end)]), step.limits)
        }),
        pointing("lets the lowest y only go below z", |step, end| {
            let y = step.point(step.new[end], step.old[opposite(end)]);
            if end == LOWEST { y.min(step.new[end]) } else { y }
        }),
        pointing("lets the highest y only go above z", |step, end| {
            let y = step.point(step.new[end], step.old[opposite(end)]);
            if end == HIGHEST { y.max(step.new[end]) } else { y }
        }),
    ]
}

/// Terms of M y and of h that are missed or added twice, at one end or at both.
fn with_other_loops() -> Vec<Economy> {
    let ends: [(&str, &'static [usize]); 3] =
        [("lowest", &[LOWEST]), ("highest", &[HIGHEST]), ("lowest and highest", &[LOWEST, HIGHEST])];
    let mut economies = Vec::new();
    for (mistake, times) in MISTAKES.into_iter().filter(|&(_, times)| shows(times, 16)) {
        for (name, ends) in ends {
            let (point, linear) = (Some((ends, times)), Some((ends, times)));
            economies.push(drive(&format!("{mistake} in the {name} M y"), Ways { point_times: point, ..RIGHT }));
            economies.push(drive(&format!("{mistake} in the {name} h"), Ways { linear_times: linear, ..RIGHT }));
        }
    }
    economies
}

/// The lists of an iterate: z at its lowest and highest, then y.
const ALL: [usize; 4] = [0, 1, 2, 3];
const COMMANDS: [usize; 2] = [0, 1];
const POINTS: [usize; 2] = [2, 3];

/// Are these lists what they were so many sweeps ago?
fn still(course: &[Iterate], ago: usize, lists: &[usize]) -> bool {
    let now = course.len() - 1;
    now >= ago && lists.iter().all(|&list| course[now].lists()[list] == course[now - ago].lists()[list])
}

fn with_early_ends() -> Vec<Economy> {
    type EndsBy = fn(&Problem, &[Iterate]) -> bool;
    let ending = |name: &str, ends: EndsBy| drive(&format!("ends when {name}"), Ways { ends, ..RIGHT });
    vec![
        ending("the lowest rests", |_, course| still(course, 1, &[0, 2])),
        ending("the highest rests", |_, course| still(course, 1, &[1, 3])),
        ending("either end rests", |_, course| still(course, 1, &[0, 2]) || still(course, 1, &[1, 3])),
        ending("z rests, though y has not", |_, course| still(course, 1, &COMMANDS)),
        ending("y rests, though z has not", |_, course| still(course, 1, &POINTS)),
        ending("the lowest z rests", |_, course| still(course, 1, &[0])),
        ending("the highest z rests", |_, course| still(course, 1, &[1])),
        ending("two sweeps leave the lowest z", |_, course| still(course, 1, &[0]) && still(course, 2, &[0])),
        ending("two sweeps leave the highest z", |_, course| still(course, 1, &[1]) && still(course, 2, &[1])),
        ending("z and the lowest y rest", |_, course| still(course, 1, &[0, 1, 2])),
        ending("z and the highest y rest", |_, course| still(course, 1, &[0, 1, 3])),
        ending("the lowest z and the highest y rest", |_, course| still(course, 1, &[0, 3])),
        ending("the highest z and the lowest y rest", |_, course| still(course, 1, &[1, 2])),
        ending("the ends of z meet", |_, course| {
            let [lowest, highest, _, _] = course[course.len() - 1].lists();
            lowest == highest
        }),
        ending("all ends meet", |_, course| {
            let [lowest, highest, low, high] = course[course.len() - 1].lists();
            lowest == highest && low == high
        }),
        ending("the widths rest", |_, course| {
            let width = |iterate: &Iterate| -> Vec<i64> {
                let [a, b, c, d] = iterate.lists();
                a.iter().chain(c).zip(b.iter().chain(d)).map(|(low, high)| high - low).collect()
            };
            width(&course[course.len() - 1]) == width(&course[course.len() - 2])
        }),
        ending("nothing moves by more than a count", |_, course| {
            let [.., old, new] = course else { panic!("a sweep was made") };
            old.lists().concat().iter().zip(new.lists().concat()).all(|(old, new)| (old - new).abs() <= 1)
        }),
        ending("every end is at some limit", |problem, course| {
            let at = |(k, &z): (usize, &i64)| z == problem.lower[k] || z == problem.upper[k];
            course[course.len() - 1].z.iter().all(|list| list.iter().enumerate().all(at))
        }),
        freezing("stops the lowest where it rests", &[LOWEST]),
        freezing("stops the highest where it rests", &[HIGHEST]),
        freezing("stops each end where it rests", &BOTH),
    ]
}

/// A drive that goes on with an end alone once the other has left its z and its y.
fn freezing(name: &str, ends: &'static [usize]) -> Economy {
    answering(name, move |solve| {
        let course = solve.course(&RIGHT);
        BOTH.map(|end| {
            let rests = |&sweep: &usize| ends.contains(&end) && still(&course[..=sweep], 1, &[end, end + 2]);
            let sweep = (1..course.len()).find(rests).unwrap_or(course.len() - 1);
            course[sweep].z[end].clone()
        })
    })
}

/// Some commands alone decide that all rest. With too few of them to leave some out all do.
fn with_ends_in_part() -> Vec<Economy> {
    type InPart = fn(usize, usize) -> bool;
    let parts: [(&str, InPart); 6] = [
        ("the first command", |k, _| k == 0),
        ("the last command", |k, n| k + 1 == n),
        ("all but the last command", |k, n| n == 1 || k + 1 < n),
        ("all but the first command", |k, n| n == 1 || k > 0),
        ("every full group of four", |k, n| n < 4 || k < n / 4 * 4),
        ("every fourth command", |k, _| k % 4 == 0),
    ];
    let of = |(name, part): (&str, InPart)| {
        answering(&format!("ends when {name} rests"), move |solve| {
            let course = solve.course(&RIGHT);
            let n = solve.start.len();
            let alike = |sweep: usize, k: usize| {
                (0..4).all(|list| course[sweep].lists()[list][k] == course[sweep - 1].lists()[list][k])
            };
            let rests = |&sweep: &usize| (0..n).filter(|&k| part(k, n)).all(|k| alike(sweep, k));
            let sweep = (1..course.len()).find(rests).unwrap_or(course.len() - 1);
            course[sweep].z.clone()
        })
    };
    parts.into_iter().map(of).collect()
}

fn with_other_sweeps() -> Vec<Economy> {
    let sweeping = |name: &str, sweeps: fn(usize) -> usize| drive(name, Ways { sweeps, ..RIGHT });
    vec![
        sweeping("makes no sweep", |_| 0),
        sweeping("sweeps once", |_| 1),
        sweeping("leaves out the last sweep of the ends", |sweeps| sweeps - 1),
        sweeping("makes a sweep of the ends too many", |sweeps| sweeps + 1),
        sweeping("shares the sweeps between the ends", |sweeps| sweeps.div_ceil(2)),
        sweeping("makes eight sweeps at most", |sweeps| sweeps.min(8)),
    ]
}

fn with_other_answers() -> Vec<Economy> {
    let last = |name: &str, answer: fn(&[Iterate]) -> Ends| drive(name, Ways { answer, ..RIGHT });
    vec![
        answering("answers the limits", |solve| [solve.problem.lower.clone(), solve.problem.upper.clone()]),
        answering("answers the start", |solve| [solve.start.clone(), solve.start.clone()]),
        answering("answers the commands of the lows twice", |solve| {
            BOTH.map(|_| solve.commands(&solve.ranges[LOWEST]))
        }),
        answering("answers the commands of the highs twice", |solve| {
            BOTH.map(|_| solve.commands(&solve.ranges[HIGHEST]))
        }),
        answering("answers the commands of the middle twice", |solve| {
            let [lows, highs] = &solve.ranges;
            let middle: Vec<i64> = lows.iter().zip(highs).map(|(low, high)| (low + high).div_euclid(2)).collect();
            BOTH.map(|_| solve.commands(&middle))
        }),
        answering("answers the commands of the lows, then of the highs", |solve| {
            BOTH.map(|end| solve.commands(&solve.ranges[end]))
        }),
        answering("answers the commands of the highs, then of the lows", |solve| {
            BOTH.map(|end| solve.commands(&solve.ranges[opposite(end)]))
        }),
        answering("answers the hull of both", |solve| solve.hull(solve.ranges.to_vec())),
        answering("answers the hull of all corners", |solve| solve.hull(solve.corners())),
        last("answers the highest first", |course| {
            let [lowest, highest] = course[course.len() - 1].z.clone();
            [highest, lowest]
        }),
        last("answers the lowest twice", |course| BOTH.map(|_| course[course.len() - 1].z[LOWEST].clone())),
        last("answers the highest twice", |course| BOTH.map(|_| course[course.len() - 1].z[HIGHEST].clone())),
        last("answers y", |course| course[course.len() - 1].y.clone()),
        last("answers the lowest and the widths", |course| {
            let [lowest, highest] = course[course.len() - 1].z.clone();
            let widths = lowest.iter().zip(&highest).map(|(low, high)| high - low).collect();
            [lowest, widths]
        }),
        last("answers the ends over all sweeps", |course| {
            let of = |end: usize, k: usize| course[1..].iter().map(move |iterate| iterate.z[end][k]);
            let n = course[0].z[LOWEST].len();
            [
                (0..n).map(|k| of(LOWEST, k).min().unwrap()).collect(),
                (0..n).map(|k| of(HIGHEST, k).max().unwrap()).collect(),
            ]
        }),
        last("answers a command's ends together", |course| {
            let [lowest, highest] = &course[course.len() - 1].z;
            let both: Vec<i64> = lowest.iter().zip(highest).flat_map(|(&low, &high)| [low, high]).collect();
            let (first, second) = both.split_at(lowest.len());
            [first.to_vec(), second.to_vec()]
        }),
        answering("answers commands and bounds", |solve| {
            let inputs = [&solve.ranges[LOWEST][..], &solve.target].concat();
            let answer = answer(&solve.problem, &inputs, &solve.start);
            [answer.commands, answer.bounds]
        }),
        answering("answers the commands less and plus their bounds", |solve| {
            let inputs = [&solve.ranges[LOWEST][..], &solve.target].concat();
            let answer = answer(&solve.problem, &inputs, &solve.start);
            let moved = |sign: i64| answer.commands.iter().zip(&answer.bounds).map(|(z, e)| z + sign * e).collect();
            [moved(-1), moved(1)]
        }),
        of_ranges("takes the first step's limits for the ends", &[0], |inputs, out| {
            let mut solve = Solve::of(inputs);
            let motors = solve.problem.sizes.motors;
            for k in motors..solve.start.len() {
                solve.problem.lower[k] = solve.problem.lower[k % motors];
                solve.problem.upper[k] = solve.problem.upper[k % motors];
            }
            write(&bytes(&solve.answer(&RIGHT).concat()), out)
        }),
    ]
}

/// The right answer's bytes.
fn right_bytes(inputs: &[&[u8]]) -> Vec<u8> {
    bytes(&Solve::of(inputs).answer(&RIGHT).concat())
}

fn with_other_bytes() -> Vec<Economy> {
    let changing = |name: &str, change: fn(&mut [u8])| {
        of_ranges(name, &[0], move |_, out| {
            change(out);
            0
        })
    };
    vec![
        changing("writes the ends least significant byte first", |out| out.chunks_mut(4).for_each(<[u8]>::reverse)),
        changing("writes nothing", take_back),
        changing("leaves the last word", |out| {
            let from = out.len() - 4;
            out[from..].copy_from_slice(&untouched(from + 4)[from..]);
        }),
        of_ranges("touches the buffer of refused ranges", &[13, 16, 14, 15], |inputs, out| {
            out.fill(0);
            range_number(inputs, out.len())
        }),
        of_ranges("writes zeros where ranges are 13", &[13], |_, out| {
            out.fill(0);
            13
        }),
    ]
}

/// Leaves the buffer as it was before the reference wrote to it.
fn take_back(out: &mut [u8]) {
    out.copy_from_slice(&untouched(out.len()));
}

fn range_number(inputs: &[&[u8]], out_len: usize) -> Number {
    range_solve(inputs, &mut vec![0; out_len])
}

fn range_solve(inputs: &[&[u8]], out: &mut [u8]) -> Number {
    Reference { rules: Rules::default() }.call(Kind::RangeSolve, &[], inputs, out)
}

fn with_other_lengths() -> Vec<Economy> {
    type Fits = fn(usize, usize) -> bool;
    let fitting = |name: &str, at: &'static [Number], fits: Fits| {
        of_ranges(name, at, move |inputs, out| {
            let answer = right_bytes(inputs);
            if !fits(out.len(), answer.len()) {
                return 15;
            }
            out.iter_mut().zip(answer).for_each(|(to, byte)| *to = byte);
            0
        })
    };
    vec![
        fitting("takes the length of a solve's answer and no other", &[0, 15], |length, exact| length == exact + 8),
        fitting("takes the length of a solve's answer too", &[15], |length, exact| length == exact + 8),
        fitting("takes a longer buffer for the ends", &[15], |length, exact| length > exact),
        fitting("takes the lowest commands alone", &[15], |length, exact| 2 * length == exact),
        fitting("takes the ends in 64 bits", &[15], |length, exact| length == 2 * exact),
        fitting("takes any length", &[15], |_, _| true),
        of_ranges("writes what fits of the ends", &[15], |inputs, out| {
            out.iter_mut().zip(right_bytes(inputs)).for_each(|(to, byte)| *to = byte);
            15
        }),
        of_ranges("says 13 for another length of the answer", &[15], |_, _| 13),
    ]
}

/// The sizes of an image that passed the checks.
fn sizes_of(inputs: &[&[u8]]) -> Sizes {
    Sizes::of_words(&words(&inputs[0][..4 * HEADER_WORDS])).expect("the sizes are right")
}

/// Zeros for the ranges: what else is wrong.
fn otherwise(inputs: &[&[u8]], out_len: usize) -> Number {
    let zeros = vec![0; 8 * sizes_of(inputs).states];
    range_number(&[inputs[0], &zeros, inputs[2], inputs[3]], out_len)
}

/// 13, unless a test of each value's low, high and limit lets the ranges pass and nothing else is wrong.
fn tested(inputs: &[&[u8]], out: &mut [u8], fits: impl Fn(i64, i64, i64) -> bool) -> Number {
    tested_at(inputs, out, |_, low, high, limit| fits(low, high, limit))
}

/// The same with the value's index and the number of values.
fn tested_at(inputs: &[&[u8]], out: &mut [u8], fits: impl Fn((usize, usize), i64, i64, i64) -> bool) -> Number {
    let states = sizes_of(inputs).states;
    if inputs[1].len() != 8 * states {
        return 13;
    }
    let ([lows, highs], problem) = (ends_of(inputs[1]), open(inputs[0], Rules::default()).expect("it is 13 or less"));
    if !(0..states).all(|i| fits((i, states), lows[i], highs[i], problem.input_limits[i])) {
        return 13;
    }
    match otherwise(inputs, out.len()) {
        0 => write(&right_bytes(inputs), out),
        number => number,
    }
}

fn within(low: i64, high: i64, limit: i64) -> bool {
    low.abs() <= limit && high.abs() <= limit
}

fn with_other_tests() -> Vec<Economy> {
    type Fits = fn(i64, i64, i64) -> bool;
    let testing = |name: &str, fits: Fits| of_ranges(name, &[13], move |inputs, out| tested(inputs, out, fits));
    let stricter = |name: &str, fits: Fits| {
        of_ranges(name, &[0], move |inputs, out| match tested(inputs, out, fits) {
            0 => 0,
            number => {
                take_back(out);
                number
            }
        })
    };
    type At = fn((usize, usize), i64, i64, i64) -> bool;
    let at = |name: &str, fits: At| of_ranges(name, &[13], move |inputs, out| tested_at(inputs, out, fits));
    vec![
        testing("does not test a low above its high", within),
        testing("tests nothing but the length", |_, _, _| true),
        testing("tests the lows alone against the limit", |low, high, limit| low <= high && low.abs() <= limit),
        testing("tests the highs alone against the limit", |low, high, limit| low <= high && high.abs() <= limit),
        testing("does not test the limits", |low, high, _| low <= high),
        testing("takes a range that crosses by a count", |low, high, limit| {
            low <= high + 1 && within(low, high, limit)
        }),
        testing("takes a range whose ends are exchanged", |low, high, limit| within(low, high, limit) || low > high),
        testing("takes an end a count beyond the limit", |low, high, limit| {
            low <= high && within(low, high, limit + 1)
        }),
        testing("takes a low a count beyond the limit", |low, high, limit| {
            low <= high && low >= -limit - 1 && high <= limit
        }),
        testing("takes a high a count beyond the limit", |low, high, limit| {
            low <= high && low >= -limit && high <= limit + 1
        }),
        testing("tests the magnitude in 32 bits", |low, high, limit| {
            let fits = |end: i64| i64::from((end as i32).wrapping_abs()) <= limit;
            low <= high && fits(low) && fits(high)
        }),
        testing("tests the ends in 16 bits", |low, high, limit| {
            low <= high && within(i64::from(low as i16), i64::from(high as i16), limit)
        }),
        testing("tests the ends in 8 bits", |low, high, limit| {
            low <= high && within(i64::from(low as i8), i64::from(high as i8), limit)
        }),
        testing("tests the width against the limits", |low, high, limit| low <= high && high - low <= 2 * limit),
        testing("tests the middle against the limit", |low, high, limit| {
            low <= high && (low + high).abs() <= 2 * limit
        }),
        testing("tests that some of the range is within the limit", |low, high, limit| {
            low <= high && low <= limit && high >= -limit
        }),
        at("tests the first value alone for crossing", |(i, _), low, high, limit| {
            (i > 0 || low <= high) && within(low, high, limit)
        }),
        at("tests the last value alone for crossing", |(i, n), low, high, limit| {
            (i + 1 < n || low <= high) && within(low, high, limit)
        }),
        at("tests all but the last value for crossing", |(i, n), low, high, limit| {
            (i + 1 == n || low <= high) && within(low, high, limit)
        }),
        at("tests all but the first value for crossing", |(i, _), low, high, limit| {
            (i == 0 || low <= high) && within(low, high, limit)
        }),
        at("tests the first value's limit alone", |(i, _), low, high, limit| {
            low <= high && (i > 0 || within(low, high, limit))
        }),
        at("tests all but the last value's limit", |(i, n), low, high, limit| {
            low <= high && (i + 1 == n || within(low, high, limit))
        }),
        stricter("refuses a range of one value", |low, high, _| low < high),
        stricter("refuses an end at the limit", |low, high, limit| within(low, high, limit - 1)),
        stricter("refuses a low at the limit", |low, _, limit| low > -limit),
        stricter("refuses a high at the limit", |_, high, limit| high < limit),
        stricter("refuses a range without zero", |low, high, _| low <= 0 && high >= 0),
        stricter("tests the width against one limit", |low, high, limit| high - low <= limit),
        of_ranges("tests every value against the first limit", &[0, 13], |inputs, out| {
            other_limits(inputs, out, |_, _| 0)
        }),
        of_ranges("tests every value against the last limit", &[0, 13], |inputs, out| {
            other_limits(inputs, out, |_, n| n - 1)
        }),
        of_ranges("tests every value against the next limit", &[0, 13], |inputs, out| {
            other_limits(inputs, out, |i, n| (i + 1) % n)
        }),
    ]
}

/// Tests each value against another's limit.
fn other_limits(inputs: &[&[u8]], out: &mut [u8], other: fn(usize, usize) -> usize) -> Number {
    let problem = open(inputs[0], Rules::default()).expect("it is 13 or less");
    take_back(out);
    tested_at(inputs, out, |(i, n), low, high, _| low <= high && within(low, high, problem.input_limits[other(i, n)]))
}

/// Ranges that are read otherwise.
fn with_other_reading() -> Vec<Economy> {
    type Read = fn(&[u8], usize) -> Option<Vec<u8>>;
    /// The range solve of other bytes, where there are such.
    fn reread(name: &str, at: &'static [Number], read: Read) -> Economy {
        of_ranges(name, at, move |inputs, out| {
            let Some(ranges) = read(inputs[1], sizes_of(inputs).states) else {
                return 13;
            };
            take_back(out);
            range_solve(&[inputs[0], &ranges, inputs[2], inputs[3]], out)
        })
    }
    let order = |name: &str, place: fn(usize, usize) -> usize| {
        of_ranges(name, &[0, 13], move |inputs, out| {
            let (old, states) = (words(inputs[1]), sizes_of(inputs).states);
            if inputs[1].len() != 8 * states {
                return 13;
            }
            let new: Vec<i64> = (0..2 * states).map(|i| old[place(i, states)]).collect();
            take_back(out);
            range_solve(&[inputs[0], &bytes(&new), inputs[2], inputs[3]], out)
        })
    };
    vec![
        order("reads the highs first", |i, states| (i + states) % (2 * states)),
        order("reads low and high in turn", |i, states| if i < states { 2 * i } else { 2 * (i - states) + 1 }),
        order(
            "reads the values from the last on",
            |i, states| {
                if i < states { states - 1 - i } else { 3 * states - 1 - i }
            },
        ),
        reread("exchanges ends that cross", &[13], |ranges, states| {
            let [mut lows, mut highs] = ends_of(ranges.get(..8 * states).filter(|all| all.len() == ranges.len())?);
            for (low, high) in lows.iter_mut().zip(&mut highs) {
                (*low, *high) = (*low.min(high), *low.max(high));
            }
            Some(bytes(&[lows, highs].concat()))
        }),
        of_ranges("holds the ends to the limits", &[13], |inputs, out| {
            let problem = open(inputs[0], Rules::default()).expect("it is 13 or less");
            let states = problem.sizes.states;
            if inputs[1].len() != 8 * states {
                return 13;
            }
            let words = words(inputs[1]);
            let limit = |i: usize| problem.input_limits[i % states];
            let held: Vec<i64> = (0..2 * states).map(|i| held(words[i], (-limit(i), limit(i)))).collect();
            range_solve(&[inputs[0], &bytes(&held), inputs[2], inputs[3]], out)
        }),
        reread("takes a state for ranges too", &[13], |ranges, states| {
            (ranges.len() == 4 * states).then(|| ranges.repeat(2))
        }),
        reread("drops what is behind the ranges", &[13], |ranges, states| ranges.get(..8 * states).map(<[u8]>::to_vec)),
        reread("drops the last bytes of the ranges", &[13], |ranges, _| Some(ranges[..ranges.len() / 4 * 4].to_vec())),
        reread("takes zeros for what is missing", &[13], |ranges, states| {
            let mut ranges = ranges.to_vec();
            (ranges.len() < 8 * states).then(|| {
                ranges.resize(8 * states, 0);
                ranges
            })
        }),
        of_ranges("says 15 for another length of the ranges", &[13], |inputs, _| {
            if inputs[1].len() == 8 * sizes_of(inputs).states { 13 } else { 15 }
        }),
        of_ranges("says 7 for a low above its high", &[13], |inputs, _| {
            let [lows, highs] = ends_of(inputs[1]);
            let whole = inputs[1].len() == 8 * sizes_of(inputs).states;
            if whole && lows.iter().zip(highs).any(|(&low, high)| low > high) { 7 } else { 13 }
        }),
    ]
}

/// Numbers in another order.
fn with_other_orders() -> Vec<Economy> {
    type Is13 = fn(&[&[u8]]) -> bool;
    let length: Is13 = |inputs| inputs[1].len() != 8 * sizes_of(inputs).states;
    let crosses: Is13 = |inputs| {
        let [lows, highs] = ends_of(inputs[1]);
        lows.iter().zip(highs).any(|(&low, high)| low > high)
    };
    let beyond: Is13 = |inputs| {
        let problem = open(inputs[0], Rules::default()).expect("it is 13");
        let states = problem.sizes.states;
        words(inputs[1]).iter().enumerate().any(|(i, end)| end.abs() > problem.input_limits[i % states])
    };
    let mut economies = Vec::new();
    // Each with the other reasons, which are still in their place.
    let reasons: [(&str, Is13, [Is13; 2]); 3] = [
        ("the length of the ranges", length, [crosses, beyond]),
        ("a low above its high", crosses, [length, beyond]),
        ("the limits", beyond, [length, crosses]),
    ];
    for (name, is_due, others) in reasons {
        for (behind, before) in [("16", &[16][..]), ("14", &[16, 14]), ("15", &[16, 14, 15]), ("15 alone", &[15])] {
            economies.push(of_ranges(&format!("tests {name} behind {behind}"), &[13], move |inputs, out| {
                let number = otherwise(inputs, out.len());
                let passes = is_due(inputs) && !others.iter().any(|other| other(inputs));
                if passes && before.contains(&number) { number } else { 13 }
            }));
        }
    }
    economies.extend([
        of_ranges("tests the ranges before 12", &[12], |inputs, _| {
            let sizes = sizes_of(inputs);
            let [lows, highs] = ends_of(inputs[1]);
            let fits = inputs[1].len() == 8 * sizes.states && lows.iter().zip(highs).all(|(&low, high)| low <= high);
            if fits { 12 } else { 13 }
        }),
        of_ranges("tests the length of the ranges before the tables", &[5, 7, 17, 8, 9, 10, 11, 12], |inputs, out| {
            let number = range_number(inputs, out.len());
            if inputs[1].len() == 8 * sizes_of(inputs).states { number } else { 13 }
        }),
        of_ranges("tests a low above its high before all else", &[6, 3, 5, 7, 17, 8, 9, 10, 11, 12], |inputs, out| {
            let [lows, highs] = ends_of(inputs[1]);
            let crosses = lows.iter().zip(highs).any(|(&low, high)| low > high);
            if crosses { 13 } else { range_number(inputs, out.len()) }
        }),
        of_ranges("tests the start before the target of ranges", &[16], |inputs, _| {
            let problem = open(inputs[0], Rules::default()).expect("it is 16");
            if read_start(&problem, inputs[3]).is_ok() { 16 } else { 14 }
        }),
        of_ranges("tests the length of the answer first", &[13, 16, 14], |inputs, out| {
            let number = range_number(inputs, out.len());
            if out.len() == answer_len(sizes_of(inputs).commands()) { number } else { 15 }
        }),
        of_ranges("says 12 for all ranges", &[0], |_, out| {
            take_back(out);
            12
        }),
        of_ranges("takes the solve of the lows for its number", &[13], |inputs, out| {
            let n = sizes_of(inputs).commands();
            let lows = &inputs[1][..inputs[1].len() / 2];
            match solve([inputs[0], lows, inputs[2], inputs[3]], &mut vec![0; crate::solve::answer_len(n)]) {
                0 => write(&vec![0; answer_len(n)], out),
                number => number,
            }
        }),
    ]);
    economies
}
