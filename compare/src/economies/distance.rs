//! Request 8's false economies: another R, m or rounding, a step that is not held or not exact, the D of other
//! commands, other bytes, and answers of another length.

use super::loops::{MISTAKES, shows};
use super::rest::{NEVER, Solve};
use super::{Economy, Table, lazy, lazy_solve, parts, solve};
use crate::distance::{differences, distance, largest, over};
use crate::drive::Kind;
use crate::image::{Number, Problem, products, words};
use crate::rules::{Times, Use};
use crate::solve::{answer_len, held};

pub fn economies() -> Vec<Economy> {
    let of_parts = [with_other_roundings(), with_other_largest(), with_other_margins(), with_other_ends()];
    let of_steps = [with_other_holds(), with_rounded_steps(), with_other_parts(), with_other_loops()];
    let written = [of_other_commands(), with_other_bytes(), with_other_lengths()];
    of_parts.into_iter().chain(of_steps).chain(written).flatten().collect()
}

/// An accepted solve with its commands.
struct Solved<'a> {
    solve: Solve<'a>,
    commands: Vec<i64>,
    bounds: Vec<i64>,
}

impl Solved<'_> {
    fn problem(&self) -> &Problem {
        &self.solve.problem
    }

    fn differences(&self) -> Vec<i128> {
        differences(self.problem(), &self.solve.inputs, &self.commands)
    }

    /// R.
    fn largest(&self) -> i128 {
        largest(&self.differences())
    }

    /// m.
    fn margin(&self) -> i64 {
        self.problem().least_margin()
    }

    fn right(&self) -> u64 {
        over(self.largest(), self.margin())
    }

    /// D of other commands.
    fn of(&self, commands: &[i64]) -> u64 {
        distance(self.problem(), &self.solve.inputs, commands)
    }

    /// D with other differences.
    fn with(&self, difference: impl Fn(usize) -> i128) -> u64 {
        let differences: Vec<i128> = (0..self.commands.len()).map(difference).collect();
        over(largest(&differences), self.margin())
    }

    /// D with other steps before they are held.
    fn stepping(&self, step: impl Fn(usize) -> i128) -> u64 {
        self.with(|k| held(step(k), self.limits(k)) - self.own(k))
    }

    fn one(&self) -> i128 {
        i128::from(self.problem().sizes.one())
    }

    /// A command in units of 2^-2b.
    fn own(&self, k: usize) -> i128 {
        self.one() * i128::from(self.commands[k])
    }

    fn limits(&self, k: usize) -> (i128, i128) {
        let (low, high) = self.problem().limits(Use::Distance, k);
        (self.one() * i128::from(low), self.one() * i128::from(high))
    }

    /// H z of a row.
    fn cost(&self, k: usize) -> i128 {
        products(&self.problem().cost[k], &self.commands).sum()
    }

    /// G of a row.
    fn linear(&self, k: usize) -> i128 {
        self.inputs(k).iter().sum()
    }

    /// The terms of G: the state's, then the target's.
    fn inputs(&self, k: usize) -> Vec<i128> {
        products(&self.problem().gains[k], &self.solve.inputs).collect()
    }

    /// Over 2^b, rounded down, and back.
    fn whole(&self, value: i128) -> i128 {
        value.div_euclid(self.one()) * self.one()
    }
}

/// A drive that writes something else for D.
fn writes(name: &str, change: impl Fn(&Solved, &mut [u8]) + 'static) -> Economy {
    let economy = lazy(name, move |kind, inputs, number, out| {
        if (kind, number) == (Kind::Solve, 0) {
            let [commands, bounds, d] = parts(out);
            let solved = Solved { solve: Solve::of(inputs), commands: words(commands), bounds: words(bounds) };
            change(&solved, d);
        }
        number
    });
    Economy { found_on: Table::Solves, ..economy }
}

/// A drive with another D.
fn other(name: &str, d: impl Fn(&Solved) -> u64 + 'static) -> Economy {
    writes(name, move |solved, out| out.copy_from_slice(&d(solved).to_be_bytes()))
}

fn with_other_roundings() -> Vec<Economy> {
    let quotient = |name: &str, rounded: fn(i128, i128) -> i128| {
        other(name, move |solved| rounded(solved.largest(), solved.margin().into()) as u64)
    };
    vec![
        quotient("rounds D down", |r, m| r / m),
        quotient("rounds D to the nearest count", |r, m| (2 * r + m) / (2 * m)),
        quotient("adds a count to D rounded down", |r, m| r / m + 1),
        quotient("divides in single precision", |r, m| (r as f32 / m as f32).ceil() as i128),
        quotient("divides in 32 bits", |r, m| (r as u32 as i128 + m - 1) / m),
        quotient("takes R for D", |r, _| r),
        quotient("multiplies by m", |r, m| r * m),
        other("divides by 2^b too", |s| over(s.largest(), s.margin() * s.problem().sizes.one())),
        other("rounds R down to whole counts", |s| over(s.whole(s.largest()), s.margin())),
        other("rounds R up to whole counts", |s| over(-s.whole(-s.largest()), s.margin())),
    ]
}

fn with_other_largest() -> Vec<Economy> {
    let taking = |name: &str, r: fn(&[i128], &Problem) -> i128| {
        other(&format!("takes {name} for R"), move |solved| {
            over(r(&solved.differences(), solved.problem()), solved.margin())
        })
    };
    let leaving = |(mistake, times): (&str, Times)| {
        other(&format!("{mistake} in R"), move |solved| {
            let n = solved.commands.len();
            solved.with(|k| if times(k, n) == 0 { 0 } else { solved.differences()[k] })
        })
    };
    let mut economies = vec![
        taking("the first difference", |d, _| d[0].abs()),
        taking("the last difference", |d, _| d[d.len() - 1].abs()),
        taking("the middle difference", |d, _| d[d.len() / 2].abs()),
        taking("the least difference", |d, _| d.iter().map(|d| d.abs()).min().unwrap()),
        taking("the largest difference of the first step", |d, problem| largest(&d[..problem.sizes.motors])),
        taking("the largest difference of the last step", |d, problem| largest(&d[d.len() - problem.sizes.motors..])),
        taking("the sum of all differences", |d, _| d.iter().map(|d| d.abs()).sum()),
        taking("the sum of all differences with their signs", |d, _| d.iter().sum::<i128>().abs()),
        taking("the largest difference upward", |d, _| d.iter().copied().max().unwrap().max(0)),
        taking("the largest difference downward", |d, _| d.iter().map(|d| -d).max().unwrap().max(0)),
    ];
    economies.extend(MISTAKES.into_iter().filter(|&(_, times)| leaves_out(times)).map(leaving));
    economies
}

/// Is some term of several not added at all?
fn leaves_out(times: Times) -> bool {
    (2..=16).any(|count| (0..count).any(|i| times(i, count) == 0))
}

fn with_other_margins() -> Vec<Economy> {
    let taking = |name: &str, m: fn(&Problem) -> i64| {
        other(&format!("takes {name} for m"), move |solved| over(solved.largest(), m(solved.problem()).max(1)))
    };
    let leaving = |(mistake, times): (&str, Times)| {
        other(&format!("{mistake} in m"), move |solved| {
            let margins = solved.problem().margins();
            let kept = (0..margins.len()).filter(|&k| times(k, margins.len()) > 0).map(|k| margins[k]);
            over(solved.largest(), kept.min().unwrap_or(margins[0]))
        })
    };
    let mut economies = vec![
        taking("the first margin", |problem| problem.margins()[0]),
        taking("the last margin", |problem| problem.margins()[problem.sizes.commands() - 1]),
        taking("the largest margin", |problem| problem.margins().into_iter().max().unwrap()),
        taking("the sum of all margins", |problem| problem.margins().iter().sum()),
        taking("the largest total of 10", Problem::largest_total),
        taking("2^b", |problem| problem.sizes.one()),
        taking("one", |_| 1),
        other("takes each row's own margin", |solved| {
            let margins = solved.problem().margins();
            solved.differences().iter().zip(margins).map(|(d, m)| over(d.abs(), m)).max().unwrap()
        }),
        other("takes the margin of the row of R", |solved| {
            let (differences, margins) = (solved.differences(), solved.problem().margins());
            let row = (0..margins.len()).max_by_key(|&k| differences[k].abs()).unwrap();
            over(solved.largest(), margins[row])
        }),
    ];
    economies.extend(MISTAKES.into_iter().filter(|&(_, times)| leaves_out(times)).map(leaving));
    economies.extend(with_least_entries());
    economies
}

/// The least of something else than the margins.
fn with_least_entries() -> [Economy; 4] {
    let least = |name: &str, entry: fn(&Problem, usize) -> i64| {
        other(&format!("takes the least {name} for m"), move |solved| {
            let entries = (0..solved.commands.len()).map(|k| entry(solved.problem(), k));
            over(solved.largest(), entries.min().unwrap().max(1))
        })
    };
    [
        least("diagonal entry", |problem, k| problem.cost[k][k]),
        least("row sum", |problem, k| problem.cost[k].iter().sum()),
        least("diagonal less the row's other entries", |problem, k| {
            2 * problem.cost[k][k] - problem.cost[k].iter().sum::<i64>()
        }),
        least("total of 10", |problem, k| problem.cost[k][k] + problem.radius(k)),
    ]
}

/// What becomes of the right D.
fn with_other_ends() -> Vec<Economy> {
    vec![
        other("answers 0 for D", |_| 0),
        other("answers 1 for a D of 0", |solved| solved.right().max(1)),
        other("holds D to the largest width", |solved| {
            let widths = (0..solved.commands.len()).map(|k| solved.problem().width(Use::Distance, k) as u64);
            solved.right().min(widths.max().unwrap())
        }),
        other("adds the largest bound to D", |solved| {
            solved.right() + *solved.bounds.iter().max().unwrap() as u32 as u64
        }),
        other("takes the largest bound for D", |solved| *solved.bounds.iter().max().unwrap() as u32 as u64),
    ]
}

fn with_other_holds() -> Vec<Economy> {
    type Hold = fn(i128, (i128, i128)) -> i128;
    let holding = |name: &str, hold: Hold| {
        other(name, move |solved| {
            let step = |k| solved.own(k) - solved.cost(k) - solved.linear(k);
            solved.with(|k| hold(step(k), solved.limits(k)) - solved.own(k))
        })
    };
    vec![
        holding("does not hold the step", |step, _| step),
        holding("holds the step at the low limit alone", |step, (low, _)| step.max(low)),
        holding("holds the step at the high limit alone", |step, (_, high)| step.min(high)),
        other("holds the difference to the limits", |solved| {
            solved.with(|k| held(-solved.cost(k) - solved.linear(k), solved.limits(k)))
        }),
        other("holds the step to the limits in counts", |solved| {
            let (one, step) = (solved.one(), |k| solved.own(k) - solved.cost(k) - solved.linear(k));
            solved.with(|k| held(step(k), (solved.limits(k).0 / one, solved.limits(k).1 / one)) - solved.own(k))
        }),
        other("takes a held command for one at the optimum", |solved| {
            let at_limit = |k| solved.own(k) == solved.limits(k).0 || solved.own(k) == solved.limits(k).1;
            solved.with(|k| if at_limit(k) { 0 } else { solved.differences()[k] })
        }),
        other("leaves out a command whose step is held", |solved| {
            let step = |k| solved.own(k) - solved.cost(k) - solved.linear(k);
            let is_held = |k| held(step(k), solved.limits(k)) != step(k);
            solved.with(|k| if is_held(k) { 0 } else { solved.differences()[k] })
        }),
    ]
}

/// A drive that takes something else from a command than H z + G.
fn stepping(name: &str, taken: fn(&Solved, usize) -> i128) -> Economy {
    other(name, move |solved| solved.stepping(|k| solved.own(k) - taken(solved, k)))
}

/// Roundings on the way to the step.
fn with_rounded_steps() -> Vec<Economy> {
    vec![
        stepping("takes the rounded h into D", |s, k| s.cost(k) + s.whole(s.linear(k))),
        stepping("takes h rounded up into D", |s, k| s.cost(k) - s.whole(-s.linear(k))),
        stepping("rounds H z down in D", |s, k| s.whole(s.cost(k)) + s.linear(k)),
        stepping("rounds M z down in D", |s, k| -s.whole(-s.cost(k)) + s.linear(k)),
        stepping("takes t of another sweep into D", |s, k| -s.whole(-s.cost(k)) + s.whole(s.linear(k))),
        stepping("rounds the step of D down", |s, k| -s.whole(-s.cost(k) - s.linear(k))),
        stepping("rounds the step of D toward zero", |s, k| (s.cost(k) + s.linear(k)) / s.one() * s.one()),
        stepping("rounds each product of h in D", |s, k| {
            s.cost(k) + s.inputs(k).into_iter().map(|term| s.whole(term)).sum::<i128>()
        }),
        stepping("rounds the parts of h apart in D", |s, k| {
            let terms = s.inputs(k);
            let (states, targets) = terms.split_at(s.problem().sizes.states);
            s.cost(k) + s.whole(states.iter().sum()) + s.whole(targets.iter().sum())
        }),
        stepping("adds the products of D in 32 bits", |s, k| (s.cost(k) + s.linear(k)) as i32 as i128),
        stepping("takes the undivided h for counts", |s, k| s.cost(k) + s.one() * s.linear(k)),
    ]
}

/// Parts of the step that are left out, or taken otherwise.
fn with_other_parts() -> Vec<Economy> {
    vec![
        stepping("leaves h out of D", |s, k| s.cost(k)),
        stepping("leaves the target out of D", |s, k| {
            s.cost(k) + s.inputs(k)[..s.problem().sizes.states].iter().sum::<i128>()
        }),
        stepping("leaves the state out of D", |s, k| {
            s.cost(k) + s.inputs(k)[s.problem().sizes.states..].iter().sum::<i128>()
        }),
        stepping("takes h with the other sign into D", |s, k| s.cost(k) - s.linear(k)),
        stepping("leaves H z out of D", |s, k| s.linear(k)),
        stepping("takes H z with the other sign into D", |s, k| s.linear(k) - s.cost(k)),
        stepping("takes H's diagonal alone into D", |s, k| {
            i128::from(s.problem().cost[k][k] * s.commands[k]) + s.linear(k)
        }),
        stepping("takes H's entries by magnitude into D", |s, k| {
            let row: Vec<i64> = s.problem().cost[k].iter().map(|entry| entry.abs()).collect();
            products(&row, &s.commands).sum::<i128>() + s.linear(k)
        }),
    ]
}

/// Terms of H z and of G that are missed or added twice.
fn with_other_loops() -> Vec<Economy> {
    let sum = |terms: &[i128], times: Times| {
        terms.iter().enumerate().map(|(i, term)| term * times(i, terms.len())).sum::<i128>()
    };
    let of_cost = |(mistake, times): (&str, Times)| {
        other(&format!("{mistake} in H z of D"), move |solved| {
            let terms = |k: usize| products(&solved.problem().cost[k], &solved.commands).collect::<Vec<i128>>();
            solved.stepping(|k| solved.own(k) - sum(&terms(k), times) - solved.linear(k))
        })
    };
    let of_linear = |(mistake, times): (&str, Times)| {
        other(&format!("{mistake} in h of D"), move |solved| {
            solved.stepping(|k| solved.own(k) - solved.cost(k) - sum(&solved.inputs(k), times))
        })
    };
    let mistakes = MISTAKES.into_iter().filter(|&(_, times)| shows(times, 16));
    mistakes.flat_map(|mistake| [of_cost(mistake), of_linear(mistake)]).collect()
}

fn of_other_commands() -> Vec<Economy> {
    type Commands = fn(&Solved) -> Vec<i64>;
    let of = |name: &str, commands: Commands| {
        other(&format!("answers D of {name}"), move |solved| solved.of(&commands(solved)))
    };
    vec![
        of("the commands before the last sweep", |s| {
            s.solve.commands(s.solve.sweeps() - 1, NEVER).pop().unwrap()[0].clone()
        }),
        of("the commands after a sweep more", |s| {
            s.solve.commands(s.solve.sweeps() + 1, NEVER).pop().unwrap()[0].clone()
        }),
        of("the commands after the first sweep", |s| s.solve.commands(1, NEVER).pop().unwrap()[0].clone()),
        of("the last y", |s| s.solve.commands(s.solve.sweeps(), NEVER).pop().unwrap()[1].clone()),
        of("the start", |s| s.solve.start.clone()),
        of("the cold start", |s| vec![0; s.commands.len()]),
        of("the commands without their signs", |s| s.commands.iter().map(|z| z.abs()).collect()),
        of("the bounds", |s| s.bounds.clone()),
    ]
}

fn with_other_bytes() -> Vec<Economy> {
    let written = |name: &str, bytes: fn(u64) -> [u8; 8]| {
        writes(name, move |solved, out| out.copy_from_slice(&bytes(solved.right())))
    };
    let moved = |name: &'static str, change: fn(&mut [u8])| {
        let economy = lazy(name, move |kind, _, number, out| {
            if (kind, number) == (Kind::Solve, 0) {
                change(out);
            }
            number
        });
        Economy { found_on: Table::Solves, ..economy }
    };
    vec![
        written("writes D least significant byte first", u64::to_le_bytes),
        written("writes the low word of D first", |d| d.rotate_left(32).to_be_bytes()),
        written("writes each word of D least significant byte first", |d| d.swap_bytes().rotate_left(32).to_be_bytes()),
        written("cuts D to 32 bits", |d| u64::from(d as u32).to_be_bytes()),
        written("holds D to 2^32 - 1", |d| d.min(u32::MAX.into()).to_be_bytes()),
        written("holds D to 2^31 - 1", |d| d.min(i32::MAX as u64).to_be_bytes()),
        written("takes D for a signed word", |d| (d as i32 as i64).to_be_bytes()),
        written(
            "writes all ones for a D of more than 32 bits",
            |d| {
                if d < 1 << 32 { d.to_be_bytes() } else { [255; 8] }
            },
        ),
        written("writes D as a double", |d| (d as f64).to_be_bytes()),
        moved("writes D before the commands", |out| out.rotate_right(8)),
        moved("writes D before the bounds", |out| {
            let half = (out.len() - 8) / 2;
            out[half..].rotate_right(8);
        }),
    ]
}

/// The right answer's bytes.
fn right(inputs: &[&[u8]]) -> Vec<u8> {
    let mut answer = vec![0; answer_len(inputs[3].len() / 4)];
    solve([inputs[0], inputs[1], inputs[2], inputs[3]], &mut answer);
    answer
}

/// As much of the answer as the buffer holds, if its length is one of these.
fn fitting(inputs: &[&[u8]], out: &mut [u8], fits: fn(usize, usize) -> bool) -> Number {
    let answer = right(inputs);
    if !fits(out.len(), answer.len()) {
        return 15;
    }
    out.iter_mut().zip(answer).for_each(|(to, byte)| *to = byte);
    0
}

fn with_other_lengths() -> Vec<Economy> {
    let economies = vec![
        lazy_solve("takes the former length and no other", &[0, 15], |inputs, out| {
            fitting(inputs, out, |length, exact| length + 8 == exact)
        }),
        lazy_solve("takes the former length too", &[15], |inputs, out| {
            fitting(inputs, out, |length, exact| length + 8 == exact)
        }),
        lazy_solve("takes a longer buffer for the answer", &[15], |inputs, out| {
            fitting(inputs, out, |length, exact| length > exact)
        }),
        lazy_solve("takes a buffer with a word more for the answer", &[15], |inputs, out| {
            fitting(inputs, out, |length, exact| length == exact + 8)
        }),
        lazy_solve("takes D in 32 bits too", &[15], |inputs, out| {
            fitting(inputs, out, |length, exact| length + 4 == exact)
        }),
        lazy_solve("writes what fits of an answer", &[15], |inputs, out| {
            fitting(inputs, out, |_, _| true);
            15
        }),
        lazy_solve("writes the commands where D does not fit", &[15], |inputs, out| {
            fitting(inputs, out, |length, exact| length + 8 == exact);
            15
        }),
    ];
    economies.into_iter().map(|economy| Economy { found_on: Table::Solves, ..economy }).collect()
}
