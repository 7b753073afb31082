//! Request 12 at random: range solves, and the solves of states inside their ranges.

use super::{in_word, sums_in_range};
use crate::drive::{Call, Kind, Outcome};
use crate::edges::met;
use crate::generate::{self, Plan, SolveCase};
use crate::harness::{Harness, problem_of};
use crate::image::{Number, Problem, bytes, words};
use crate::random::Random;
use crate::ranges::{self, BOTH, Carried, Ends, HIGHEST, LOWEST, ends_of, opposite, products_at, with_target};
use crate::rest::{self, MOST_SWEEPS, Pair};
use crate::solve::{self, Rounded, read_start, read_target};

type Range = (i64, i64);

/// Some of the accepted problems are followed through all sweeps, and behind some comes one that is followed to its rest.
pub fn trial(harness: &mut Harness, index: u64, random: &mut Random) {
    let plan = Plan::of_ranges(random, index);
    let (case, ranges) = generate::range_case(random, &plan, index);
    let out_len = generate::range_len(random, &plan, &case.draft.sizes);
    let outcome = range_solve(harness, &case, &case.image, &ranges, out_len);
    harness.meet_edges(edges_of_number(&case, &ranges, out_len, outcome.number));
    as_state(harness, &case);
    match index % 8 {
        0 => {
            let [lows, highs] = ends_of(&ranges);
            follow(harness, random, &case, &lows.into_iter().zip(highs).collect::<Vec<Range>>());
        }
        2 | 6 => {
            let (case, ranges) = generate::few_ranges(random);
            about_rest(harness, &case, &ranges);
        }
        _ => {}
    }
}

fn range_solve(harness: &mut Harness, case: &SolveCase, image: &[u8], ranges: &[u8], out_len: usize) -> Outcome {
    harness.compare(&Call::on_buffers(Kind::RangeSolve, &[image, ranges, &case.target, &case.start], out_len))
}

fn solve(harness: &mut Harness, case: &SolveCase, image: &[u8], state: &[u8]) -> Outcome {
    let out_len = solve::answer_len(case.draft.sizes.commands());
    harness.compare(&Call::on_buffers(Kind::Solve, &[image, state, &case.target, &case.start], out_len))
}

/// Any state, accepted or not, as ranges of one value: number and commands are those of the solve.
fn as_state(harness: &mut Harness, case: &SolveCase) {
    let n = case.draft.sizes.commands();
    let found = range_solve(harness, case, &case.image, &case.state.repeat(2), ranges::answer_len(n));
    let solved = solve(harness, case, &case.image, &case.state);
    let twice = solved.written.map(|answer| answer[..4 * n].repeat(2));
    let holds = (found.number, found.written) == (solved.number, twice);
    harness.check(holds, || "  ranges of one value are not their solve".to_string());
}

/// Every sweep at both ends, beside states inside the ranges and beside narrower ranges, and the drive's answers for fewer
/// sweeps.
fn follow(harness: &mut Harness, random: &mut Random, case: &SolveCase, ranges: &[Range]) {
    let (problem, target, start) = (case.draft.problem(), words(&case.target), words(&case.start));
    let ends = |ranges: &[Range]| with_target(ends_of(&generate::lent(ranges)), &target);
    let (inputs, narrower) = (ends(ranges), generate::inside(random, ranges));
    let mut carried = Carried::new(&problem, &inputs, &start);
    let mut inner = Carried::new(&problem, &ends(&narrower), &start);
    let states: Vec<Vec<i64>> = (0..6).map(|turn| generate::state_inside(random, ranges, turn)).collect();
    let scheme = |state: &Vec<i64>| Rounded::new(&problem, &[state, &target[..]].concat(), &start);
    let mut solves: Vec<Rounded> = states.iter().map(scheme).collect();
    let mut old = carried.z.clone();
    let mut holds = linear_in_range(&problem, &carried, &inputs) && iterates_in_range(&problem, &carried);
    let iterations = problem.sizes.iterations;
    for sweep in 1..=iterations {
        holds &= products_in_range(&problem, &carried);
        old = carried.z.clone();
        carried.step();
        inner.step();
        solves.iter_mut().for_each(Rounded::step);
        holds &= iterates_in_range(&problem, &carried) && encloses(&carried, [&inner.t, &inner.z, &inner.y]);
        holds &= solves.iter().all(|solve| {
            let [t, z, y] = [&solve.t, &solve.z, &solve.y].map(|list| [list.clone(), list.clone()]);
            encloses(&carried, [&t, &z, &y])
        });
        harness.check(holds, || format!("  request 12 fails in sweep {sweep} of {ranges:?}, {:?}", case.draft.body));
        // All prefixes of a short run, some of a long one.
        if sweep <= 3 || sweep == iterations || random.one_in(iterations / 4 + 1) {
            let state = random.below(states.len());
            let list = if sweep == iterations { &states[..] } else { &states[state..=state] };
            answers(harness, case, sweep, [ranges, &narrower], [&carried.z, &inner.z], list);
        }
    }
    harness.meet_edges(edges_of_ends(&problem, ranges, &carried, &old));
    harness.meet_edges(edges_of_solves(&carried, &solves, &inner));
}

/// The drive's own answers after some sweeps: those of the ranges, of narrower ones, and of states inside them, whose
/// commands lie between.
fn answers(
    harness: &mut Harness,
    case: &SolveCase,
    sweeps: usize,
    ranges: [&[Range]; 2],
    ends: [&Ends; 2],
    states: &[Vec<i64>],
) {
    let (n, image) = (case.draft.sizes.commands(), case.draft.clone().iterations(sweeps).image());
    for (ranges, ends) in ranges.into_iter().zip(ends) {
        let found = range_solve(harness, case, &image, &generate::lent(ranges), ranges::answer_len(n));
        let holds = found.written == Some(bytes(&ends.concat()));
        harness.check(holds, || format!("  another answer than after {sweeps} of more sweeps"));
    }
    for state in states {
        let found = solve(harness, case, &image, &bytes(state));
        let commands = words(&found.written.unwrap_or_default()[..4 * n]);
        let holds = is_between(&commands, &commands, ends[0]);
        harness.check(holds, || format!("  after {sweeps} sweeps the commands of {state:?} are not between"));
    }
}

fn is_between(lows: &[i64], highs: &[i64], ends: &Ends) -> bool {
    let [lowest, highest] = ends;
    lows.iter().zip(lowest).all(|(low, lowest)| lowest <= low)
        && highs.iter().zip(highest).all(|(high, end)| high <= end)
}

/// Do the carried values enclose these t, z and y?
fn encloses(carried: &Carried, others: [&Ends; 3]) -> bool {
    let own = [&carried.t, &carried.z, &carried.y];
    own.into_iter().zip(others).all(|(own, other)| is_between(&other[LOWEST], &other[HIGHEST], own))
}

/// The rows of h at both ends.
fn linear_in_range(problem: &Problem, carried: &Carried, inputs: &Ends) -> bool {
    BOTH.into_iter().all(|end| {
        problem.gains.rows().all(|row| sums_in_range(products_at(row, inputs, end)))
            && carried.linear[end].iter().all(|&h| in_word(problem, h))
    }) && is_ordered(&carried.linear)
}

/// The rows of M y and the products of the old commands in a sweep about to be made.
fn products_in_range(problem: &Problem, carried: &Carried) -> bool {
    let row = |row: &[i64], end: usize| {
        sums_in_range(products_at(row, &carried.y, end)) && in_word(problem, carried.sum(row, &carried.y, end))
    };
    let old = |&z: &i64| in_word(problem, carried.product(problem.momentum, z));
    BOTH.into_iter().all(|end| problem.descent.rows().all(|of| row(of, end)) && carried.z[end].iter().all(old))
}

fn is_ordered([lowest, highest]: &Ends) -> bool {
    lowest.iter().zip(highest).all(|(low, high)| low <= high)
}

/// What a sweep left, with the product of its new commands.
fn iterates_in_range(problem: &Problem, carried: &Carried) -> bool {
    let factor = problem.sizes.one() + problem.momentum;
    let fits = |end: usize, k: usize| {
        let (t, z, y) = (carried.t[end][k], carried.z[end][k], carried.y[end][k]);
        let values = [t, z, y, carried.product(factor, z)];
        (problem.lower[k]..=problem.upper[k]).contains(&z) && values.iter().all(|&value| in_word(problem, value))
    };
    [&carried.t, &carried.z, &carried.y].into_iter().all(is_ordered)
        && BOTH.into_iter().all(|end| (0..carried.z[end].len()).all(|k| fits(end, k)))
}

/// Sweeps about the moment at which all ends come to rest, or the most where they do not.
fn about_rest(harness: &mut Harness, case: &SolveCase, ranges: &[u8]) {
    let problem = case.draft.problem();
    let inputs = with_target(ends_of(ranges), &words(&case.target));
    let mut carried = Carried::new(&problem, &inputs, &words(&case.start));
    let course = rest::course(&mut carried, MOST_SWEEPS, &|_| false);
    let moment = (1..course.len()).find(|&sweep| rest::rests(&course[..=sweep]));
    let stays = moment.is_none_or(|moment| course[moment..].iter().all(|pair| *pair == course[moment]));
    harness.check(stays, || format!("  ends at rest move again: {:?}", case.draft.body));
    harness.meet_edges(edges_of_rest(&course, moment));
    let n = problem.sizes.commands();
    let sweeps = if moment.is_some() { rest::about([moment, None]) } else { vec![MOST_SWEEPS] };
    for sweeps in sweeps {
        let image = case.draft.clone().iterations(sweeps).image();
        let found = range_solve(harness, case, &image, ranges, ranges::answer_len(n));
        let holds = found.written == Some(bytes(&course[sweeps][0]));
        harness.check(holds, || format!("  another answer than after {sweeps} of more sweeps"));
    }
}

/// What a run has to meet.
pub fn edges() -> impl Iterator<Item = &'static str> {
    REFUSED.into_iter().chain(ENDS).chain(SOLVES).chain(REST)
}

const REFUSED: [&str; 18] = [
    "13 by half of the length",
    "13 by one and a half of the length",
    "13 by another length",
    "13 by a single low above its high",
    "13 by a single low below its limit",
    "13 by a single high above its limit",
    "13 by both ends of a range above its limit",
    "13 by both ends of a range below its limit",
    "13 by a low above the limit and its high",
    "13 by a high below the limit and its low",
    "13 by the first range of several alone",
    "13 by the last range of several alone",
    "13 where the target is 16",
    "13 where the start is 14",
    "13 where the answer is 15",
    "15 by the length of a solve's answer",
    "15 by the length of one end",
    "15 by twice the length",
];

/// For calls whose image is accepted: why they are 13 or 15.
fn edges_of_number(case: &SolveCase, ranges: &[u8], out_len: usize, number: Number) -> Vec<&'static str> {
    if !matches!(number, 13 | 15) {
        return Vec::new();
    }
    let problem = problem_of(&case.image);
    let (states, n, due) = (problem.sizes.states, problem.sizes.commands(), number == 13);
    let whole = ranges.len() == 8 * states;
    let [lows, highs] = if whole { ends_of(ranges) } else { BOTH.map(|_| vec![0; states]) };
    let limit = |i: usize| problem.input_limits[i];
    let bad = |i: usize| lows[i] > highs[i] || lows[i].abs() > limit(i) || highs[i].abs() > limit(i);
    let wrong: Vec<usize> = (0..states).filter(|&i| bad(i)).collect();
    let single = |holds: &dyn Fn(i64, i64, i64) -> bool| match wrong[..] {
        [i] => holds(lows[i], highs[i], limit(i)),
        _ => false,
    };
    let within = |value: i64, limit: i64| value.abs() <= limit;
    met(
        REFUSED,
        [
            due && ranges.len() == 4 * states,
            due && ranges.len() == 12 * states,
            due && !whole && !ranges.len().is_multiple_of(4 * states),
            single(&|low, high, limit| low > high && within(low, limit) && within(high, limit)),
            single(&|low, high, limit| low < -limit && within(high, limit)),
            single(&|low, high, limit| high > limit && within(low, limit)),
            single(&|low, high, limit| limit < low && low <= high),
            single(&|low, high, limit| low <= high && high < -limit),
            single(&|low, high, limit| low > limit && within(high, limit)),
            single(&|low, high, limit| high < -limit && within(low, limit)),
            states > 1 && wrong == [0],
            states > 1 && wrong == [states - 1],
            due && read_target(&problem, &case.target).is_err(),
            due && read_start(&problem, &case.start).is_err(),
            due && out_len != ranges::answer_len(n),
            number == 15 && out_len == solve::answer_len(n),
            number == 15 && out_len == 4 * n,
            number == 15 && out_len == 16 * n,
        ],
    )
}

const ENDS: [&str; 19] = [
    "ranges of one value each",
    "ranges of the whole limits",
    "a range of one value beside a wider one",
    "a low at its limit, its high inside",
    "a high at its limit, its low inside",
    "every lowest command below its highest",
    "the same ends in spite of wider ranges",
    "some ends the same, some not",
    "the ends of a command are its limits",
    "a limit holds the lowest alone",
    "a limit holds the highest alone",
    "each limit holds an end",
    "a limit holds both ends, which are apart",
    "ends above zero and below it",
    "a negative factor of M has an end to take",
    "a positive factor of M beside the diagonal has an end to take",
    "a negative factor of h has an end to take",
    "a target that is not zero beside a wider range",
    "the y step crosses commands that are apart",
];

/// The ends after the last sweep, which had these commands before it.
fn edges_of_ends(problem: &Problem, ranges: &[Range], carried: &Carried, old: &Ends) -> Vec<&'static str> {
    let Carried { t, z, y, .. } = carried;
    let (n, states) = (problem.sizes.commands(), problem.sizes.states);
    let limit = |i: usize| problem.input_limits[i];
    let wider = (0..states).any(|i| ranges[i].0 < ranges[i].1);
    let some_range = |at: &dyn Fn(usize, Range) -> bool| (0..states).any(|i| at(i, ranges[i]));
    let all_ranges = |at: &dyn Fn(usize, Range) -> bool| (0..states).all(|i| at(i, ranges[i]));
    let apart = |k: usize| z[LOWEST][k] < z[HIGHEST][k];
    let some = |at: &dyn Fn(usize) -> bool| (0..n).any(at);
    let (low, high) = (|k: usize| problem.lower[k], |k: usize| problem.upper[k]);
    let (below, above) = (|end: usize, k: usize| t[end][k] < low(k), |end: usize, k: usize| t[end][k] > high(k));
    let free = |end: usize, k: usize| !below(end, k) && !above(end, k);
    let spread = |values: &Ends, i: usize| values[LOWEST][i] < values[HIGHEST][i];
    let entry = |sign: i64| some(&|k| (0..n).any(|i| i != k && problem.descent[k][i] * sign > 0 && spread(y, i)));
    met(
        ENDS,
        [
            !wider,
            all_ranges(&|i, range| limit(i) > 0 && range == (-limit(i), limit(i))),
            wider && some_range(&|_, (low, high)| low == high),
            some_range(&|i, (low, high)| low == -limit(i) && low < high && high < limit(i)),
            some_range(&|i, (low, high)| high == limit(i) && low < high && low > -limit(i)),
            (0..n).all(apart),
            wider && !some(&apart),
            some(&apart) && !(0..n).all(apart),
            some(&|k| apart(k) && (z[LOWEST][k], z[HIGHEST][k]) == (low(k), high(k))),
            some(&|k| below(LOWEST, k) && free(HIGHEST, k)),
            some(&|k| above(HIGHEST, k) && free(LOWEST, k)),
            some(&|k| below(LOWEST, k) && above(HIGHEST, k)),
            some(&|k| spread(t, k) && !free(LOWEST, k) && !free(HIGHEST, k) && !apart(k)),
            some(&|k| z[LOWEST][k] < 0 && z[HIGHEST][k] > 0),
            entry(-1),
            entry(1),
            some(&|k| some_range(&|i, (low, high)| problem.gains[k][i] < 0 && low < high)),
            wider && some(&|k| problem.gains[k][states..].iter().any(|&gain| gain != 0)),
            problem.momentum > 0 && some(&|k| BOTH.into_iter().all(|end| old[end][k] != old[opposite(end)][k])),
        ],
    )
}

const SOLVES: [&str; 6] = [
    "a state's command is the lowest of ends apart",
    "a state's command is the highest of ends apart",
    "a state's command is strictly between",
    "all commands of a state are strictly between",
    "narrower ranges with the same answer",
    "narrower ranges with other ends, both of them",
];

/// The commands of states inside the ranges, and the ends of narrower ranges.
fn edges_of_solves(carried: &Carried, solves: &[Rounded], inner: &Carried) -> Vec<&'static str> {
    let [lowest, highest] = &carried.z;
    let n = lowest.len();
    let apart = |k: usize| lowest[k] < highest[k];
    let between = |z: &[i64], k: usize| lowest[k] < z[k] && z[k] < highest[k];
    let some = |at: &dyn Fn(&[i64], usize) -> bool| solves.iter().any(|solve| (0..n).any(|k| at(&solve.z, k)));
    let other = |end: usize| inner.z[end] != carried.z[end];
    met(
        SOLVES,
        [
            some(&|z, k| apart(k) && z[k] == lowest[k]),
            some(&|z, k| apart(k) && z[k] == highest[k]),
            some(&between),
            solves.iter().any(|solve| (0..n).all(|k| between(&solve.z, k))),
            inner.linear != carried.linear && inner.z == carried.z,
            other(LOWEST) && other(HIGHEST),
        ],
    )
}

const REST: [&str; 8] = [
    "the lowest end rests first",
    "the highest end rests first",
    "both ends rest with the same sweep",
    "the ends do not rest in 400 sweeps",
    "z is still for a sweep at both ends and moves again",
    "y is still at both ends while z moves, and z moves again",
    "the lowest end is still for a sweep and moves again",
    "the highest end is still for a sweep and moves again",
];

/// Where the ends come to rest, by a course of both ends of z and of y.
fn edges_of_rest(course: &[Pair], moment: Option<usize>) -> Vec<&'static str> {
    let n = course[0][0].len() / 2;
    let of = |sweep: usize, end: usize| {
        let [z, y] = &course[sweep];
        [&z[end * n..(end + 1) * n], &y[end * n..(end + 1) * n]]
    };
    let moves = |sweep: usize, end: usize| of(sweep, end) != of(sweep - 1, end);
    let last = BOTH.map(|end| (1..course.len()).rev().find(|&sweep| moves(sweep, end)).unwrap_or(0));
    let still = |end: usize| (1..last[end]).any(|sweep| !moves(sweep, end) && moves(sweep, opposite(end)));
    let rests = moment.is_some();
    met(
        REST,
        [
            rests && last[LOWEST] < last[HIGHEST],
            rests && last[HIGHEST] < last[LOWEST],
            rests && last[LOWEST] == last[HIGHEST],
            !rests,
            rest::is_still(course, 0),
            rest::is_still(course, 1),
            still(LOWEST),
            still(HIGHEST),
        ],
    )
}
