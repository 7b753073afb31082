//! Solves that come to rest, early, late or never, with sweeps about the moment. The papers sweep to the last; a drive
//! that ends earlier where nothing changes any more must answer the same.
//!
//! Two facts help to read them. A sweep that leaves z makes y equal to z, as (2^b + β) × z and β × z are rounded alike; so
//! the commands rest with the second such sweep in a row at the latest. And no e or q ever falls.
//!
//! The moments and the last answers are not worked out by hand, but by a model apart from this program.

use super::Expect::*;
use super::sums::{all_coupled, resized};
use super::{Case, case, sample, uncoupled};
use crate::draft::Draft;
use crate::image::{COST, GAIN, HIGH, LOW, MOMENTUM, STATE_LIMIT, Sizes};
use crate::rest::{MOST_SWEEPS, about};

/// A solve with its moments of rest: the first sweep that leaves all z and y, and the first that leaves all e and q.
pub struct Rest {
    pub name: String,
    pub draft: Draft,
    pub state: Vec<i64>,
    pub start: Vec<i64>,
    pub moments: Moments,
    /// The commands, then the bounds, after the first sweeps.
    rows: Vec<Vec<i64>>,
    /// And after 400.
    pub last: Vec<i64>,
}

/// The commands' moment and the bounds'; none where 400 sweeps do not suffice.
type Moments = [Option<usize>; 2];

fn at(commands: usize, bounds: usize) -> Moments {
    [Some(commands), Some(bounds)]
}

pub fn table() -> Vec<Case> {
    rests().iter().flat_map(cases).collect()
}

pub fn rests() -> Vec<Rest> {
    let lists = [single(), without_rest(), of_several(), movers(), at_limits(), coupled()];
    lists.into_iter().flatten().collect()
}

/// One and two sweeps, those about the moments, and the most where there is one command or some loop never rests. Of
/// commands that go around some sweeps more, as they are back at their start in between.
fn cases(rest: &Rest) -> Vec<Case> {
    let mut sweeps = about(rest.moments);
    sweeps.extend(1..=rest.rows.len().max(2));
    if rest.start.len() == 1 || rest.moments.contains(&None) {
        sweeps.push(MOST_SWEEPS);
    }
    if rest.moments[0].is_none() {
        sweeps.extend([8, 9, 10, 11, 12, 37, MOST_SWEEPS - 1]);
    }
    sweeps.sort();
    sweeps.dedup();
    let of = |sweeps: usize| {
        let expect = match rest.rows.get(sweeps - 1) {
            Some(row) => Answer(row.clone()),
            None if sweeps == MOST_SWEEPS => Answer(rest.last.clone()),
            None => Accepted,
        };
        let name = format!("{}, sweeps {sweeps}", rest.name);
        case(&name, &rest.draft.clone().iterations(sweeps), &rest.state, expect).start(&rest.start)
    };
    sweeps.into_iter().map(of).collect()
}

/// S with another H, β and limits.
fn s(cost: i64, momentum: i64, (low, high): (i64, i64)) -> Draft {
    sample().with(COST, &[cost]).with(MOMENTUM, &[momentum]).with(LOW, &[low]).with(HIGH, &[high])
}

/// One command: its h is the state.
fn one(
    name: &str,
    draft: Draft,
    [state, start]: [i64; 2],
    moments: Moments,
    rows: &[[i64; 2]],
    last: [i64; 2],
) -> Rest {
    let rows = rows.iter().map(|row| row.to_vec()).collect();
    Rest { name: name.to_string(), draft, state: vec![state], start: vec![start], moments, rows, last: last.to_vec() }
}

const WIDE: (i64, i64) = (-20, 20);
/// A quarter of the widest word.
const FAR: i64 = 1 << 30;

/// In words of 32 bits.
fn far(bits: u32, cost: i64, state_limit: i64) -> Draft {
    resized(s(cost, 0, (-FAR, FAR)), bits, 32).with(STATE_LIMIT, &[state_limit])
}

fn single() -> Vec<Rest> {
    vec![
        // z rests for a sweep at a limit, at −20 and at 0, or inside, at −3, while y comes back: it was −22, 5 and −1.
        one(
            "held at the low limit, then off it",
            s(8, 15, WIDE),
            [9, 0],
            at(8, 11),
            &[[-9, 1], [-18, 3], [-20, 5], [-20, 8], [-19, 12], [-18, 17], [-18, 24]],
            [-18, 40],
        ),
        one(
            "held at the high limit, then off it",
            s(12, 12, (-20, 0)),
            [1, -20],
            at(7, 6),
            &[[-6, 1], [0, 2], [0, 3], [-1, 3], [-2, 4], [-2, 4]],
            [-2, 4],
        ),
        one(
            "still inside the limits, then back",
            s(10, 13, WIDE),
            [2, -10],
            at(6, 34),
            &[[-6, 1], [-3, 3], [-3, 4], [-4, 6], [-4, 7]],
            [-4, 40],
        ),
        // y = −14 − 10 + 7 and −16 − 11 + 10: the second sweep leaves −17, though z moves. 5 × −17 / 16 is −6, −6 − 10,
        // twice; then y is −16, and −5 − 10 is off it.
        one(
            "y still while z moves",
            s(11, 11, WIDE),
            [10, -10],
            at(5, 8),
            &[[-14, 1], [-16, 2], [-16, 3], [-15, 4], [-15, 5], [-15, 6]],
            [-15, 6],
        ),
        // q = 1 + 1 + 1, 3 + 1 + 1, 3 + 2 + 1: e is 3 for two sweeps, and 36 / 16 is 3, 3 + 1.
        one(
            "e still while q grows",
            s(10, 3, WIDE),
            [-10, 0],
            at(4, 5),
            &[[10, 1], [14, 3], [15, 3], [15, 4]],
            [15, 4],
        ),
        // Commands at once, bounds late: e + 2 until 15 × 16 / 16, then e + 1 until 15 × 32 / 16 + 1 = 31.
        one("nothing to command", s(1, 0, WIDE), [0, 0], at(1, 25), &[[0, 1], [0, 3], [0, 5], [0, 7]], [0, 31]),
        one("a start at rest", s(8, 0, WIDE), [10, -20], at(1, 4), &[[-20, 1], [-20, 2], [-20, 3]], [-20, 3]),
        one("a start a count from rest", s(8, 0, WIDE), [10, -19], at(2, 4), &[[-20, 1], [-20, 2]], [-20, 3]),
        // Bounds early, at 3, and commands late.
        one("S", s(8, 0, WIDE), [10, 0], at(6, 4), &[[-10, 1], [-15, 2], [-18, 3], [-19, 3], [-20, 3]], [-20, 3]),
        one("thirty halves", far(4, 8, FAR / 2), [FAR / 2, 0], at(32, 4), &[[-FAR / 2, 1]], [-FAR, 3]),
        // Bounds early, at the width: 1 and 2.
        one("limits 0 and 1", s(8, 0, (0, 1)), [-10, 0], at(2, 2), &[[1, 1]; 2], [1, 1]),
        one("limits -1 and 1", s(8, 0, (-1, 1)), [10, 1], at(2, 3), &[[-1, 1], [-1, 2], [-1, 2]], [-1, 2]),
        // q is 0, then 1.
        one("limits 0 and 0", s(8, 0, (0, 0)), [10, 0], at(1, 2), &[[0, 0]; 3], [0, 0]),
        // Both with the same sweep: −3, −2 − 3 for −1.875, …; and at the limit and the width.
        one("both at once", s(6, 0, WIDE), [3, 0], at(5, 5), &[[-3, 1], [-5, 3], [-7, 4], [-8, 5]], [-8, 5]),
        one("both at once, held", s(3, 13, WIDE), [3, 0], at(7, 7), &[], [-20, 40]),
        // 20, −20, −40: another sign, or 2^16 more, is another value.
        one("the sign alone", s(8, 0, (-60, 60)).with(STATE_LIMIT, &[30]), [30, 20], at(8, 4), &[[-20, 1]], [-60, 3]),
        one("the high bytes alone", far(4, 8, 1 << 16), [-1 << 16, 0], at(18, 4), &[[1 << 16, 1]], [131071, 3]),
        // By 2 counts, then by one: 15 × −31 / 16 is −30, −30 − 2; −30 − 2 once more.
        one("the last counts", s(1, 0, (-60, 60)), [2, 0], at(25, 25), &[[-2, 1], [-4, 3], [-6, 5]], [-32, 31]),
    ]
}

/// H is one count of 2^20, so that M takes a count off what is above zero, and nothing off what is below. e grows by 2.
fn without_rest() -> Vec<Rest> {
    let slow = || far(20, 1, 2).with(GAIN, &[1 << 20]);
    vec![
        one("neither rests", slow(), [1, 0], [None; 2], &[[-1, 1], [-2, 3], [-3, 5]], [-400, 799]),
        one("neither rests, upward", slow(), [-2, 0], [None; 2], &[[2, 1], [3, 3], [4, 5]], [401, 799]),
        one("the commands alone rest", slow(), [-1, 0], [Some(2), None], &[[1, 1], [1, 3], [1, 5]], [1, 799]),
        one("the commands alone rest, at once", slow(), [0, 0], [Some(1), None], &[[0, 1], [0, 3]], [0, 799]),
    ]
}

/// Several commands at b 4, the state being 1: the gains are 16 h.
fn several(name: &str, cost: &[i64], momentum: i64, limits: &[(i64, i64)], h: &[i64], start: &[i64]) -> Rest {
    let (lows, highs): (Vec<i64>, Vec<i64>) = limits.iter().copied().unzip();
    let draft = uncoupled(Sizes { steps: h.len(), ..sample().sizes }).with(COST, cost).with(MOMENTUM, &[momentum]);
    let gains: Vec<i64> = h.iter().map(|h| 16 * h).collect();
    let draft = draft.with(GAIN, &gains).with(STATE_LIMIT, &[1]).with(LOW, &lows).with(HIGH, &highs);
    let (name, moments, start) = (name.to_string(), [None; 2], start.to_vec());
    Rest { name, draft, state: vec![1], start, moments, rows: Vec::new(), last: Vec::new() }
}

impl Rest {
    fn rests(self, moments: Moments, last: &[i64]) -> Rest {
        Rest { moments, last: last.to_vec(), ..self }
    }
}

fn of_several() -> Vec<Rest> {
    // By rounding these go around for ever, in 34, 8, 8 and 10 sweeps. Two of them pass through their start.
    let three = [10, -3, -3, -3, 11, -2, -3, -2, 11];
    let narrow = [7, -3, -1, -3, 10, 3, -1, 3, 12];
    let ten = several("around in 10", &[16, 8, 8, 18], 27, &[(-3, 0), (-3, 3)], &[2, 2], &[0, -3]);
    let ten = Rest { draft: resized(ten.draft, 5, 8), ..ten };
    vec![
        several("around in 34", &[2, 1, 1, 2], 15, &[WIDE; 2], &[-1, 0], &[1, 10])
            .rests([None, Some(7)], &[3, -3, 40, 40]),
        several("around in 8", &three, 15, &[(-6, 6); 3], &[-1, 1, 2], &[-3, -4, -6])
            .rests([None, Some(6)], &[-3, -4, -6, 12, 12, 12]),
        several("around in 8, never still", &narrow, 12, &[(-3, 3), (-3, 3), (-2, 0)], &[0, 0, 0], &[1, 2, -1])
            .rests([None, Some(5)], &[0, 0, 0, 6, 6, 2]),
        ten.rests([None, Some(5)], &[0, -3, 3, 6]),
        // (0, 0), (−1, 1), (−2, 1): the first sweep leaves the sum.
        several("the sum still", &[8, 0, 0, 8], 0, &[WIDE; 2], &[1, -1], &[0, 0]).rests(at(3, 4), &[-2, 1, 3, 3]),
        // At the width q grows once more, 4 and 5, and the other e with it, 3 and 4.
        several("at the width while q grows", &[13, 3, 3, 8], 5, &[(-3, 3), (-2, 0)], &[1, 4], &[-2, 0])
            .rests(at(3, 5), &[-1, -2, 4, 2]),
        // The second sweep leaves y of the one and z of the other.
        several("one still in y, one in z", &[9, 2, 2, 3], 11, &[(-20, 20), (-3, 2)], &[-1, 4], &[6, 0])
            .rests(at(5, 15), &[1, -3, 40, 5]),
        several("both at limits, then off", &[14, -2, -2, 10], 5, &[(-5, 3), (-3, 1)], &[7, -1], &[3, 1])
            .rests(at(3, 4), &[-5, 0, 3, 4]),
    ]
}

/// Commands that rest at once, but for one whose z is long in motion, and one whose e is.
fn mover(motors: usize, steps: usize, z: usize, e: usize, state: i64) -> Rest {
    let n = motors * steps;
    let mut draft = resized(uncoupled(Sizes { motors, steps, ..sample().sizes }), 4, 16).with(MOMENTUM, &[6]);
    for (kind, word) in [(GAIN, 0), (LOW, -2000), (HIGH, 2000), (STATE_LIMIT, 900)] {
        draft.section(kind).fill(word);
    }
    // M is 0, 4 and 12.
    let cost = draft.section(COST);
    cost.iter_mut().step_by(n + 1).for_each(|diagonal| *diagonal = 16);
    cost[z * (n + 1)] = 12;
    cost[e * (n + 1)] = 4;
    draft.section(GAIN)[z] = 16;
    let mut last = [vec![0; n], vec![1; n]].concat();
    // 900 / 0.75 is 1200, which rounding down does not let z reach from below; 4000 is the width.
    (last[z], last[n + z], last[n + e]) = (if state > 0 { -1200 } else { 1199 }, 3, 4000);
    let name = format!("{motors} by {steps}, z of {z} and e of {e} move last, state {state}");
    let (state, start, rows) = (vec![state], vec![0; n], Vec::new());
    Rest { name, draft, state, start, moments: at(8, 30), rows, last }
}

fn movers() -> Vec<Rest> {
    let sizes = [(2, 1), (1, 3), (1, 5), (1, 7), (1, 13), (3, 5), (4, 4)];
    let of = |(motors, steps): (usize, usize)| {
        let last = motors * steps - 1;
        let middle = motors * steps / 2;
        [
            mover(motors, steps, 0, last, 900),
            mover(motors, steps, last, 0, -900),
            mover(motors, steps, middle, middle - 1, 900),
            mover(motors, steps, middle - 1, middle, -900),
        ]
    };
    sizes.into_iter().flat_map(of).collect()
}

/// Commands that are held, or end beside a limit, on either side.
fn at_limits() -> Vec<Rest> {
    let limits = [WIDE, WIDE, (-5, 20), (-20, 3), (0, 20), (-20, 0), (-1, 1)];
    let diagonal: Vec<i64> = (0..49).map(|i| if i % 8 == 0 { 8 } else { 0 }).collect();
    let of = |momentum: i64, sign: i64| {
        let h = [7, -7, 7, -7, 7, -7, 7].map(|h: i64| h * sign);
        let name = format!("limits of either sign, β {momentum}, h {h:?}");
        several(&name, &diagonal, momentum, &limits, &h, &[0; 7])
    };
    vec![
        of(0, 1).rests(at(5, 4), &[-14, 13, -5, 3, 0, 0, -1, 3, 3, 3, 3, 3, 3, 2]),
        of(0, -1).rests(at(5, 4), &[13, -14, 13, -14, 13, -14, 1, 3, 3, 3, 3, 3, 3, 2]),
        of(15, 1).rests(at(9, 11), &[-14, 13, -5, 3, 0, 0, -1, 40, 40, 25, 23, 20, 20, 2]),
        of(15, -1).rests(at(9, 11), &[13, -14, 13, -14, 13, -14, 1, 40, 40, 25, 23, 20, 20, 2]),
    ]
}

/// Each command has a part in all others. e ends at the width.
fn coupled() -> Vec<Rest> {
    let of = |(steps, state, moments, z): (usize, i64, Moments, i64)| Rest {
        name: format!("{steps} coupled, state {state}"),
        draft: all_coupled(steps),
        state: vec![state],
        start: vec![0; steps],
        moments,
        rows: Vec::new(),
        last: [vec![z; steps], vec![40; steps]].concat(),
    };
    let list = [
        (1, 10, at(6, 13), -11),
        (2, -10, at(8, 12), 9),
        (3, 10, at(8, 11), -12),
        (4, -10, at(6, 10), 12),
        (5, 10, at(8, 10), -15),
        (6, -10, at(10, 9), 12),
        (7, 10, at(7, 9), -19),
        (8, 10, at(6, 8), -20),
        (13, -10, at(5, 8), 20),
        (15, 10, at(5, 7), -20),
        (16, -10, at(5, 7), 20),
    ];
    let mut rests: Vec<Rest> = list.map(of).into();
    rests.push(Rest {
        name: "7 coupled, each with its gain".to_string(),
        draft: all_coupled(7).with(GAIN, &[32, -32, 16, 48, -16, 0, 8]),
        start: vec![20, 0, -20, 5, 1, -3, 0],
        last: [vec![-20, 16, -12, -20, 7, -4, -8], vec![40; 7]].concat(),
        ..of((7, 10, at(6, 9), 0))
    });
    rests
}
