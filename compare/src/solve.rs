//! One solve: the rounded scheme, its error bound, and the exact scheme beside them.

use crate::big::Big;
use crate::distance::distance;
use crate::image::{Number, Problem, Sizes, bytes, open, products, words};
use crate::rules::{Rules, Use};

/// The rounded scheme. Sums are exact, so the order of their terms is left to the drive.
pub struct Rounded<'a> {
    problem: &'a Problem,
    inputs: Vec<i64>,
    /// h.
    pub linear: Vec<i64>,
    pub t: Vec<i64>,
    pub z: Vec<i64>,
    pub y: Vec<i64>,
}

impl<'a> Rounded<'a> {
    /// The inputs are the state, then the target.
    pub fn new(problem: &'a Problem, inputs: &[i64], start: &[i64]) -> Rounded<'a> {
        let (t, z, y) = (start.to_vec(), start.to_vec(), start.to_vec());
        let mut scheme = Rounded { problem, inputs: inputs.to_vec(), linear: Vec::new(), t, z, y };
        scheme.linear = problem.gains.rows().map(|row| scheme.sum(row, inputs)).collect();
        scheme
    }

    /// Over 2^b, rounded toward minus infinity.
    fn down(&self, value: i128) -> i64 {
        let sizes = &self.problem.sizes;
        let quotient =
            if self.problem.rules.round_toward_zero { value / sizes.one() as i128 } else { value >> sizes.bits };
        quotient as i64
    }

    /// A product of two words, rounded by itself: those of the y step alone are.
    pub fn product(&self, a: i64, b: i64) -> i64 {
        self.down(a as i128 * b as i128)
    }

    /// A row of M y, or of h: its products are added undivided, and the sum is rounded once.
    pub fn sum(&self, row: &[i64], values: &[i64]) -> i64 {
        self.down(products(row, values).sum())
    }

    /// The difference of two rounded sums.
    fn gradient_step(&self, k: usize) -> i64 {
        match self.problem.rules.other_t {
            Some(other) => other(&self.problem.row(k, &self.y, &self.inputs)) as i64,
            None => self.sum(&self.problem.descent[k], &self.y) - self.linear[k],
        }
    }

    pub fn step(&mut self) {
        let problem = self.problem;
        self.t = (0..self.z.len()).map(|k| self.gradient_step(k)).collect();
        for k in 0..self.z.len() {
            let old = self.z[k];
            self.z[k] = held(self.t[k], problem.limits(Use::Sweep, k));
            let new = if problem.rules.momentum_from_unclamped { self.t[k] } else { self.z[k] };
            self.y[k] = self.point(new, old);
        }
    }

    /// y: two products, each rounded.
    fn point(&self, new: i64, old: i64) -> i64 {
        let (one, momentum) = (self.problem.sizes.one(), self.problem.momentum);
        if self.problem.rules.y_rounded_once {
            return self.down(((one + momentum) * new - momentum * old) as i128);
        }
        self.product(one + momentum, new) - self.product(momentum, old)
    }
}

/// The error bound's recurrence, in counts.
pub struct ErrorBound<'a> {
    problem: &'a Problem,
    pub e: Vec<i64>,
    previous: Vec<i64>,
    /// q.
    pub point: Vec<i64>,
}

impl<'a> ErrorBound<'a> {
    pub fn new(problem: &'a Problem) -> ErrorBound<'a> {
        let zeros = vec![0; problem.lower.len()];
        let first = vec![i64::from(problem.rules.first_q_is_one); problem.lower.len()];
        ErrorBound { problem, e: zeros.clone(), previous: zeros, point: first }
    }

    /// c. M y and h are both rounded down, and t is their difference: it is less than 1 off.
    fn rounding(&self) -> i64 {
        let Sizes { states, targets, .. } = self.problem.sizes;
        self.problem.rules.other_c.map_or(1, |c| c(self.problem.sizes.commands(), states + targets) as i64)
    }

    fn up(&self, product: i64) -> i64 {
        -(-product >> self.problem.sizes.bits)
    }

    pub fn step(&mut self) {
        let problem = self.problem;
        let rounding = self.rounding();
        let bound = |k: usize| {
            let sum = problem.descent[k].iter().zip(&self.point).map(|(m, q)| m.abs() * q).sum();
            // What the answer's word can hold is all that is left without w.
            let most = if problem.rules.width_left_out { u32::MAX as i64 } else { problem.width(Use::Bound, k) };
            most.min(self.up(sum) + rounding)
        };
        let new = (0..self.e.len()).map(bound).collect();
        self.previous = std::mem::replace(&mut self.e, new);
        let point = |(&e, &previous)| e + self.up(problem.momentum * (e + previous)) + 1;
        self.point = self.e.iter().zip(&self.previous).map(point).collect();
    }
}

/// The exact scheme, in document 01's L, Z and V.
pub struct Exact<'a> {
    problem: &'a Problem,
    /// G.
    linear: Vec<i64>,
    pub scale: Big,
    pub commands: Vec<Big>,
    point: Vec<Big>,
}

impl<'a> Exact<'a> {
    pub fn new(problem: &'a Problem, inputs: &[i64], start: &[i64]) -> Exact<'a> {
        Exact {
            problem,
            linear: problem.linear_sums(inputs).into_iter().map(|sum| sum as i64).collect(),
            scale: Big::new(1),
            commands: start.iter().map(|&z| Big::new(z)).collect(),
            point: start.iter().map(|&z| Big::new(z).times(problem.sizes.one())).collect(),
        }
    }

    pub fn step(&mut self) {
        let (problem, one) = (self.problem, self.problem.sizes.one());
        let scale = self.scale.times(one * one);
        let linear_scale = self.scale.times(one);
        let command = |k: usize| {
            let mut t = Big::new(0);
            for (v, &m) in self.point.iter().zip(&problem.descent[k]) {
                t.add_product(v, m);
            }
            t.add_product(&linear_scale, -self.linear[k]);
            t.clamp(scale.times(problem.lower[k]), scale.times(problem.upper[k]))
        };
        let commands: Vec<Big> = (0..self.commands.len()).map(command).collect();
        let point = |(new, old): (&Big, &Big)| {
            let mut v = new.times(one + problem.momentum);
            v.add_product(old, -problem.momentum * one * one);
            v
        };
        self.point = commands.iter().zip(&self.commands).map(point).collect();
        self.commands = commands;
        self.scale = scale;
    }

    /// Is the command z within its bound e of this scheme's? |z × L − Z| ≤ e × L.
    pub fn is_near(&self, k: usize, z: i64, e: i64) -> bool {
        let difference = self.scale.times(z).minus(&self.commands[k]);
        difference.magnitude().at_most(&self.scale.times(e))
    }
}

/// Not clamp, which stops at limits that cross: a false economy may let them pass.
pub fn held<T: Ord>(value: T, (low, high): (T, T)) -> T {
    value.min(high).max(low)
}

/// The values nearest zero are zeros: behind 17 every command can be zero.
pub fn cold_start(problem: &Problem) -> Vec<i64> {
    vec![0; problem.sizes.commands()]
}

/// What a solve answers.
pub struct Answer {
    pub commands: Vec<i64>,
    pub bounds: Vec<i64>,
    /// D.
    pub distance: u64,
}

impl Answer {
    /// With the D of these commands.
    pub fn new(problem: &Problem, inputs: &[i64], commands: &[i64], bounds: &[i64]) -> Answer {
        let distance = distance(problem, inputs, commands);
        Answer { commands: commands.to_vec(), bounds: bounds.to_vec(), distance }
    }

    /// D is one word of 64 bits.
    pub fn bytes(&self) -> Vec<u8> {
        [bytes(&self.commands), bytes(&self.bounds), self.distance.to_be_bytes().to_vec()].concat()
    }
}

pub fn answer_len(commands: usize) -> usize {
    8 * commands + 8
}

pub fn answer(problem: &Problem, inputs: &[i64], start: &[i64]) -> Answer {
    let mut scheme = Rounded::new(problem, inputs, start);
    let mut bound = ErrorBound::new(problem);
    for _ in 0..problem.sizes.iterations {
        scheme.step();
        bound.step();
    }
    Answer::new(problem, inputs, &scheme.z, &bound.e)
}

/// Number 13: the state is nx words within their limits.
pub fn read_state(problem: &Problem, state: &[u8]) -> Result<Vec<i64>, Number> {
    read_within(state, &problem.state_ranges()).ok_or(13)
}

/// Number 16, directly after 13: the target is nr words within their limits. With nr 0 only the empty one is.
pub fn read_target(problem: &Problem, target: &[u8]) -> Result<Vec<i64>, Number> {
    read_within(target, &problem.target_ranges()).ok_or(16)
}

/// Number 14: the start is n words within the commands' limits.
pub fn read_start(problem: &Problem, start: &[u8]) -> Result<Vec<i64>, Number> {
    read_within(start, &problem.command_ranges(Use::Start)).ok_or(14)
}

fn read_within(bytes: &[u8], limits: &[(i64, i64)]) -> Option<Vec<i64>> {
    if bytes.len() != 4 * limits.len() {
        return None;
    }
    let values = words(bytes);
    let within = values.iter().zip(limits).all(|(&value, &(low, high))| (low..=high).contains(&value));
    within.then_some(values)
}

/// The exported cold start.
pub fn cold_start_call(image: &[u8], out_len: usize, rules: Rules) -> Result<Vec<u8>, Number> {
    let start = bytes(&cold_start(&open(image, rules)?));
    if start.len() == out_len { Ok(start) } else { Err(15) }
}

/// The exported solve, of an image, a state, a target and a start.
pub fn solve_call(lent: [&[u8]; 4], out_len: usize, rules: Rules) -> Result<Vec<u8>, Number> {
    let [image, state, target, start] = lent;
    let problem = open(image, rules)?;
    let inputs = [read_state(&problem, state)?, read_target(&problem, target)?].concat();
    let start = read_start(&problem, start)?;
    if out_len != answer_len(start.len()) {
        return Err(15);
    }
    Ok(answer(&problem, &inputs, &start).bytes())
}
