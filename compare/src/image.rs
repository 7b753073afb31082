//! The image: its layout, and the checks 6, 3, 6, 5, 7, 17 and 8 to 12 in their order.

use std::ops::Index;

use crate::double::Rounding::{self, Down, Nearest, Up};
use crate::rules::{Row, Rules, Use};

/// The number of a refusal; 0 where a call is accepted.
pub type Number = u32;

pub const HEADER_WORDS: usize = 8;

pub fn top(width: u32) -> i64 {
    (1 << (width - 1)) - 1
}

/// The ranges of b and W.
pub fn sizes_of_word_fit(bits: i64, width: i64) -> bool {
    (4..=20).contains(&bits) && (8..=32).contains(&width) && bits <= width - 2
}

#[derive(Clone, Copy, Debug, PartialEq, Eq)]
pub struct Sizes {
    pub motors: usize,
    pub steps: usize,
    pub states: usize,
    pub bits: u32,
    pub width: u32,
    pub iterations: usize,
    /// nr.
    pub targets: usize,
}

/// A run of sheet lines and of image words: the same table, limit list or factor in both.
#[derive(Clone, Copy)]
pub struct Section {
    pub kind: u8,
    pub rows: usize,
    pub columns: usize,
    pub rounding: Rounding,
}

impl Section {
    /// Number 5 beside the word's range: a state's or a target's limit is not below 0.
    pub fn admits(&self, word: i64, rules: Rules) -> bool {
        let has_signs = match self.kind {
            STATE_LIMIT => false,
            TARGET_LIMIT => rules.target_limit_below_zero,
            _ => true,
        };
        has_signs || word >= 0
    }

    /// The row and column of an entry: rows outermost, but of limits the steps, which are their columns.
    fn place(&self, index: usize) -> (usize, usize) {
        match self.kind {
            LOW | HIGH => (index % self.rows, index / self.rows),
            _ => (index / self.columns, index % self.columns),
        }
    }
}

pub const COST: u8 = 2;
pub const GAIN: u8 = 3;
pub const LOW: u8 = 4;
pub const HIGH: u8 = 5;
pub const MOMENTUM: u8 = 6;
pub const STATE_LIMIT: u8 = 7;
pub const TARGET_GAIN: u8 = 8;
pub const TARGET_LIMIT: u8 = 9;
/// The kinds that request 7 rounds to the nearest count.
pub const TABLES: [u8; 3] = [COST, GAIN, TARGET_GAIN];

impl Sizes {
    /// None is number 3.
    pub fn of_words(words: &[i64]) -> Option<Sizes> {
        let [motors, steps, states, bits, width, iterations, targets, 0] = *words else {
            return None;
        };
        let fit = (1..=4).contains(&motors)
            && (1..=16).contains(&steps)
            && motors * steps <= 16
            && (1..=12).contains(&states)
            && sizes_of_word_fit(bits, width)
            && (1..=400).contains(&iterations)
            && (0..=4).contains(&targets);
        fit.then_some(Sizes {
            motors: motors as usize,
            steps: steps as usize,
            states: states as usize,
            bits: bits as u32,
            width: width as u32,
            iterations: iterations as usize,
            targets: targets as usize,
        })
    }

    pub fn words(&self) -> [i64; HEADER_WORDS] {
        let &Sizes { motors, steps, states, bits, width, iterations, targets } = self;
        let [motors, steps, states, iterations, targets] =
            [motors, steps, states, iterations, targets].map(|size| size as i64);
        [motors, steps, states, bits as i64, width as i64, iterations, targets, 0]
    }

    pub fn commands(&self) -> usize {
        self.motors * self.steps
    }

    /// 2^b.
    pub fn one(&self) -> i64 {
        1 << self.bits
    }

    pub fn top(&self) -> i64 {
        top(self.width)
    }

    pub fn sections(&self) -> [Section; 8] {
        let n = self.commands();
        let section = |kind, rows, columns, rounding| Section { kind, rows, columns, rounding };
        [
            section(COST, n, n, Nearest),
            section(GAIN, n, self.states, Nearest),
            section(LOW, self.motors, self.steps, Up),
            section(HIGH, self.motors, self.steps, Down),
            section(MOMENTUM, 1, 1, Up),
            section(STATE_LIMIT, self.states, 1, Up),
            section(TARGET_GAIN, n, self.targets, Nearest),
            section(TARGET_LIMIT, self.targets, 1, Up),
        ]
    }

    /// The section, row and column of every body word in order.
    pub fn places(&self) -> impl Iterator<Item = (Section, usize, usize)> {
        self.sections().into_iter().flat_map(|section| {
            (0..section.rows * section.columns).map(move |index| {
                let (row, column) = section.place(index);
                (section, row, column)
            })
        })
    }

    /// Where a section starts in the body, and its length.
    pub fn extent(&self, kind: u8) -> (usize, usize) {
        let mut start = 0;
        for section in self.sections() {
            let length = section.rows * section.columns;
            if section.kind == kind {
                return (start, length);
            }
            start += length;
        }
        panic!("no section of kind {kind}")
    }

    pub fn body_words(&self) -> usize {
        self.sections().iter().map(|section| section.rows * section.columns).sum()
    }

    pub fn image_bytes(&self) -> usize {
        4 * (HEADER_WORDS + self.body_words())
    }
}

/// A table in one piece, since generators make very many. It has a column at least.
pub struct Table {
    columns: usize,
    entries: Vec<i64>,
}

impl Table {
    pub fn rows(&self) -> impl Iterator<Item = &[i64]> {
        self.entries.chunks(self.columns)
    }
}

impl Index<usize> for Table {
    type Output = [i64];

    fn index(&self, row: usize) -> &[i64] {
        &self.entries[row * self.columns..(row + 1) * self.columns]
    }
}

/// What the tables of an image say. Limits are per command, and the linear term has one list of inputs: the state, then
/// the target.
pub struct Problem {
    pub sizes: Sizes,
    pub rules: Rules,
    /// H.
    pub cost: Table,
    /// M: 2^b on the diagonal less H.
    pub descent: Table,
    /// Φ, and in the same row the target table.
    pub gains: Table,
    pub lower: Vec<i64>,
    pub upper: Vec<i64>,
    pub momentum: i64,
    pub input_limits: Vec<i64>,
}

impl Problem {
    pub fn new(sizes: Sizes, body: &[i64], rules: Rules) -> Problem {
        let n = sizes.commands();
        let section = |kind| {
            let (start, length) = sizes.extent(kind);
            &body[start..start + length]
        };
        let cost = section(COST).to_vec();
        let mut descent: Vec<i64> = cost.iter().map(|entry| -entry).collect();
        descent.iter_mut().step_by(n + 1).for_each(|entry| *entry += sizes.one());
        Problem {
            sizes,
            rules,
            cost: Table { columns: n, entries: cost },
            descent: Table { columns: n, entries: descent },
            gains: beside(n, section(GAIN), section(TARGET_GAIN)),
            lower: section(LOW).to_vec(),
            upper: section(HIGH).to_vec(),
            momentum: section(MOMENTUM)[0],
            input_limits: [section(STATE_LIMIT), section(TARGET_LIMIT)].concat(),
        }
    }

    /// A command's low and high: those of its own step, unless a false economy takes others.
    pub fn limits(&self, place: Use, command: usize) -> (i64, i64) {
        let command = match self.rules.other_limits {
            Some((uses, other)) if uses.contains(&place) => other(command, &self.sizes),
            _ => command,
        };
        (self.lower[command], self.upper[command])
    }

    pub fn command_ranges(&self, place: Use) -> Vec<(i64, i64)> {
        (0..self.sizes.commands()).map(|k| self.limits(place, k)).collect()
    }

    /// Has some motor other limits at one step than at the step before?
    pub fn limits_change(&self) -> bool {
        let motors = self.sizes.motors;
        [&self.lower, &self.upper].iter().any(|limits| limits[motors..] != limits[..limits.len() - motors])
    }

    /// G: the linear term undivided, for a state and then a target. By its headroom an accepted row's is at most top ×
    /// 2^b.
    pub fn linear_sums(&self, inputs: &[i64]) -> Vec<i128> {
        self.gains.rows().map(|row| products(row, inputs).sum()).collect()
    }

    /// Minus and plus each state's limit.
    pub fn state_ranges(&self) -> Vec<(i64, i64)> {
        ranges(&self.input_limits[..self.sizes.states])
    }

    pub fn target_ranges(&self) -> Vec<(i64, i64)> {
        ranges(&self.input_limits[self.sizes.states..])
    }

    /// w.
    pub fn width(&self, place: Use, command: usize) -> i64 {
        let (low, high) = self.limits(place, command);
        high - low
    }

    /// The checks 7, 17 and 8 to 12: each number over all its rows before the next.
    pub fn check(&self) -> Result<(), Number> {
        type Fault = fn(&Problem) -> bool;
        let faults: [(Number, Fault); 7] = [
            (7, Problem::limits_cross),
            (17, Problem::stop_is_impossible),
            (8, Problem::is_not_symmetric),
            (9, |p| p.least_margin() < 1),
            (10, |p| p.largest_total() > p.sizes.one()),
            (11, Problem::momentum_does_not_fit),
            (12, Problem::leaves_headroom),
        ];
        match faults.iter().find(|(_, fault)| fault(self)) {
            Some((number, _)) => Err(*number),
            None => Ok(()),
        }
    }

    fn limits_cross(&self) -> bool {
        self.command_ranges(Use::Crossing).iter().any(|(low, high)| low > high)
    }

    fn stop_is_impossible(&self) -> bool {
        let excludes = self.rules.other_stop.unwrap_or(|_, limits| excludes_zero(limits));
        self.command_ranges(Use::Stop).into_iter().any(|limits| excludes(self, limits))
    }

    fn is_not_symmetric(&self) -> bool {
        let n = self.sizes.commands();
        (0..n).any(|i| (0..i).any(|j| self.cost[i][j] != self.cost[j][i]))
    }

    /// The sum of the magnitudes beside the diagonal.
    pub fn radius(&self, row: usize) -> i64 {
        let magnitudes: i64 = self.cost[row].iter().map(|entry| entry.abs()).sum();
        magnitudes - self.cost[row][row].abs()
    }

    /// What check 9 has of each row, in counts.
    pub fn margins(&self) -> Vec<i64> {
        (0..self.sizes.commands()).map(|i| self.cost[i][i] - self.radius(i)).collect()
    }

    pub fn least_margin(&self) -> i64 {
        self.margins().into_iter().min().unwrap()
    }

    pub fn largest_total(&self) -> i64 {
        let totals = (0..self.sizes.commands()).map(|i| self.cost[i][i] + self.radius(i));
        totals.max().unwrap()
    }

    fn momentum_does_not_fit(&self) -> bool {
        let (margin, total) = (self.least_margin(), self.largest_total());
        !momentum_fits(self.sizes.one(), self.momentum, margin, total)
    }

    /// Over 2^b, rounded up.
    pub fn up(&self, value: i128) -> i128 {
        -(-value >> self.sizes.bits)
    }

    /// Number 12. Whole in itself, so that generators can ask it about tables that other checks refuse.
    pub fn leaves_headroom(&self) -> bool {
        let Some(points) = self.point_bounds() else {
            return true;
        };
        let top = self.sizes.top() as i128;
        (0..self.sizes.commands()).any(|k| self.row_bound(k, &points) > top)
    }

    /// P and Y of a command.
    pub fn command_bounds(&self, k: usize) -> (i128, i128) {
        let (low, high) = self.limits(Use::Magnitude, k);
        let (largest, momentum) = (low.abs().max(high.abs()) as i128, self.momentum as i128);
        let with = |share: i128| largest + self.up(momentum * share);
        (with(largest), with(self.width(Use::Spread, k) as i128))
    }

    /// Y of every command, unless a P or a Y is above top.
    pub fn point_bounds(&self) -> Option<Vec<i64>> {
        let top = self.sizes.top() as i128;
        let bounds = (0..self.sizes.commands()).map(|k| self.command_bounds(k));
        bounds.map(|(p, y)| (p <= top && y <= top).then_some(y as i64)).collect()
    }

    /// A + B of a row: two sums, each rounded up once.
    fn row_bound(&self, k: usize, points: &[i64]) -> i128 {
        if let Some(other) = self.rules.other_headroom {
            return other(self, k);
        }
        let [a, b] = self.headroom_sums(k, points);
        self.up(a) + self.up(b)
    }

    /// A and B of a row, undivided. In a refused image B can pass 2^65, so these sums are wider than the drive's.
    pub fn headroom_sums(&self, k: usize, points: &[i64]) -> [i128; 2] {
        let magnitudes = |row, bounds| products(row, bounds).map(i128::abs).sum();
        [magnitudes(&self.descent[k], points), magnitudes(&self.gains[k], &self.input_limits)]
    }

    /// A row's products with some values for y and for the inputs, or with their bounds, each as often as it is added.
    pub fn row(&self, k: usize, points: &[i64], inputs: &[i64]) -> Row {
        let mut states: Vec<i128> = products(&self.gains[k], inputs).collect();
        let targets = states.split_off(self.sizes.states);
        let commands = products(&self.descent[k], points).collect();
        let mut row = Row { commands, states, targets, bits: self.sizes.bits };
        if let Some((terms, times)) = self.rules.other_loop {
            let terms = terms(&mut row);
            let count = terms.len();
            terms.into_iter().enumerate().for_each(|(i, term)| *term *= times(i, count));
        }
        row
    }
}

/// Is zero outside these limits? At a limit it is inside.
pub fn excludes_zero((low, high): (i64, i64)) -> bool {
    low > 0 || high < 0
}

/// The products of a row and a list of values, undivided.
pub fn products(row: &[i64], values: &[i64]) -> impl Iterator<Item = i128> {
    row.iter().zip(values).map(|(&entry, &value)| entry as i128 * value as i128)
}

/// Check 11 for a least margin and a largest total.
pub fn momentum_fits(one: i64, momentum: i64, margin: i64, total: i64) -> bool {
    let [one, momentum, margin, total] = [one, momentum, margin, total].map(i128::from);
    (0..one).contains(&momentum) && (one + momentum).pow(2) * margin >= (one - momentum).pow(2) * total
}

/// Two tables of n rows as one, the second of which may be without columns.
fn beside(n: usize, left: &[i64], right: &[i64]) -> Table {
    let (l, r) = (left.len() / n, right.len() / n);
    let mut entries = Vec::with_capacity(left.len() + right.len());
    for i in 0..n {
        entries.extend_from_slice(&left[i * l..(i + 1) * l]);
        entries.extend_from_slice(&right[i * r..(i + 1) * r]);
    }
    Table { columns: l + r, entries }
}

fn ranges(limits: &[i64]) -> Vec<(i64, i64)> {
    limits.iter().map(|&limit| (-limit, limit)).collect()
}

/// The sizes of an image of the length that they give: 6, 3, 6.
pub fn read_sizes(image: &[u8]) -> Result<Sizes, Number> {
    let header = image.get(..4 * HEADER_WORDS).ok_or(6u32)?;
    let sizes = Sizes::of_words(&words(header)).ok_or(3u32)?;
    if image.len() == sizes.image_bytes() { Ok(sizes) } else { Err(6) }
}

/// An accepted image's problem.
pub fn open(image: &[u8], rules: Rules) -> Result<Problem, Number> {
    let sizes = read_sizes(image)?;
    let body = words(&image[4 * HEADER_WORDS..]);
    for ((section, _, _), &word) in sizes.places().zip(&body) {
        if word.abs() > sizes.top() || !section.admits(word, rules) {
            return Err(5);
        }
    }
    let problem = Problem::new(sizes, &body, rules);
    problem.check()?;
    Ok(problem)
}

pub fn words(bytes: &[u8]) -> Vec<i64> {
    let word = |chunk: &[u8]| i32::from_be_bytes(chunk.try_into().unwrap()) as i64;
    bytes.chunks_exact(4).map(word).collect()
}

/// The low 32 bits of each value: words two's complement, bounds unsigned.
pub fn bytes(values: &[i64]) -> Vec<u8> {
    values.iter().flat_map(|&value| (value as u32).to_be_bytes()).collect()
}
