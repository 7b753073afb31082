//! The drive without one of the requests 3, 4, 6, 7 and 8, once more and on its own: all the rest of document 01 and
//! requests 1 to 8 as plain formulas on raw words, conversions in floating point.

use crate::image::{Number, bytes, words};

#[derive(Clone, Copy, PartialEq, Eq)]
pub enum Without {
    /// A motor has the same limits at every step.
    Request3,
    /// Each product is rounded by itself, and so is each term of A and B; c counts them.
    Request4,
    /// A command need not be able to be zero, and starts as near to it as its limits let it.
    Request6,
    /// Tables are rounded down.
    Request7,
    /// An answer ends with its bounds.
    Request8,
}

/// An image's words, found by the offsets of that drive.
pub struct Former {
    pub words: Vec<i64>,
    /// The page of the sheet that it was read from.
    pub page: String,
    without: Without,
    motors: usize,
    n: usize,
    /// The number of lows, and of highs.
    limits: usize,
    states: usize,
    targets: usize,
    one: i128,
    top: i128,
}

/// Kind, rows, columns, and how the numbers are rounded.
type Lines = (u8, usize, usize, fn(f64) -> f64);

impl Former {
    pub fn new(words: Vec<i64>, without: Without) -> Former {
        let [motors, steps, states, targets] = [0, 1, 2, 6].map(|i| words[i] as usize);
        let (one, top) = (1 << words[3], (1 << (words[4] - 1)) - 1);
        let n = motors * steps;
        let limits = if without == Without::Request3 { motors } else { n };
        Former { words, page: String::new(), without, motors, n, limits, states, targets, one, top }
    }

    /// An image up to its length, or the number of its refusal.
    pub fn open(image: &[u8], without: Without) -> Result<Former, Number> {
        let words = words(image);
        if !fit(words.get(..8).ok_or(6u32)?) {
            return Err(3);
        }
        let former = Former::new(words, without);
        let count: usize = former.layout().iter().map(|(_, rows, columns, _)| rows * columns).sum();
        if image.len() == 4 * (8 + count) { Ok(former) } else { Err(6) }
    }

    /// A sheet up to its end, or the number of its refusal.
    pub fn read(sheet: &[u8], without: Without) -> Result<Former, Number> {
        let mut former = Former::new(sizes(&frame(sheet, 0)?)?, without);
        let mut line = 0;
        for (kind, rows, columns, round) in former.layout() {
            for (row, column) in places(kind, rows, columns) {
                line += 1;
                let frame = frame(sheet, line)?;
                if frame[..3] != [kind, row as u8, column as u8] {
                    return Err(2);
                }
                let given = f64::from_be_bytes(frame[3..].try_into().unwrap());
                let count = former.count(kind, given, round).ok_or(5u32)?;
                // A count of minus zero is zero.
                let kept = (count + 0.0) / former.one as f64;
                let mark = if given == kept { 'K' } else { 'M' };
                let (given, kept) = (given.to_bits(), kept.to_bits());
                former.page += &format!("{kind:02X} {row:02X}{column:02X} {given:016X} {kept:016X} {mark}\n");
                former.words.push(count as i64);
            }
        }
        if sheet.len() > 23 * (line + 1) { Err(4) } else { Ok(former) }
    }

    /// Unless a later check refuses it.
    pub fn accepted(self) -> Result<Former, Number> {
        match self.number() {
            0 => Ok(self),
            number => Err(number),
        }
    }

    fn layout(&self) -> [Lines; 8] {
        let &Former { motors, n, limits, states, targets, .. } = self;
        let (down, up): (fn(f64) -> f64, fn(f64) -> f64) = (f64::floor, f64::ceil);
        let table = if self.without == Without::Request7 { down } else { f64::round_ties_even };
        [
            (2, n, n, table),
            (3, n, states, table),
            (4, motors, limits / motors, up),
            (5, motors, limits / motors, down),
            (6, 1, 1, up),
            (7, states, 1, up),
            (8, n, targets, table),
            (9, targets, 1, up),
        ]
    }

    /// The double in counts, rounded. None is 5.
    fn count(&self, kind: u8, given: f64, round: fn(f64) -> f64) -> Option<f64> {
        let count = round(given * self.one as f64);
        let top = self.top as f64;
        let least = if kind == 7 || kind == 9 { 0.0 } else { -top };
        (least..=top).contains(&count).then_some(count)
    }

    fn word(&self, index: usize) -> i128 {
        self.words[index] as i128
    }

    fn cost(&self, i: usize, j: usize) -> i128 {
        self.word(8 + i * self.n + j)
    }

    /// An entry of M.
    fn m(&self, i: usize, j: usize) -> i128 {
        let diagonal = if i == j { self.one } else { 0 };
        diagonal - self.cost(i, j)
    }

    fn inputs(&self) -> usize {
        self.states + self.targets
    }

    /// An entry of Φ, or behind its row one of the target table.
    fn gain(&self, i: usize, j: usize) -> i128 {
        match j.checked_sub(self.states) {
            None => self.word(8 + self.n * self.n + i * self.states + j),
            Some(j) => self.behind(2 * self.limits + 1 + self.states + i * self.targets + j),
        }
    }

    /// A word behind the first two tables.
    fn behind(&self, index: usize) -> i128 {
        self.word(8 + self.n * (self.n + self.states) + index)
    }

    fn low(&self, k: usize) -> i128 {
        self.behind(k % self.limits)
    }

    fn high(&self, k: usize) -> i128 {
        self.behind(self.limits + k % self.limits)
    }

    fn beta(&self) -> i128 {
        self.behind(2 * self.limits)
    }

    fn input_limit(&self, j: usize) -> i128 {
        let table = if j < self.states { 0 } else { self.n * self.targets };
        self.behind(2 * self.limits + 1 + table + j)
    }

    fn floor(&self, value: i128) -> i128 {
        value.div_euclid(self.one)
    }

    fn ceil(&self, value: i128) -> i128 {
        -(-value).div_euclid(self.one)
    }

    /// A row's terms over 2^b: rounded once, or without request 4 one by one.
    fn sum(&self, count: usize, term: impl Fn(usize) -> i128, round: fn(&Former, i128) -> i128) -> i128 {
        let terms = (0..count).map(term);
        match self.without {
            Without::Request4 => terms.map(|term| round(self, term)).sum(),
            _ => round(self, terms.sum()),
        }
    }

    fn c(&self) -> i128 {
        match self.without {
            Without::Request4 => self.n.max(self.inputs()) as i128,
            _ => 1,
        }
    }

    fn radius(&self, i: usize) -> i128 {
        (0..self.n).filter(|&j| j != i).map(|j| self.cost(i, j).abs()).sum()
    }

    /// The least.
    fn margin(&self) -> i128 {
        (0..self.n).map(|i| self.cost(i, i) - self.radius(i)).min().unwrap()
    }

    /// Can every command be zero?
    pub fn can_stop(&self) -> bool {
        (0..self.n).all(|k| self.low(k) <= 0 && 0 <= self.high(k))
    }

    /// The first of 5, 7, 17 and 8 to 12 that is due, or 0.
    pub fn number(&self) -> Number {
        let (n, one, beta) = (self.n, self.one, self.beta());
        let margin = self.margin();
        let total = (0..n).map(|i| self.cost(i, i) + self.radius(i)).max().unwrap();
        let below_zero = (0..self.inputs()).any(|j| self.input_limit(j) < 0);
        let faults = [
            (5, below_zero || self.words[8..].iter().any(|word| i128::from(word.abs()) > self.top)),
            (7, (0..n).any(|k| self.low(k) > self.high(k))),
            (17, self.without != Without::Request6 && !self.can_stop()),
            (8, pairs(n, n).any(|(i, j)| self.cost(i, j) != self.cost(j, i))),
            (9, margin < 1),
            (10, total > one),
            (11, beta < 0 || beta >= one || (one + beta).pow(2) * margin < (one - beta).pow(2) * total),
            (12, self.leaves_headroom()),
        ];
        faults.into_iter().find(|fault| fault.1).map_or(0, |fault| fault.0)
    }

    fn leaves_headroom(&self) -> bool {
        let (n, top) = (self.n, self.top);
        let largest = |k| self.low(k).abs().max(self.high(k).abs());
        let p = |k| largest(k) + self.ceil(self.beta() * largest(k));
        let y = |k| largest(k) + self.ceil(self.beta() * (self.high(k) - self.low(k)));
        let a = |i| self.sum(n, |j| self.m(i, j).abs() * y(j), Former::ceil);
        let b = |i| self.sum(self.inputs(), |j| self.gain(i, j).abs() * self.input_limit(j), Former::ceil);
        (0..n).any(|k| p(k) > top || y(k) > top || a(k) + b(k) > top)
    }

    /// The values nearest zero.
    pub fn cold_start(&self) -> Vec<i64> {
        (0..self.n).map(|k| 0.min(self.high(k)).max(self.low(k)) as i64).collect()
    }

    /// An accepted image's answer for a state, a target and a start, or the first of 13, 16 and 14 that is due.
    pub fn solve(&self, [state, target, start]: [&[u8]; 3]) -> Result<Vec<u8>, Number> {
        let input = |j| (-self.input_limit(j), self.input_limit(j));
        let state = lent(state, self.states, input).ok_or(13u32)?;
        let target = lent(target, self.targets, |j| input(self.states + j)).ok_or(16u32)?;
        let start = lent(start, self.n, |k| (self.low(k), self.high(k))).ok_or(14u32)?;
        let inputs = [state, target].concat();
        let answer = self.answer(&inputs, &start);
        let mut written = bytes(&answer);
        if self.without != Without::Request8 {
            written.extend(self.distance(&inputs, &answer[..self.n]).to_be_bytes());
        }
        Ok(written)
    }

    /// An accepted image's commands, then its bounds, for the state and the target in one list.
    pub fn answer(&self, inputs: &[i64], start: &[i64]) -> Vec<i64> {
        let n = self.n;
        let h = |i| self.sum(self.inputs(), |j| self.gain(i, j) * inputs[j] as i128, Former::floor);
        let h: Vec<i128> = (0..n).map(h).collect();
        let mut z: Vec<i128> = start.iter().map(|&word| word as i128).collect();
        let (mut y, mut e, mut q) = (z.clone(), vec![0; n], vec![0; n]);
        for _ in 0..self.words[5] {
            let (old_z, old_e) = (z.clone(), e.clone());
            for i in 0..n {
                let t = self.sum(n, |j| self.m(i, j) * y[j], Former::floor) - h[i];
                z[i] = t.min(self.high(i)).max(self.low(i));
                let spread = (0..n).map(|j| self.m(i, j).abs() * q[j]).sum();
                e[i] = (self.ceil(spread) + self.c()).min(self.high(i) - self.low(i));
            }
            for i in 0..n {
                y[i] = self.floor((self.one + self.beta()) * z[i]) - self.floor(self.beta() * old_z[i]);
                q[i] = e[i] + self.ceil(self.beta() * (e[i] + old_e[i])) + 1;
            }
        }
        z.into_iter().chain(e).map(|value| value as i64).collect()
    }

    /// D of some commands, through M.
    pub fn distance(&self, inputs: &[i64], z: &[i64]) -> u64 {
        let (n, one) = (self.n, self.one);
        let g = |i| (0..self.inputs()).map(|j| self.gain(i, j) * inputs[j] as i128).sum::<i128>();
        let step = |i| (0..n).map(|j| self.m(i, j) * z[j] as i128).sum::<i128>() - g(i);
        let held = |i| step(i).min(one * self.high(i)).max(one * self.low(i));
        let largest = (0..n).map(|i| (held(i) - one * z[i] as i128).abs()).max().unwrap();
        -(-largest).div_euclid(self.margin()) as u64
    }
}

fn pairs(rows: usize, columns: usize) -> impl Iterator<Item = (usize, usize)> {
    (0..rows).flat_map(move |i| (0..columns).map(move |j| (i, j)))
}

/// The rows and columns of a kind's lines in order. Of limits the columns are outermost.
fn places(kind: u8, rows: usize, columns: usize) -> Vec<(usize, usize)> {
    match kind {
        4 | 5 => pairs(columns, rows).map(|(column, row)| (row, column)).collect(),
        _ => pairs(rows, columns).collect(),
    }
}

/// The words of a lent buffer, if they are so many and each is within its range.
fn lent(buffer: &[u8], count: usize, range: impl Fn(usize) -> (i128, i128)) -> Option<Vec<i64>> {
    let values = words(buffer);
    let within = |(i, &value): (usize, &i64)| (range(i).0..=range(i).1).contains(&i128::from(value));
    (buffer.len() == 4 * count && values.iter().enumerate().all(within)).then_some(values)
}

/// The bytes of a line. There is none: 4; it is malformed or cut: 1.
fn frame(sheet: &[u8], line: usize) -> Result<Vec<u8>, Number> {
    let rest = sheet.get(23 * line..).filter(|rest| !rest.is_empty()).ok_or(4u32)?;
    let digits = rest.get(..23).and_then(|line| line.strip_suffix(b"\n")).ok_or(1u32)?;
    let value = |&digit: &u8| b"0123456789ABCDEF".iter().position(|&known| known == digit);
    let values: Vec<usize> = digits.iter().map(value).collect::<Option<_>>().ok_or(1u32)?;
    Ok(values.chunks(2).map(|pair| (16 * pair[0] + pair[1]) as u8).collect())
}

/// Line 01 as the image's first eight words.
fn sizes(frame: &[u8]) -> Result<Vec<i64>, Number> {
    if frame[0] != 1 || frame[9..] != [0, 0] {
        return Err(2);
    }
    let [motors, steps, states, bits, width, targets] = [1, 2, 3, 4, 5, 6].map(|i| i64::from(frame[i]));
    let words = vec![motors, steps, states, bits, width, 256 * i64::from(frame[7]) + i64::from(frame[8]), targets, 0];
    if fit(&words) { Ok(words) } else { Err(3) }
}

/// Are these the first eight words of an image?
fn fit(words: &[i64]) -> bool {
    let ranges = [1..=4, 1..=16, 1..=12, 4..=20, 8..=32, 1..=400, 0..=4, 0..=0];
    let fit = words.iter().zip(ranges).all(|(word, range)| range.contains(word));
    fit && words[0] * words[1] <= 16 && words[3] <= words[4] - 2
}
