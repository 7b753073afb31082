//! Request 5's false economies: a loop over a row's terms that misses some or adds one twice, be it of one term a turn,
//! or of four and then a rest.

use super::{Economy, rule};
use crate::rules::{Row, Rules, Terms, Times};

/// A sum of fewer than four terms keeps its rest: a drive that loses that too is found all the sooner.
pub const MISTAKES: [(&str, Times); 7] = [
    ("leaves out the last term", |i, count| i128::from(i + 1 < count)),
    ("starts at term 1", |i, _| i128::from(i > 0)),
    ("adds the first term twice", |i, _| 1 + i128::from(i == 0)),
    ("adds the last term twice", |i, count| 1 + i128::from(i + 1 == count)),
    ("leaves out the rest behind groups of four", |i, count| i128::from(count < 4 || i < count / 4 * 4)),
    ("starts the rest a term early", |i, count| 1 + i128::from(count % 4 > 0 && i + 1 == count / 4 * 4)),
    ("leaves out a group of four at the end", |i, count| i128::from(count % 4 > 0 || i + 4 < count)),
];

/// Each with the most terms that it can have.
const SUMS: [(&str, usize, Terms); 4] = [
    ("M y", 16, |row| row.commands.iter_mut().collect()),
    ("the state's part of h", 12, |row| row.states.iter_mut().collect()),
    ("the target's part of h", 4, |row| row.targets.iter_mut().collect()),
    ("h", 16, |row| row.states.iter_mut().chain(&mut row.targets).collect()),
];

pub fn economies() -> Vec<Economy> {
    let t = |row: &Row| row.down(&row.commands) - row.down(&row.inputs());
    let mut economies = Vec::new();
    for (sum, most, terms) in SUMS {
        for (mistake, times) in MISTAKES.into_iter().filter(|&(_, times)| shows(times, most)) {
            let rules = Rules { other_loop: Some((terms, times)), other_t: Some(t), ..Rules::default() };
            economies.push(rule(&format!("{mistake} in {sum}"), rules));
        }
    }
    economies
}

/// Does the mistake change some sum of at most so many terms?
pub fn shows(times: Times, most: usize) -> bool {
    (1..=most).any(|count| (0..count).any(|i| times(i, count) != 1))
}
