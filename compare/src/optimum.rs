//! The optimum as fractions: the commands that equal their own held gradient step. Every choice of commands at a limit
//! leaves equations for the others, which determinants solve in whole numbers; the right choice passes the condition.
//! Commands with no part in each other are solved apart, so that there may be many as long as few of them are coupled.

use crate::big::Big;
use crate::edges::met;
use crate::image::Problem;

/// The most coupled commands. With five of them 128 bits would not hold every determinant.
const MOST: usize = 4;

/// Coupled commands at the optimum: whole numbers over one denominator above 0.
pub struct Part {
    commands: Vec<usize>,
    numerators: Vec<i128>,
    denominator: i128,
}

/// The optimum of a problem. A command has a part for every choice that comes to it, all of them equal.
pub struct Optimum<'a> {
    problem: &'a Problem,
    /// G.
    linear: Vec<i128>,
    parts: Vec<Part>,
}

impl<'a> Optimum<'a> {
    /// None where too many commands are coupled.
    pub fn new(problem: &'a Problem, inputs: &[i64]) -> Option<Optimum<'a>> {
        let groups = coupled(problem);
        if groups.iter().any(|group| group.len() > MOST) {
            return None;
        }
        let mut optimum = Optimum { problem, linear: problem.linear_sums(inputs), parts: Vec::new() };
        for group in groups {
            let choices = 0..3usize.pow(group.len() as u32);
            let parts = choices.map(|choice| optimum.part(&group, choice)).filter(|part| optimum.is_fixed(part));
            let parts: Vec<Part> = parts.collect();
            optimum.parts.extend(parts);
        }
        Some(optimum)
    }

    /// The commands of a group where the choice's digits leave each free or put it at its low or its high.
    fn part(&self, group: &[usize], choice: usize) -> Part {
        let at = |i: usize| {
            let k = group[i];
            [None, Some(self.problem.lower[k]), Some(self.problem.upper[k])][choice / 3usize.pow(i as u32) % 3]
        };
        let free: Vec<usize> = (0..group.len()).filter(|&i| at(i).is_none()).collect();
        let entry = |i: usize, j: usize| i128::from(self.problem.cost[group[i]][group[j]]);
        let rows: Vec<Vec<i128>> = free.iter().map(|&i| free.iter().map(|&j| entry(i, j)).collect()).collect();
        // H z = −G in the rows of the free commands.
        let right = |&i: &usize| {
            let held = (0..group.len()).filter_map(|j| at(j).map(|limit| entry(i, j) * i128::from(limit)));
            -self.linear[group[i]] - held.sum::<i128>()
        };
        let right: Vec<i128> = free.iter().map(right).collect();
        let denominator = determinant(&rows);
        let numerator = |i: usize| match at(i) {
            Some(limit) => denominator * i128::from(limit),
            None => determinant(&replaced(&rows, free.iter().position(|&j| j == i).unwrap(), &right)),
        };
        Part { commands: group.to_vec(), numerators: (0..group.len()).map(numerator).collect(), denominator }
    }

    /// Is each command P / N its own held gradient step? F P − H P − N G, held to low × F × N and high × F × N, is F P.
    fn is_fixed(&self, part: &Part) -> bool {
        let one = self.problem.sizes.one();
        let (scale, numerators) = (Big::wide(part.denominator), part.numerators.iter().map(|&p| Big::wide(p)));
        let numerators: Vec<Big> = numerators.collect();
        part.commands.iter().zip(&numerators).all(|(&k, own)| {
            let mut step = own.times(one);
            for (&j, numerator) in part.commands.iter().zip(&numerators) {
                step.add_product(numerator, -self.problem.cost[k][j]);
            }
            step.add_product(&scale, -self.linear[k] as i64);
            let [low, high] = [self.problem.lower[k], self.problem.upper[k]].map(|limit| scale.times(limit * one));
            step.clamp(low, high) == own.times(one)
        })
    }

    /// Is there a fraction for every command?
    pub fn is_whole(&self) -> bool {
        (0..self.linear.len()).all(|k| self.parts.iter().any(|part| part.commands.contains(&k)))
    }

    /// Is every command within D counts of it?
    pub fn is_near(&self, commands: &[i64], distance: u64) -> bool {
        self.parts.iter().all(|part| part.offsets(commands).iter().all(|offset| part.within(offset, distance)))
    }

    /// Are these commands the optimum itself?
    pub fn is_at(&self, commands: &[i64]) -> bool {
        self.is_near(commands, 0)
    }

    /// The edges below where commands with this D lie.
    pub fn edges(&self, commands: &[i64], distance: u64) -> Vec<&'static str> {
        let (parts, n) = (&self.parts, commands.len());
        let limit = |part: &Part, at: fn(&Problem, usize) -> i64| {
            let mut pairs = part.commands.iter().zip(&part.numerators);
            pairs.any(|(&k, &p)| p == part.denominator * i128::from(at(self.problem, k)))
        };
        let at_limit =
            |part: &Part| limit(part, |problem, k| problem.lower[k]) || limit(part, |problem, k| problem.upper[k]);
        let far = |part: &&Part| part.offsets(commands).iter().any(|offset| !part.within(&offset.times(2), distance));
        let last = |part: &Part| part.offsets(commands).iter().any(|offset| !part.within(offset, distance - 1));
        let holds = [
            true,
            !parts.iter().any(at_limit),
            parts.iter().any(at_limit),
            parts.iter().any(|part| part.numerators.iter().any(|p| p % part.denominator != 0)),
            n > MOST,
            parts.iter().any(|part| part.commands.len() == MOST),
            distance > 0 && parts.iter().any(|part| far(&part)),
            distance > 0 && parts.iter().filter(|part| part.commands.len() > 1).any(|part| far(&part)),
            distance > 0 && parts.iter().any(last),
            distance == 0,
        ];
        met(EDGES, holds)
    }
}

/// What a run has to meet.
pub const EDGES: [&str; 10] = [
    "commands beside their optimum",
    "the optimum inside all limits",
    "the optimum at a limit",
    "the optimum is a fraction",
    "the optimum of more than four commands",
    "the optimum of four coupled commands",
    "a command is more than half of D from the optimum",
    "a coupled command is more than half of D from the optimum",
    "a command is D counts from the optimum, rounded up",
    "the commands are the optimum",
];

impl Part {
    /// |z N − P| of each command.
    fn offsets(&self, commands: &[i64]) -> Vec<Big> {
        let scale = Big::wide(self.denominator);
        let offset = |(&k, &p): (&usize, &i128)| scale.times(commands[k]).minus(&Big::wide(p)).magnitude();
        self.commands.iter().zip(&self.numerators).map(offset).collect()
    }

    /// Is this at most so many counts?
    fn within(&self, offset: &Big, counts: u64) -> bool {
        offset.at_most(&Big::wide(self.denominator).times(counts as i64))
    }
}

/// The commands in groups that have no part in each other.
fn coupled(problem: &Problem) -> Vec<Vec<usize>> {
    let n = problem.sizes.commands();
    let mut groups: Vec<Vec<usize>> = Vec::new();
    for k in 0..n {
        let (with, without): (Vec<_>, Vec<_>) =
            groups.into_iter().partition(|group| group.iter().any(|&j| problem.cost[k][j] != 0));
        groups = without;
        groups.push(with.into_iter().flatten().chain([k]).collect());
    }
    groups
}

/// By the first row's minors.
fn determinant(rows: &[Vec<i128>]) -> i128 {
    let Some((first, others)) = rows.split_first() else {
        return 1;
    };
    let minor = |column: usize| {
        let without = |row: &Vec<i128>| [&row[..column], &row[column + 1..]].concat();
        determinant(&others.iter().map(without).collect::<Vec<Vec<i128>>>())
    };
    let sign = |column: usize| if column % 2 == 0 { 1 } else { -1 };
    (0..first.len()).map(|column| sign(column) * first[column] * minor(column)).sum()
}

/// The rows with another column.
fn replaced(rows: &[Vec<i128>], column: usize, entries: &[i128]) -> Vec<Vec<i128>> {
    let mut rows = rows.to_vec();
    rows.iter_mut().zip(entries).for_each(|(row, &entry)| row[column] = entry);
    rows
}
