//! Where a solve comes to rest, by plain sweeps to the last. A sweep makes z and y out of z and y alone, and e and q out
//! of e and q alone: once it leaves both lists as they were, all later sweeps do.

use crate::image::Problem;
use crate::ranges::Carried;
use crate::solve::{ErrorBound, Rounded};

/// z and y, or e and q.
pub type Pair = [Vec<i64>; 2];

/// A loop of sweeps: the commands', the bounds' or that of both ends.
pub trait Scheme {
    fn sweep(&mut self);
    fn pair(&self) -> Pair;
}

impl Scheme for Rounded<'_> {
    fn sweep(&mut self) {
        self.step();
    }

    fn pair(&self) -> Pair {
        [self.z.clone(), self.y.clone()]
    }
}

impl Scheme for ErrorBound<'_> {
    fn sweep(&mut self) {
        self.step();
    }

    fn pair(&self) -> Pair {
        [self.e.clone(), self.point.clone()]
    }
}

/// Both ends in one list: a sweep makes the four of them out of each other.
impl Scheme for Carried<'_> {
    fn sweep(&mut self) {
        self.step();
    }

    fn pair(&self) -> Pair {
        [self.z.concat(), self.y.concat()]
    }
}

/// What a loop has before its first sweep and after each. It ends early behind a sweep where `ends` says so of all that
/// it has had.
pub fn course(scheme: &mut dyn Scheme, sweeps: usize, ends: &dyn Fn(&[Pair]) -> bool) -> Vec<Pair> {
    let mut course = vec![scheme.pair()];
    while course.len() <= sweeps {
        scheme.sweep();
        course.push(scheme.pair());
        if ends(&course) {
            break;
        }
    }
    course
}

/// Did the last sweep leave both lists as they were?
pub fn rests(course: &[Pair]) -> bool {
    matches!(course, [.., old, new] if old == new)
}

/// The most sweeps that an image can ask for.
pub const MOST_SWEEPS: usize = 400;

/// The courses of the commands and of the bounds.
pub struct Courses {
    pub commands: Vec<Pair>,
    pub bounds: Vec<Pair>,
}

impl Courses {
    /// All sweeps that an image can ask for, whatever this one does.
    pub fn new(problem: &Problem, inputs: &[i64], start: &[i64]) -> Courses {
        Courses {
            commands: course(&mut Rounded::new(problem, inputs, start), MOST_SWEEPS, &|_| false),
            bounds: course(&mut ErrorBound::new(problem), MOST_SWEEPS, &|_| false),
        }
    }

    /// The commands and the bounds after some sweeps.
    pub fn answer(&self, sweeps: usize) -> [&[i64]; 2] {
        [&self.commands[sweeps][0], &self.bounds[sweeps][0]]
    }

    /// The first sweep that leaves z and y as they were, and the first that leaves e and q.
    pub fn moments(&self) -> [Option<usize>; 2] {
        [&self.commands, &self.bounds].map(|course| (1..course.len()).find(|&sweep| rests(&course[..=sweep])))
    }

    /// Those of the edges below that these courses lie at.
    pub fn edges(&self) -> impl Iterator<Item = &'static str> {
        let [commands, bounds] = self.moments();
        let first =
            |one: Option<usize>, other: Option<usize>| one.is_some_and(|one| other.is_none_or(|other| one < other));
        let [command, bound] =
            [(&self.commands, commands), (&self.bounds, bounds)].map(|(course, moment)| last_mover(course, moment));
        let n = self.commands[0][0].len();
        let met = [
            first(commands, bounds),
            first(bounds, commands),
            commands.is_none(),
            is_still(&self.commands, 0),
            is_still(&self.commands, 1),
            is_still(&self.bounds, 0),
            n > 1 && command == Some(0),
            n > 1 && command == Some(n - 1),
            n > 1 && bound == Some(0),
            n > 1 && bound == Some(n - 1),
        ];
        EDGES.into_iter().zip(met).filter(|(_, met)| *met).map(|(edge, _)| edge)
    }

    /// Do all sweeps behind a moment of rest leave what it left?
    pub fn stay(&self) -> bool {
        let courses = [&self.commands, &self.bounds].into_iter().zip(self.moments());
        courses.into_iter().all(|(course, moment)| {
            moment.is_none_or(|moment| course[moment..].iter().all(|pair| *pair == course[moment]))
        })
    }
}

/// Does some sweep leave one of the two lists and change the other, and is z, or e, another at the end?
pub fn is_still(course: &[Pair], list: usize) -> bool {
    let [end, _] = &course[course.len() - 1];
    course.windows(2).any(|sweep| {
        let [old, new] = [&sweep[0], &sweep[1]];
        old[list] == new[list] && old[1 - list] != new[1 - list] && new[0] != *end
    })
}

/// The one command that the last sweep before the moment of rest has moved.
fn last_mover(course: &[Pair], moment: Option<usize>) -> Option<usize> {
    let moment = moment.filter(|&moment| moment > 1)?;
    let [old, new] = [&course[moment - 2], &course[moment - 1]];
    let mut movers = (0..old[0].len()).filter(|&k| (0..2).any(|list| old[list][k] != new[list][k]));
    movers.next().filter(|_| movers.next().is_none())
}

/// The sweeps about a moment of rest, it being the last sweep but one, the last, and one or two beyond it.
pub fn about(moments: [Option<usize>; 2]) -> Vec<usize> {
    let about = |moment: usize| moment.saturating_sub(2)..=moment + 1;
    let mut sweeps: Vec<usize> = moments.into_iter().flatten().flat_map(about).collect();
    sweeps.retain(|sweeps| (1..=MOST_SWEEPS).contains(sweeps));
    sweeps.sort();
    sweeps.dedup();
    sweeps
}

/// What a run has to meet.
pub const EDGES: [&str; 10] = [
    "the commands rest first",
    "the bounds rest first",
    "the commands do not rest in 400 sweeps",
    "z is still for a sweep and moves again",
    "y is still while z moves, and z moves again",
    "e is still for a sweep and moves again",
    "the first command alone moves last",
    "the last command alone moves last",
    "the first bound alone moves last",
    "the last bound alone moves last",
];
