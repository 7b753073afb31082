//! Drives that end a solve's loops early where they have not come to rest. The papers sweep to the last; a drive may end
//! its commands, or its bounds, where no later sweep changes them, and nowhere else.

use super::loops::MISTAKES;
use super::{Economy, Table, lazy};
use crate::drive::Kind;
use crate::image::{COST, HEADER_WORDS, Problem, Sizes, open, words};
use crate::rest::{Pair, course, rests};
use crate::rules::{Rules, Times, Use};
use crate::solve::{Answer, ErrorBound, Rounded, read_start, read_state, read_target};

/// An accepted solve.
pub struct Solve<'a> {
    image: &'a [u8],
    pub problem: Problem,
    pub inputs: Vec<i64>,
    pub start: Vec<i64>,
}

/// Is a loop to end, by the problem and by all that it has had?
pub type Ends = fn(&Problem, &[Pair]) -> bool;

const AT_REST: Ends = |_, course| rests(course);
pub const NEVER: Ends = |_, _| false;

impl Solve<'_> {
    pub fn of<'a>(inputs: &[&'a [u8]]) -> Solve<'a> {
        let problem = open(inputs[0], Rules::default()).expect("the image is accepted");
        let state = read_state(&problem, inputs[1]).expect("the state is accepted");
        let target = read_target(&problem, inputs[2]).expect("the target is accepted");
        let start = read_start(&problem, inputs[3]).expect("the start is accepted");
        Solve { image: inputs[0], problem, inputs: [state, target].concat(), start }
    }

    pub fn sweeps(&self) -> usize {
        self.problem.sizes.iterations
    }

    pub fn commands(&self, sweeps: usize, ends: Ends) -> Vec<Pair> {
        let mut rounded = Rounded::new(&self.problem, &self.inputs, &self.start);
        course(&mut rounded, sweeps, &|course| ends(&self.problem, course))
    }

    fn bounds(&self, sweeps: usize, ends: Ends) -> Vec<Pair> {
        course(&mut ErrorBound::new(&self.problem), sweeps, &|course| ends(&self.problem, course))
    }
}

/// What a loop answers: z or e as its last sweep left it.
fn last(course: Vec<Pair>) -> Vec<i64> {
    let [answer, _] = course.into_iter().next_back().expect("a course has its start");
    answer
}

/// A drive with its own commands and bounds, and the D of those commands.
fn drive(name: &str, answer: impl Fn(&Solve) -> [Vec<i64>; 2] + 'static) -> Economy {
    boxed(name, Box::new(answer))
}

type Lists = Box<dyn Fn(&Solve) -> [Vec<i64>; 2]>;

/// Apart from `drive`, which is compiled once for each answer.
fn boxed(name: &str, answer: Lists) -> Economy {
    let economy = lazy(name, move |kind, inputs, number, out| {
        if kind == Kind::Solve && number == 0 {
            let solve = Solve::of(inputs);
            let [commands, bounds] = answer(&solve);
            out.copy_from_slice(&Answer::new(&solve.problem, &solve.inputs, &commands, &bounds).bytes());
        }
        number
    });
    Economy { found_on: Table::AtRest, ..economy }
}

fn ending(name: &str, commands: Ends, bounds: Ends) -> Economy {
    drive(name, move |solve| {
        let sweeps = solve.sweeps();
        [last(solve.commands(sweeps, commands)), last(solve.bounds(sweeps, bounds))]
    })
}

pub fn economies() -> Vec<Economy> {
    let mut economies = Vec::new();
    for (name, alike) in IN_PART {
        economies.push(in_part(&format!("ends the commands when {name}"), alike, true));
        economies.push(in_part(&format!("ends the bounds when {name}"), alike, false));
    }
    economies.extend(OF_COMMANDS.map(|(name, ends)| ending(&format!("ends the commands when {name}"), ends, AT_REST)));
    economies.extend(OF_BOUNDS.map(|(name, ends)| ending(&format!("ends the bounds when {name}"), AT_REST, ends)));
    economies.extend(together());
    economies.extend(off_by_one());
    economies.extend(MISTAKES.map(|(mistake, times)| in_bounds(mistake, times)));
    economies
}

/// Drives that end rightly: no case may tell them from the papers' drive.
pub fn right() -> Vec<Economy> {
    vec![
        ending("never ends early", NEVER, NEVER),
        ending("ends at rest", AT_REST, AT_REST),
        drive("ends both when both rest", |solve| {
            let sweeps = solve.sweeps();
            let moments = [solve.commands(sweeps, AT_REST).len(), solve.bounds(sweeps, AT_REST).len()];
            let sweeps = moments[0].max(moments[1]) - 1;
            [last(solve.commands(sweeps, NEVER)), last(solve.bounds(sweeps, NEVER))]
        }),
        // A sweep that leaves z makes y equal to z; so does the next, which then leaves y too.
        ending("ends when two sweeps leave z", |_, course| same(course, 0, 1) && same(course, 0, 2), AT_REST),
        // No e ever falls, and q has e in it.
        ending("ends the bounds when q rests", AT_REST, |_, course| same(course, 1, 1)),
        ending("ends the bounds when every e is at its width", AT_REST, |problem, course| {
            at_width(problem, course).iter().all(|&at| at)
        }),
    ]
}

/// Is a list what it was so many sweeps ago?
fn same(course: &[Pair], list: usize, ago: usize) -> bool {
    let now = course.len() - 1;
    now >= ago && course[now][list] == course[now - ago][list]
}

/// For each command: did the last sweep leave both of its values?
fn alike(course: &[Pair]) -> Vec<bool> {
    let [.., [a, b], [c, d]] = course else { panic!("a sweep was made") };
    (0..a.len()).map(|k| (a[k], b[k]) == (c[k], d[k])).collect()
}

/// For each command: is its e as large as it can be?
fn at_width(problem: &Problem, course: &[Pair]) -> Vec<bool> {
    let e = &course[course.len() - 1][0];
    (0..e.len()).map(|k| e[k] == problem.width(Use::Bound, k)).collect()
}

type InPart = fn(&[bool], &Sizes) -> bool;

/// Faults of either loop: some commands alone decide. With too few of them to leave some out all do: a drive that does
/// not heed any is found all the sooner.
const IN_PART: [(&str, InPart); 11] = [
    ("the first command rests", |rests, _| rests[0]),
    ("the last command rests", |rests, _| rests[rests.len() - 1]),
    ("the middle command rests", |rests, _| rests[rests.len() / 2]),
    ("all but the last command rest", |rests, _| all(&rests[..(rests.len() - 1).max(1)])),
    ("all but the first command rest", |rests, _| all(&rests[usize::from(rests.len() > 1)..])),
    ("some command rests", |rests, _| rests.contains(&true)),
    ("half of the commands rest", |rests, _| 2 * rests.iter().filter(|&&rests| rests).count() >= rests.len()),
    ("the first step's commands rest", |rests, sizes| all(&rests[..sizes.motors])),
    ("every full group of four rests", |rests, _| match rests.len() {
        0..4 => all(rests),
        n => all(&rests[..n / 4 * 4]),
    }),
    ("the last group of four rests", |rests, _| rests.chunks(4).next_back().is_some_and(all)),
    ("every fourth command rests", |rests, _| rests.iter().step_by(4).all(|&rests| rests)),
];

fn all(rests: &[bool]) -> bool {
    rests.iter().all(|&rests| rests)
}

fn in_part(name: &str, decides: InPart, in_commands: bool) -> Economy {
    drive(name, move |solve| {
        let (problem, sweeps) = (&solve.problem, solve.sweeps());
        let ends = |course: &[Pair]| decides(&alike(course), &problem.sizes);
        let (mut rounded, mut bound) = (Rounded::new(problem, &solve.inputs, &solve.start), ErrorBound::new(problem));
        let ends: [&dyn Fn(&[Pair]) -> bool; 2] = if in_commands { [&ends, &rests] } else { [&rests, &ends] };
        [last(course(&mut rounded, sweeps, ends[0])), last(course(&mut bound, sweeps, ends[1]))]
    })
}

/// Holds of z and of y, as the last sweep found them and as it left them.
fn both(course: &[Pair], holds: fn(&[i64], &[i64]) -> bool) -> bool {
    let [.., old, new] = course else { panic!("a sweep was made") };
    (0..2).all(|list| holds(&old[list], &new[list]))
}

fn by_values(old: &[i64], new: &[i64], holds: fn(i64, i64) -> bool) -> bool {
    old.iter().zip(new).all(|(&old, &new)| holds(old, new))
}

const OF_COMMANDS: [(&str, Ends); 11] = [
    ("z rests, though y has not", |_, course| same(course, 0, 1)),
    ("y rests, though z has not", |_, course| same(course, 1, 1)),
    ("each command rests in z or in y", |_, course| {
        let [.., [a, b], [c, d]] = course else { panic!("a sweep was made") };
        (0..a.len()).all(|k| a[k] == c[k] || b[k] == d[k])
    }),
    ("y is z", |_, course| course[course.len() - 1][0] == course[course.len() - 1][1]),
    ("every z is at a limit", |problem, course| {
        let z = &course[course.len() - 1][0];
        (0..z.len()).all(|k| z[k] == problem.lower[k] || z[k] == problem.upper[k])
    }),
    ("they are at their start again", |_, course| course[0] == course[course.len() - 1]),
    ("they are where they ever were", |_, course| course[..course.len() - 1].contains(&course[course.len() - 1])),
    ("their sums rest", |_, course| both(course, |old, new| old.iter().sum::<i64>() == new.iter().sum::<i64>())),
    ("their magnitudes rest", |_, course| {
        both(course, |old, new| by_values(old, new, |old, new| old.abs() == new.abs()))
    }),
    ("their last two bytes rest", |_, course| {
        both(course, |old, new| by_values(old, new, |old, new| old as u16 == new as u16))
    }),
    ("none moves by more than a count", |_, course| {
        both(course, |old, new| by_values(old, new, |old, new| (old - new).abs() <= 1))
    }),
];

const OF_BOUNDS: [(&str, Ends); 6] = [
    ("e rests, though q has not", |_, course| same(course, 0, 1)),
    ("some e is at its width", |problem, course| at_width(problem, course).contains(&true)),
    ("the first e is at its width", |problem, course| at_width(problem, course)[0]),
    ("the last e is at its width", |problem, course| at_width(problem, course).ends_with(&[true])),
    ("each e is at its width or rests with its q", |problem, course| {
        at_width(problem, course).iter().zip(alike(course)).all(|(&at, alike)| at || alike)
    }),
    ("none moves by more than a count", |_, course| {
        both(course, |old, new| by_values(old, new, |old, new| (old - new).abs() <= 1))
    }),
];

/// One loop ends by the other.
fn together() -> [Economy; 3] {
    [
        drive("ends the commands when the bounds rest", |solve| {
            let bounds = solve.bounds(solve.sweeps(), AT_REST);
            [last(solve.commands(bounds.len() - 1, AT_REST)), last(bounds)]
        }),
        drive("ends the bounds when the commands rest", |solve| {
            let commands = solve.commands(solve.sweeps(), AT_REST);
            let sweeps = commands.len() - 1;
            [last(commands), last(solve.bounds(sweeps, AT_REST))]
        }),
        drive("ends both when z and e rest", |solve| {
            let [commands, bounds] = [solve.commands(solve.sweeps(), NEVER), solve.bounds(solve.sweeps(), NEVER)];
            let rests = |&sweep: &usize| same(&commands[..=sweep], 0, 1) && same(&bounds[..=sweep], 0, 1);
            let sweep = (1..=solve.sweeps()).find(rests).unwrap_or(solve.sweeps());
            [commands[sweep][0].clone(), bounds[sweep][0].clone()]
        }),
    ]
}

/// The iterate before the last that moved.
fn before(mut course: Vec<Pair>) -> Vec<i64> {
    if rests(&course) {
        course.truncate((course.len() - 2).max(1));
    }
    last(course)
}

/// A sweep too few or too many, or another iterate than the last z and e.
fn off_by_one() -> [Economy; 7] {
    [
        drive("answers at rest the commands before the last that moved", |solve| {
            let (commands, bounds) = (solve.commands(solve.sweeps(), AT_REST), solve.bounds(solve.sweeps(), AT_REST));
            [before(commands), last(bounds)]
        }),
        drive("answers at rest the bounds before the last that moved", |solve| {
            let (commands, bounds) = (solve.commands(solve.sweeps(), AT_REST), solve.bounds(solve.sweeps(), AT_REST));
            [last(commands), before(bounds)]
        }),
        drive("leaves out the last sweep of the commands", |solve| {
            [last(solve.commands(solve.sweeps() - 1, AT_REST)), last(solve.bounds(solve.sweeps(), AT_REST))]
        }),
        drive("leaves out the last sweep of the bounds", |solve| {
            [last(solve.commands(solve.sweeps(), AT_REST)), last(solve.bounds(solve.sweeps() - 1, AT_REST))]
        }),
        drive("makes a sweep of the commands too many", |solve| {
            [last(solve.commands(solve.sweeps() + 1, AT_REST)), last(solve.bounds(solve.sweeps(), AT_REST))]
        }),
        drive("makes a sweep of the bounds too many", |solve| {
            [last(solve.commands(solve.sweeps(), AT_REST)), last(solve.bounds(solve.sweeps() + 1, AT_REST))]
        }),
        drive("answers y", |solve| {
            let [_, y] = solve.commands(solve.sweeps(), AT_REST).pop().expect("a course has its start");
            [y, last(solve.bounds(solve.sweeps(), AT_REST))]
        }),
    ]
}

/// A loop over the terms of the bound's sum that misses some or adds one twice: the bounds of a problem with such an M.
fn in_bounds(mistake: &str, times: Times) -> Economy {
    drive(&format!("{mistake} in the bound's sum"), move |solve| {
        let (sizes, mut body) = (solve.problem.sizes, words(&solve.image[4 * HEADER_WORDS..]));
        let (n, one) = (sizes.commands(), sizes.one());
        let (first, length) = sizes.extent(COST);
        for (i, entry) in body[first..first + length].iter_mut().enumerate() {
            let diagonal = if i % (n + 1) == 0 { one } else { 0 };
            *entry = diagonal - (diagonal - *entry) * times(i % n, n) as i64;
        }
        let other = Problem::new(sizes, &body, Rules::default());
        let bounds = course(&mut ErrorBound::new(&other), solve.sweeps(), &rests);
        [last(solve.commands(solve.sweeps(), AT_REST)), last(bounds)]
    })
}
