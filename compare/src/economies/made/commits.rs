//! Commits that leave another start, or issue other commands.

use super::{Done, Economy, at, behind, lazy};
use crate::drive::Kind;
use crate::image::{Number, Sizes, bytes, words};
use crate::made::{Held, hold, start_part};
use crate::plain::moved;
use crate::solve::held;

pub fn economies() -> Vec<Economy> {
    let starts = [with_other_moves(), with_other_last_steps(), with_other_limits(), with_other_holds()];
    let others = [with_other_starts(), with_other_commands(), with_other_lengths()];
    starts.into_iter().chain(others).flatten().collect()
}

/// Each held to the limits of where it comes to.
fn all_held(commands: Vec<i64>, limits: Vec<(i64, i64)>) -> Vec<i64> {
    commands.into_iter().zip(limits).map(|(word, limits)| hold(word, limits)).collect()
}

/// The commands in other places.
fn moves(name: &str, other: fn(&Sizes, &[i64]) -> Vec<i64>) -> Economy {
    lazy(name, move |done| {
        if done.is(Kind::Commit, 0) {
            let start = all_held(other(&done.sizes(), &done.commands()), done.limits());
            done.put_start(&start);
        }
        done.number
    })
}

fn shifted(by: usize, z: &[i64]) -> Vec<i64> {
    (0..z.len()).map(|k| z[(k + by).min(z.len() - 1)]).collect()
}

fn with_other_moves() -> Vec<Economy> {
    vec![
        moves("moves the rest by one command", |_, z| shifted(1, z)),
        moves("moves the rest by N commands", |sizes, z| shifted(sizes.steps, z)),
        moves("moves nothing", |_, z| z.to_vec()),
        moves("moves the rest two steps forward", |sizes, z| moved(sizes, &moved(sizes, z))),
        moves("moves the steps backward", |sizes, z| [&z[..sizes.motors], &z[..z.len() - sizes.motors]].concat()),
        moves("moves with motors outermost", |sizes, z| {
            let at = |k: usize| if (k + 1).is_multiple_of(sizes.steps) { k } else { k + 1 };
            (0..z.len()).map(|k| z[at(k)]).collect()
        }),
        moves("moves the first motor alone", |sizes, z| {
            let all = moved(sizes, z);
            (0..z.len()).map(|k| if k.is_multiple_of(sizes.motors) { all[k] } else { z[k] }).collect()
        }),
    ]
}

/// Another last step behind the rest.
fn with_other_last_steps() -> Vec<Economy> {
    fn with_last(sizes: &Sizes, z: &[i64], last: &[i64]) -> Vec<i64> {
        [&z[sizes.motors..], last].concat()
    }
    fn zeros(sizes: &Sizes) -> Vec<i64> {
        vec![0; sizes.motors]
    }
    vec![
        moves("zeroes the last step", |sizes, z| with_last(sizes, z, &zeros(sizes))),
        moves("zeroes the last step of three or more", |sizes, z| {
            if sizes.steps < 3 { moved(sizes, z) } else { with_last(sizes, z, &zeros(sizes)) }
        }),
        moves("zeroes the start with N 1", |sizes, z| {
            let zeros = vec![0; z.len()];
            if sizes.steps == 1 { zeros } else { moved(sizes, z) }
        }),
        moves("puts the first step last", |sizes, z| with_last(sizes, z, &z[..sizes.motors])),
        moves("repeats the last command at every motor", |sizes, z| {
            with_last(sizes, z, &vec![z[z.len() - 1]; sizes.motors])
        }),
        moves("repeats the last step but one", |sizes, z| {
            let from = z.len().saturating_sub(2 * sizes.motors);
            with_last(sizes, z, &z[from..from + sizes.motors])
        }),
    ]
}

/// A word that comes to command k, held by the limits of all.
type Hold = fn(&Sizes, &[(i64, i64)], usize, i64) -> i64;

/// The commands in their right places, and held otherwise.
fn holds(name: &str, other: Hold) -> Economy {
    lazy(name, move |done| {
        if done.is(Kind::Commit, 0) {
            let (sizes, limits) = (done.sizes(), done.limits());
            let moved = moved(&sizes, &done.commands()).into_iter().enumerate();
            let start: Vec<i64> = moved.map(|(k, word)| other(&sizes, &limits, k, word)).collect();
            done.put_start(&start);
        }
        done.number
    })
}

/// The last step's command of the same motor.
fn last(sizes: &Sizes, k: usize) -> usize {
    sizes.commands() - sizes.motors + k % sizes.motors
}

fn with_other_limits() -> Vec<Economy> {
    vec![
        holds("holds the start to the limits of the old step", |sizes, limits, k, z| {
            hold(z, limits[(k + sizes.motors).min(last(sizes, k))])
        }),
        holds("holds the start to the first step's limits", |sizes, limits, k, z| hold(z, limits[k % sizes.motors])),
        holds("holds the start to the last step's limits", |sizes, limits, k, z| hold(z, limits[last(sizes, k)])),
        holds("holds the start to the first motor's limits", |sizes, limits, k, z| {
            hold(z, limits[k - k % sizes.motors])
        }),
        holds("holds the start to the limits of command k + 1", |_, limits, k, z| {
            hold(z, limits[(k + 1).min(limits.len() - 1)])
        }),
    ]
}

fn with_other_holds() -> Vec<Economy> {
    vec![
        holds("does not hold the start", |_, _, _, z| z),
        holds("holds the start to lows alone", |_, limits, k, z| z.max(limits[k].0)),
        holds("holds the start to highs alone", |_, limits, k, z| z.min(limits[k].1)),
        holds("zeroes what its limits do not hold", |_, limits, k, z| if hold(z, limits[k]) == z { z } else { 0 }),
        holds(
            "holds the first step alone",
            |sizes, limits, k, z| if k < sizes.motors { hold(z, limits[k]) } else { z },
        ),
        holds("does not hold the last step", |sizes, limits, k, z| {
            let is_last = k == last(sizes, k);
            if is_last { z } else { hold(z, limits[k]) }
        }),
        // Where a low is above its high.
        holds("tests the high first", |_, limits, k, z| if z > limits[k].1 { limits[k].1 } else { z.max(limits[k].0) }),
        holds("holds to the high and then to the low", |_, limits, k, z| held(z, limits[k])),
        holds("holds to the low and then to the high", |_, limits, k, z| z.max(limits[k].0).min(limits[k].1)),
    ]
}

/// A drive that has another start behind an accepted call.
fn starts(name: &str, kind: Kind, start: fn(&Done) -> Vec<i64>) -> Economy {
    lazy(name, move |done| {
        if done.is(kind, 0) {
            let start = start(done);
            done.put_start(&start);
        }
        done.number
    })
}

/// Other words than the answer's, or those at another time.
fn with_other_starts() -> Vec<Economy> {
    fn zeros(done: &Done) -> Vec<i64> {
        vec![0; done.sizes().commands()]
    }
    fn asked(done: &Done) -> Vec<i64> {
        words(&done.out[..4 * done.sizes().commands()])
    }
    vec![
        starts("starts from zeros behind a commit", Kind::Commit, zeros),
        starts("keeps the start in a commit", Kind::Commit, |done| done.start()),
        starts("moves the old start in a commit", Kind::Commit, |done| moved(&done.sizes(), &done.start())),
        starts("takes the bounds for the start", Kind::Commit, |done| done.bounds()),
        starts("moves the start with the ask", Kind::Ask, |done| {
            all_held(moved(&done.sizes(), &asked(done)), done.limits())
        }),
        starts("takes an ask's commands for the start", Kind::Ask, asked),
        starts("starts from zeros behind an ask", Kind::Ask, zeros),
    ]
}

/// A drive that issues the first of other commands.
fn issues(name: &str, other: fn(&Done) -> Vec<i64>) -> Economy {
    behind(name, Kind::Commit, move |done| {
        let (commands, issued) = (bytes(&other(done)), done.out.len());
        done.out.copy_from_slice(&commands[..issued]);
    })
}

fn with_other_commands() -> Vec<Economy> {
    vec![
        issues("issues the last step", |done| done.commands()[last(&done.sizes(), 0)..].to_vec()),
        issues("issues the second step", |done| moved(&done.sizes(), &done.commands())),
        issues("issues the first command of each motor's steps", |done| {
            let Sizes { motors, steps, .. } = done.sizes();
            (0..motors).map(|motor| done.commands()[motor * steps]).collect()
        }),
        issues("issues the bounds", |done| done.bounds()),
        issues("issues the start", |done| done.start()),
        issues("issues the next start", |done| words(&done.made[start_part(done.head, &done.sizes())])),
        issues("issues zeros", |done| vec![0; done.sizes().motors]),
        issues("holds what it issues", |done| all_held(done.commands(), done.limits())),
        issues("issues the commands of the last motor first", |done| {
            done.commands()[..done.sizes().motors].iter().rev().copied().collect()
        }),
    ]
}

/// Another number of commands.
fn with_other_lengths() -> Vec<Economy> {
    vec![
        at("issues all n commands", Kind::Commit, &[0, 15], |done| issue(done, |sizes, _| sizes.commands())),
        at("issues one command", Kind::Commit, &[0, 15], |done| issue(done, |_, _| 1)),
        at("issues N commands", Kind::Commit, &[0, 15], |done| issue(done, |sizes, _| sizes.steps)),
        at("issues as many commands as there is room for", Kind::Commit, &[0, 15], |done| {
            issue(done, |sizes, room| (room / 4).min(sizes.commands()))
        }),
    ]
}

/// A commit that issues so many commands, and takes the length of these alone.
fn issue(done: &mut Done, count: fn(&Sizes, usize) -> usize) -> Number {
    let Ok(sizes) = Held::of(done.before).and_then(|held| held.sizes()) else {
        return 15;
    };
    let count = count(&sizes, done.out.len());
    if done.out.len() != 4 * count {
        return done.refuse(15);
    }
    if !done.waited() {
        return 18;
    }
    let commands = bytes(&done.commands()[..count]);
    done.out.copy_from_slice(&commands);
    0
}
