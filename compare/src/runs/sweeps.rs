//! Request 11: every S, and what a random run comes by of periods, shares, the common part, dones and 20.

use super::Run;
use crate::cases::sample;
use crate::drive::{Act, Kind};
use crate::edges::met;
use crate::harness::Harness;
use crate::image::Number;
use crate::made::{COMMON, COUNT, HEADS, MADE_LEN, OWN, word_at};
use crate::plain::{Allowance, Event, Plain};
use crate::random::Random;

/// Every S of a high byte for a number of heads, on a drive with something left: the shares are the same, the common part
/// is less than a sweep for each head, and together they come to S.
pub fn every_period(harness: &mut Harness, index: u64, random: &mut Random) {
    let (heads, high) = (1 + index % HEADS as u64, index / HEADS as u64);
    let mut made = Act::make(&sample().image(), heads as u32).on(&vec![0; MADE_LEN]).outcome().made;
    made[COMMON..].iter_mut().for_each(|byte| *byte = random.next() as u8);
    for sweeps in 256 * high..256 * (high + 1) {
        let after = harness.compare(&Act::period(sweeps as u16).on(&made)).made;
        let (common, own) = (word_at(&after, COMMON), word_at(&after, OWN[0]));
        let holds = u64::from(common) + heads * u64::from(own) == sweeps
            && u64::from(common) < heads
            && OWN[..heads as usize].iter().all(|&at| word_at(&after, at) == own);
        harness.check(holds, || format!("  {sweeps} sweeps of {heads} heads are dealt otherwise"));
    }
}

pub fn edges() -> impl Iterator<Item = &'static str> {
    let asks = GRANTED.into_iter().chain(FALLEN_SHORT).chain(BEFORE_20);
    let others = PERIODS.into_iter().chain(DONES).chain(IMAGES).chain(MAKES);
    asks.chain(others).chain(DAMAGED_ASKS).chain(DAMAGED_PERIODS).chain(DAMAGED_DONES)
}

/// The drive has the right length, and is still as it was before the call.
pub fn of_call(run: &Run, act: &Act, number: Number) -> Vec<&'static str> {
    let head = act.head().map_or(0, |head| head as usize);
    let Some(plain) = &run.plain else {
        return of_damaged(&run.made, act, head, number);
    };
    match (act.kind, number) {
        (Kind::Ask, 0) => of_granted(run, plain, head),
        (Kind::Ask, 20) => of_fallen_short(run, plain, head),
        (Kind::Ask, _) => of_before_20(plain, head, number),
        (Kind::Period, 0) => of_period(run, plain, act.number.unwrap_or(0).into()),
        (Kind::Done, 0) => of_done(run, plain, head),
        (Kind::NewImage, 0) => of_new_image(plain, &act.inputs[0]),
        (Kind::Make, 0) => of_make(plain, act.number.unwrap_or(0) as usize),
        _ => Vec::new(),
    }
}

const GRANTED: [&str; 12] = [
    "an ask within its own share",
    "an ask for the last of its own share",
    "an ask of own and common sweeps",
    "an ask of common sweeps alone",
    "an ask for the last of the common sweeps",
    "an ask for the last of S",
    "an ask that the remainder decides",
    "an ask that the done of another decides",
    "an ask of a done head",
    "an ask behind 20",
    "an ask in the period before a new image",
    "an ask of head 3",
];
const FALLEN_SHORT: [&str; 12] = [
    "20 before the first period",
    "20 with S 0",
    "20 for want of 1",
    "20 with own and common sweeps left",
    "20 with common sweeps left alone",
    "20 with none left at all",
    "20 where another has enough",
    "20 where the head waits",
    "20 of a done head",
    "20 in the period before a new image",
    "20 of the only head",
    "20 of head 3",
];
const BEFORE_20: [&str; 3] =
    ["13 where sweeps fall short", "16 where sweeps fall short", "15 of an ask where sweeps fall short"];
const PERIODS: [&str; 14] = [
    "a period of no sweep",
    "a period of the most sweeps",
    "a period with a remainder of 1",
    "a period with a remainder of 2",
    "a period with a remainder of 3",
    "a period of some sweeps without a remainder",
    "a period of fewer sweeps than heads",
    "a period of one head",
    "a period of four heads",
    "a period behind one with a share left",
    "a period behind one with common sweeps left",
    "a period where an answer waits",
    "a period behind a done",
    "a period behind 20",
];
const DONES: [&str; 7] = [
    "a done with all of its share",
    "a done with a part of its share",
    "a done with nothing of its share",
    "a done behind a done",
    "a done before the first period",
    "a done where its answer waits",
    "a done of head 3",
];
const IMAGES: [&str; 3] = [
    "a new image of more sweeps in a period",
    "a new image of fewer sweeps in a period",
    "a new image where sweeps were granted and some are left",
];
const MAKES: [&str; 3] =
    ["a make of more heads in a period", "a make of fewer heads in a period", "a make of as many heads in a period"];
const DAMAGED_ASKS: [&str; 4] = [
    "damaged, an ask with more heads than there can be",
    "damaged, an ask with own and common sweeps beyond 32 bits",
    "damaged, an ask with a word of sweeps beyond 31 bits",
    "damaged, 20",
];
const DAMAGED_PERIODS: [&str; 3] = [
    "damaged, an accepted period",
    "damaged, a period of a drive without heads",
    "damaged, a period with more heads than there can be",
];
const DAMAGED_DONES: [&str; 3] = [
    "damaged, an accepted done",
    "damaged, a done whose sum is cut",
    "damaged, a done with more heads than there can be",
];

/// What was left over when the period began.
fn remainder(plain: &Plain) -> u64 {
    plain.allowance.sweeps % plain.heads.len() as u64
}

/// What the head has said since the period began, or since the last new image in it.
fn in_period<'a>(run: &'a Run, head: usize) -> &'a [Event] {
    let log = &run.log[head];
    let begun = log.iter().rposition(|event| *event == Event::Period);
    begun.map_or(log, |begun| &log[begun..])
}

/// Did a new image come since the period began?
fn is_renewed(run: &Run) -> bool {
    run.is_renewed && !run.log[0].contains(&Event::Period)
}

fn of_granted(run: &Run, plain: &Plain, head: usize) -> Vec<&'static str> {
    let (allowance, sweeps) = (&plain.allowance, plain.sweeps());
    let Allowance { common, own, .. } = allowance;
    let (own, of_common) = (own[head], sweeps.saturating_sub(own[head]));
    let said = in_period(run, head);
    let others_done = said.contains(&Event::OtherHead(Kind::Done, 0));
    let holds = [
        of_common == 0,
        own == sweeps,
        own > 0 && of_common > 0,
        own == 0,
        of_common > 0 && of_common == *common,
        allowance.granted + sweeps == allowance.sweeps,
        of_common > 0 && of_common <= remainder(plain) && !others_done,
        of_common > remainder(plain) && others_done && !said.contains(&Event::Done),
        said.contains(&Event::Done),
        run.log[head].contains(&Event::Refused(Kind::Ask, 20)),
        is_renewed(run) && allowance.granted > 0,
        head == 3,
    ];
    met(GRANTED, holds)
}

fn of_fallen_short(run: &Run, plain: &Plain, head: usize) -> Vec<&'static str> {
    let (allowance, sweeps) = (&plain.allowance, plain.sweeps());
    let Allowance { common, own, .. } = allowance;
    let holds = [
        !allowance.is_begun,
        allowance.is_begun && allowance.sweeps == 0,
        allowance.left(head) + 1 == sweeps,
        own[head] > 0 && *common > 0,
        own[head] == 0 && *common > 0,
        allowance.sweeps > 0 && allowance.granted == allowance.sweeps,
        own.iter().any(|&own| own >= sweeps),
        plain.heads[head].waiting.is_some(),
        in_period(run, head).contains(&Event::Done),
        is_renewed(run) && allowance.granted > 0,
        plain.heads.len() == 1,
        head == 3,
    ];
    met(FALLEN_SHORT, holds)
}

fn of_before_20(plain: &Plain, head: usize, number: Number) -> Vec<&'static str> {
    let falls_short = plain.allowance.left(head) < plain.sweeps();
    met(BEFORE_20, [13, 16, 15].map(|other| other == number && falls_short))
}

fn of_period(run: &Run, plain: &Plain, sweeps: u64) -> Vec<&'static str> {
    let (heads, old) = (plain.heads.len() as u64, &plain.allowance);
    let said = |event: &Event| (0..HEADS).any(|head| in_period(run, head).contains(event));
    let holds = [
        sweeps == 0,
        sweeps == 65535,
        sweeps % heads == 1,
        sweeps % heads == 2,
        sweeps % heads == 3,
        sweeps > 0 && sweeps % heads == 0 && heads > 1,
        sweeps > 0 && sweeps < heads,
        heads == 1,
        heads == 4,
        old.own.iter().any(|&own| own > 0),
        old.common > 0,
        plain.waits(),
        said(&Event::Done),
        said(&Event::Refused(Kind::Ask, 20)),
    ];
    met(PERIODS, holds)
}

fn of_done(run: &Run, plain: &Plain, head: usize) -> Vec<&'static str> {
    let (allowance, share) = (&plain.allowance, plain.allowance.sweeps / plain.heads.len() as u64);
    let own = allowance.own[head];
    let holds = [
        own > 0 && own == share,
        own > 0 && own < share,
        own == 0 && share > 0,
        in_period(run, head).contains(&Event::Done),
        !allowance.is_begun,
        plain.heads[head].waiting.is_some(),
        head == 3,
    ];
    met(DONES, holds)
}

fn of_new_image(old: &Plain, image: &[u8]) -> Vec<&'static str> {
    let (allowance, new) = (&old.allowance, u64::from(word_at(image, 20)));
    let is_left = allowance.sweeps > allowance.granted;
    let holds = [new > old.sweeps() && is_left, new < old.sweeps() && is_left, allowance.granted > 0 && is_left];
    met(IMAGES, holds)
}

fn of_make(old: &Plain, heads: usize) -> Vec<&'static str> {
    let (count, begun) = (old.heads.len(), old.allowance.sweeps > 0);
    met(MAKES, [heads > count && begun, heads < count && begun, heads == count && begun])
}

/// Of a drive that something else wrote to.
fn of_damaged(made: &[u8], act: &Act, head: usize, number: Number) -> Vec<&'static str> {
    let (count, common) = (word_at(made, COUNT) as usize, word_at(made, COMMON));
    let (own, granted) = (word_at(made, OWN[head]), number == 0);
    let is_cut = own.checked_add(common).is_none();
    match act.kind {
        Kind::Ask => {
            let large = own.max(common) >> 31 == 1;
            met(DAMAGED_ASKS, [granted && count > HEADS, granted && is_cut, granted && large, number == 20])
        }
        Kind::Period => met(DAMAGED_PERIODS, [granted, number == 3 && count == 0, number == 3 && count > HEADS]),
        Kind::Done => met(DAMAGED_DONES, [granted, granted && is_cut, granted && count > HEADS]),
        _ => Vec::new(),
    }
}
