//! The calls of the other heads leave a head's answers and starts the same, and its share, as long as its own asks stay
//! within that. So what concerns a head is the same by itself as in its run, and beside any other calls of the others,
//! from any moment on.

use std::ops::Range;

use super::Run;
use crate::drive::{Act, Kind, Outcome};
use crate::edges::met;
use crate::generate::{self, Plan};
use crate::harness::Harness;
use crate::image::{Number, open};
use crate::made::{COMMON, HEADS, Held, IMAGE_ROOM, MADE_LEN, OWN};
use crate::made::{count_part, head_part, heads_made, own_part, waits, word_at};
use crate::random::Random;
use crate::rules::Rules;
use crate::solve::answer_len;

/// The calls of a run since a moment, and the drive as it was then.
pub struct Course {
    from: Vec<u8>,
    pub calls: Vec<Called>,
    /// Are they all of its calls?
    is_whole: bool,
}

/// A call with its outcome, but for the drive.
pub struct Called {
    act: Act,
    number: Number,
    written: Option<Vec<u8>>,
    /// Of an ask that is tested for 20, what its head then had of its own beyond the sweeps.
    to_spare: Option<i64>,
}

impl Called {
    pub fn new(act: &Act, outcome: &Outcome, before: &[u8]) -> Called {
        let (number, written) = (outcome.number, outcome.written.clone());
        let is_tested = act.kind == Kind::Ask && matches!(number, 0 | 20);
        let head = act.head().filter(|_| is_tested);
        let to_spare = head.map(|head| i64::from(word_at(before, OWN[head as usize])) - sweeps(before));
        Called { act: act.clone(), number, written, to_spare }
    }

    /// Accepted makes, new images and periods concern all heads, and asks, commits and dones their own. All else is of
    /// no concern.
    fn concerns(&self, head: usize) -> bool {
        self.act.head().map_or(self.number == 0, |own| own as usize == head)
    }

    fn is_within_own(&self) -> bool {
        self.to_spare.is_none_or(|to_spare| to_spare >= 0)
    }
}

/// Those of an image that a solve takes.
fn sweeps(made: &[u8]) -> i64 {
    let sizes = Held::of(made).and_then(|held| held.sizes()).expect("a solve takes the image");
    sizes.iterations as i64
}

impl Course {
    /// Of a drive that no call has written.
    pub fn new(from: &[u8]) -> Course {
        Course { from: from.to_vec(), calls: Vec::new(), is_whole: true }
    }

    pub fn since(from: &[u8]) -> Course {
        Course { is_whole: false, ..Course::new(from) }
    }

    /// What concerns a head, as far as its asks stay within its own share, and whether all of them do.
    fn concerning(&self, head: usize) -> (Vec<&Called>, bool) {
        let all: Vec<&Called> = self.calls.iter().filter(|called| called.concerns(head)).collect();
        let within = all.iter().position(|called| !called.is_within_own()).unwrap_or(all.len());
        (all[..within].to_vec(), within == all.len())
    }

    fn has_calls_of(&self, head: usize) -> bool {
        self.calls.iter().any(|called| called.act.head() == Some(head as u32))
    }
}

/// What a run has to come by.
pub const EDGES: [&str; 15] = [
    "what concerns a head, from the first call on",
    "what concerns a head, from a later moment on",
    "what concerns a head, across a new image",
    "what concerns a head, with a commit",
    "what concerns a head, begun where it waits",
    "what concerns a head, begun where another waits",
    "what concerns a head, a commit before a new image and one behind it",
    "what concerns a head, from bytes that something else wrote",
    "what concerns head 2",
    "what concerns head 3",
    "what concerns a head, with an ask for the last of its share",
    "what concerns a head, an ask before a period and one behind it",
    "what concerns a head, with a done",
    "what concerns a head, begun in a period",
    "what concerns a head, up to an ask beyond its share",
];
/// Beside what concerns a head, and not in the run.
pub const OTHERS: [&str; 10] = [
    "beside what concerns a head, an ask of another",
    "beside what concerns a head, a commit of another",
    "beside what concerns a head, a refused call of another",
    "beside what concerns a head, a call of no head",
    "beside what concerns a head, 19",
    "beside what concerns a head, a done of another",
    "beside what concerns a head, 20",
    "beside what concerns a head, an ask of common sweeps",
    "beside what concerns a head, a refused period",
    "beside what concerns a head, a refused make",
];

/// Makes the calls of a course that concern a head once more, by themselves and beside others, and so for two heads that
/// have some.
pub fn compare(harness: &mut Harness, random: &mut Random, run: &Run) {
    let first = random.below(HEADS);
    let heads = (first..first + HEADS).map(|head| head % HEADS);
    for head in heads.filter(|&head| run.course.has_calls_of(head)).take(2) {
        cover(harness, run, head);
        again(harness, run, head, |_| None);
        again(harness, run, head, |made| random.one_in(2).then(|| another(random, made, head)));
    }
}

fn cover(harness: &mut Harness, run: &Run, head: usize) {
    let course = &run.course;
    let (calls, is_all) = course.concerning(head);
    let accepts = |calls: &[&Called], kind| calls.iter().any(|called| called.act.kind == kind && called.number == 0);
    let about = |kind, own| {
        let first = calls.iter().position(|called| called.act.kind == kind);
        first.is_some_and(|at| [&calls[..at], &calls[at..]].iter().all(|part| accepts(part, own)))
    };
    let holds = [
        course.is_whole,
        !course.is_whole,
        accepts(&calls, Kind::NewImage),
        accepts(&calls, Kind::Commit),
        waits(&course.from, head),
        (0..HEADS).any(|other| other != head && waits(&course.from, other)),
        about(Kind::NewImage, Kind::Commit),
        !course.is_whole && run.plain.is_none(),
        head == 2 && accepts(&calls, Kind::Ask),
        head == 3 && accepts(&calls, Kind::Ask),
        calls.iter().any(|called| called.to_spare == Some(0)),
        about(Kind::Period, Kind::Ask),
        accepts(&calls, Kind::Done),
        run.plain.is_some() && word_at(&course.from, OWN[head]) > 0,
        !is_all,
    ];
    harness.meet_edges(met(EDGES, holds.map(|holds| holds && !calls.is_empty())));
}

fn cover_other(harness: &mut Harness, act: &Act, made: &[u8], outcome: &Outcome) {
    let (number, head) = (outcome.number, act.head());
    let of_head = head.is_some_and(|head| (head as usize) < heads_made(made));
    let takes_common = act.kind == Kind::Ask && outcome.made[COMMON..OWN[0]] != made[COMMON..OWN[0]];
    let holds = [
        act.kind == Kind::Ask && number == 0,
        act.kind == Kind::Commit && number == 0,
        of_head && number != 0,
        head.is_some() && !of_head,
        number == 19,
        act.kind == Kind::Done && number == 0,
        number == 20,
        number == 0 && takes_common,
        act.kind == Kind::Period && number != 0,
        act.kind == Kind::Make && number != 0,
    ];
    harness.meet_edges(met(OTHERS, holds));
}

/// From the drive where the course began, with some other calls before each and at the end: number, output and, unless
/// an ask was beyond its share, what the head is left with are the same.
fn again(harness: &mut Harness, run: &Run, head: usize, mut other: impl FnMut(&[u8]) -> Option<Act>) {
    let mut made = run.course.from.clone();
    let (calls, is_all) = run.course.concerning(head);
    for called in calls {
        beside(harness, &mut made, &mut other);
        if called.act.kind == Kind::NewImage {
            use_up(harness, &mut made, head);
        }
        let outcome = step(harness, &called.act, &mut made);
        let holds = (outcome.number, &outcome.written) == (called.number, &called.written);
        harness.check(holds, || format!("  head {head} alone, or beside other calls: not {}", called.number));
    }
    beside(harness, &mut made, &mut other);
    let is_same = |part: Range<usize>| made[part.clone()] == run.made[part];
    let parts = [0..IMAGE_ROOM.end, head_part(head), count_part(), own_part(head)];
    let holds = !is_all || parts.into_iter().all(is_same);
    harness.check(holds, || format!("  head {head} alone, or beside other calls, is left with something else"));
}

/// In the run the other heads' answers were used up before an accepted new image.
fn use_up(harness: &mut Harness, made: &mut Vec<u8>, head: usize) {
    for other in (0..heads_made(made)).filter(|&other| other != head) {
        if waits(made, other) {
            step(harness, &commit(made, other), made);
        }
    }
}

/// As many other calls as there are.
fn beside(harness: &mut Harness, made: &mut Vec<u8>, mut other: impl FnMut(&[u8]) -> Option<Act>) {
    while let Some(act) = other(made) {
        let before = made.clone();
        let outcome = step(harness, &act, made);
        cover_other(harness, &act, &before, &outcome);
    }
}

fn step(harness: &mut Harness, act: &Act, made: &mut Vec<u8>) -> Outcome {
    let outcome = harness.compare(&act.on(made));
    if act.made_len == MADE_LEN {
        made.clone_from(&outcome.made);
    }
    outcome
}

/// Of the right length.
fn commit(made: &[u8], head: usize) -> Act {
    let sizes = Held::of(made).and_then(|held| held.sizes());
    Act::commit(head as u32, sizes.map_or(4, |sizes| 4 * sizes.motors))
}

/// A call of another head, accepted or not, one of no head, or a new image, a period or a make that is refused.
fn another(random: &mut Random, made: &[u8], head: usize) -> Act {
    let other = (head + random.between(1, HEADS as i64 - 1) as usize) % HEADS;
    let image = Held::of(made).expect("the length is right").image;
    let any_waits = (0..heads_made(made)).any(|head| waits(made, head));
    match random.below(14) {
        0..5 => ask(random, image, other as u32),
        5..7 => commit(made, other),
        7 => Act::commit(other as u32, 0),
        8 if any_waits => Act::new_image(image),
        8 => Act::new_image(&image[..image.len().min(16)]),
        9 | 10 => Act::done(other as u32),
        11 => Act::period(random.next() as u16).length(random.pick(&[0, MADE_LEN - 1])),
        12 => Act::make(image, generate::other_heads(random)),
        _ => Act { number: Some(generate::other_head(random)), ..commit(made, other) },
    }
}

/// Of an image that no solve takes, an ask of nothing.
fn ask(random: &mut Random, image: &[u8], head: u32) -> Act {
    let Ok(problem) = open(image, Rules::default()) else {
        return Act::ask(head, [&[], &[]], 16);
    };
    let plan = if random.one_in(4) { Plan::any(random, &[13, 16]) } else { Plan::nothing() };
    let [state, target] = generate::inputs(random, &plan, &problem);
    Act::ask(head, [&state, &target], answer_len(problem.sizes.commands()))
}
