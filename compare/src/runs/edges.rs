//! What a random run comes by with its calls.

use super::{Run, apart, sweeps};
use crate::drive::{Act, Kind};
use crate::edges::met;
use crate::image::{Number, open, words};
use crate::made::{COUNT, HEADS, Held, IMAGE_ROOM, MADE_LEN, WAITS, commands_part, heads_made, waits, word_at};
use crate::plain::{Event, Head, Plain, last_asked, moved, next_start};
use crate::rules::Rules;

/// What a run has to come by.
pub fn edges() -> impl Iterator<Item = &'static str> {
    let images = MAKES.into_iter().chain(NEW_IMAGES).chain(NO_NEW_IMAGES).chain(REFUSED_IMAGES);
    let heads = ASKS.into_iter().chain(COMMITS).chain(BESIDE).chain(NO_COMMITS);
    let refused = LENGTHS.into_iter().chain(NO_HEADS.into_iter().flat_map(|(_, edges)| edges)).chain(NO_MAKES);
    let damaged = DAMAGED_ASKS.into_iter().chain([DAMAGED_START]).chain(DAMAGED_COMMITS).chain(DAMAGED_IMAGES);
    let apart = apart::EDGES.into_iter().chain(apart::OTHERS);
    images.chain(heads).chain(refused).chain(damaged).chain(DAMAGED_19).chain(apart).chain(sweeps::edges())
}

/// The drive is still as it was before the call.
pub fn of_call(run: &Run, act: &Act, number: Number) -> Vec<&'static str> {
    match (act.kind, act.head()) {
        (_, Some(head)) if is_none(run, act, head) => of_no_head(run, act, head),
        (Kind::Make, _) if number == 3 && !matches!(act.number, Some(1..=4)) => of_no_make(act),
        _ if act.made_len != MADE_LEN => of_length(run, act.kind, number),
        (kind, Some(head)) => [of_head(run, kind, head as usize, number), sweeps::of_call(run, act, number)].concat(),
        (_, None) => [of_image(run, act, number), sweeps::of_call(run, act, number)].concat(),
    }
}

/// Is it a head that no drive has, or that this one was not made with, as far as the calls alone tell?
fn is_none(run: &Run, act: &Act, head: u32) -> bool {
    let heads = run.plain.as_ref().filter(|_| act.made_len == MADE_LEN).map_or(HEADS, |plain| plain.heads.len());
    head as usize >= heads
}

fn of_head(run: &Run, kind: Kind, head: usize, number: Number) -> Vec<&'static str> {
    match (&run.plain, kind, number) {
        (Some(plain), Kind::Ask, 0) => of_ask(run, plain, head),
        (Some(plain), Kind::Commit, 0) => {
            [of_commit(plain, head, &run.log[head]), of_beside(run, plain, head)].concat()
        }
        (Some(plain), Kind::Commit, 18) => of_refused_commit(run, plain, head),
        (None, Kind::Ask, 0) => of_damaged_ask(&run.made),
        (None, Kind::Ask, 14) => vec![DAMAGED_START],
        (None, Kind::Commit, 0) => of_damaged_commit(&run.made, head),
        _ => Vec::new(),
    }
}

fn of_image(run: &Run, act: &Act, number: Number) -> Vec<&'static str> {
    let Some(image) = act.inputs.first() else {
        return Vec::new();
    };
    match (&run.plain, act.kind, number) {
        (Some(plain), Kind::Make, 0) => of_make(plain, image),
        (Some(plain), Kind::NewImage, 0) => of_new_image(run, plain, image),
        (Some(plain), Kind::NewImage, 19) => of_no_new_image(plain, image),
        (Some(plain), Kind::NewImage, _) => met([REFUSED_IMAGES[0]], [plain.waits()]),
        (None, Kind::NewImage, 0) => of_damaged_image(&run.made),
        (None, Kind::NewImage, 19) => of_damaged_19(&run.made),
        _ => Vec::new(),
    }
}

const MAKES: [&str; 4] = [
    "a make where an answer waits",
    "a make where a start is not zeros",
    "a make of a shorter image",
    "a make of the same image",
];
const NEW_IMAGES: [&str; 9] = [
    "a new image where the first of several heads alone has a start",
    "a new image where the last of several heads alone has a start",
    "a new image where all of several heads have a start",
    "a new image that is shorter",
    "a new image that is longer",
    "a new image of the same sizes",
    "a new image that is the same",
    "a new image behind one that is 19",
    "a new image behind a new image",
];
const NO_NEW_IMAGES: [&str; 6] = [
    "19 by head 0 alone",
    "19 by head 1 alone",
    "19 by head 2 alone",
    "19 by head 3 alone",
    "19 by all of several heads",
    "19 for the image that is held",
];
const REFUSED_IMAGES: [&str; 2] =
    ["a new image's own number where an answer waits", "15 of a new image where an answer waits"];
const ASKS: [&str; 4] = [
    "an ask where the start is not zeros",
    "an ask where another start is another, and not zeros",
    "an ask where another head waits",
    "an ask behind a new image",
];
const COMMITS: [&str; 12] = [
    "the third commit of a head",
    "a commit behind two asks of other commands",
    "a commit behind an ask and one that is 13",
    "a commit behind an ask and one that is 16",
    "a commit behind an ask and one that is 15",
    "a commit behind one that is 15",
    "a commit behind a refused make",
    "a commit behind an ask of another drive",
    "a commit with N 1",
    "a commit with a last step of its own",
    "a commit whose moved commands a low limit holds",
    "a commit whose moved commands a high limit holds",
];
const BESIDE: [&str; 9] = [
    "a commit behind an ask of another head",
    "a commit behind a commit of another head",
    "a commit behind a refused ask of another head",
    "a commit behind a refused commit of another head",
    "a commit behind a call of no head",
    "a commit behind a new image that is 19",
    "a commit behind a new image with a number of its own",
    "a commit where another head waits with other commands",
    "the first commit of a head behind a new image",
];
const NO_COMMITS: [&str; 5] = [
    "18 before any ask",
    "18 behind refused asks alone",
    "18 behind a commit",
    "18 where another head waits",
    "18 behind a new image",
];
const LENGTHS: [&str; 6] = [
    "a make on another length",
    "an ask on a drive of another length",
    "a commit on a drive of another length",
    "a new image on a drive of another length",
    "a period on a drive of another length",
    "a done on a drive of another length",
];
const NO_HEADS: [(Kind, [&str; 7]); 3] = [
    (
        Kind::Ask,
        [
            "an ask of head 4",
            "an ask of a head that 8 bits make 0 to 3",
            "an ask of a head that 16 bits make 0 to 3",
            "an ask of a head beyond 31 bits",
            "an ask of a head that the drive was not made with",
            "an ask of no head on a drive of another length",
            "an ask of no head where an answer waits",
        ],
    ),
    (
        Kind::Commit,
        [
            "a commit of head 4",
            "a commit of a head that 8 bits make 0 to 3",
            "a commit of a head that 16 bits make 0 to 3",
            "a commit of a head beyond 31 bits",
            "a commit of a head that the drive was not made with",
            "a commit of no head on a drive of another length",
            "a commit of no head where an answer waits",
        ],
    ),
    (
        Kind::Done,
        [
            "a done of head 4",
            "a done of a head that 8 bits make 0 to 3",
            "a done of a head that 16 bits make 0 to 3",
            "a done of a head beyond 31 bits",
            "a done of a head that the drive was not made with",
            "a done of no head on a drive of another length",
            "a done of no head where an answer waits",
        ],
    ),
];
const NO_MAKES: [&str; 7] = [
    "a make of no head",
    "a make of 5 heads",
    "a make of heads that 8 bits make 1 to 4",
    "a make of heads that 16 bits make 1 to 4",
    "a make of heads beyond 31 bits",
    "a make of too many heads or none on another length",
    "a make of too many heads or none with a faulty image",
];
const DAMAGED_ASKS: [&str; 2] =
    ["damaged, an accepted ask", "damaged, an ask with a length of the image beyond its room"];
const DAMAGED_START: &str = "damaged, an ask that is 14";
const DAMAGED_COMMITS: [&str; 6] = [
    "damaged, an accepted commit",
    "damaged, a commit by another word than 1",
    "damaged, a commit with a length of the image beyond its room",
    "damaged, a commit with an image that no solve takes",
    "damaged, a commit held to a low above its high",
    "damaged, a commit held to a high below its low",
];
const DAMAGED_IMAGES: [&str; 4] = [
    "damaged, an accepted new image",
    "damaged, a new image for one that no solve takes",
    "damaged, a new image where a head waits that was not made",
    "damaged, a new image of a drive without heads",
];
const DAMAGED_19: [&str; 2] = ["damaged, 19 by another word than 1", "damaged, 19 with more heads than there can be"];

fn is_zeros(start: &[i64]) -> bool {
    start.iter().all(|&word| word == 0)
}

/// For each head, is its start another than zeros?
fn started(plain: &Plain) -> Vec<bool> {
    plain.heads.iter().map(|head| !is_zeros(&head.start)).collect()
}

/// Of several heads the first alone, the last alone, or all.
fn of_several(heads: &[bool]) -> [bool; 3] {
    let alone = |place: usize| (0..heads.len()).all(|head| heads[head] == (head == place));
    [alone(0), alone(heads.len() - 1), !heads.contains(&false)].map(|holds| holds && heads.len() > 1)
}

fn of_make(old: &Plain, image: &[u8]) -> Vec<&'static str> {
    let shorter = image.len() < old.image.len();
    met(MAKES, [old.waits(), started(old).contains(&true), shorter, image == old.image])
}

fn of_new_image(run: &Run, old: &Plain, image: &[u8]) -> Vec<&'static str> {
    let ([first, last, all], same) = (of_several(&started(old)), image == old.image);
    let holds = [
        first,
        last,
        all,
        image.len() < old.image.len(),
        image.len() > old.image.len(),
        !same && image[..32] == old.image[..32],
        same,
        run.log[0].contains(&Event::Refused(Kind::NewImage, 19)),
        run.is_renewed,
    ];
    met(NEW_IMAGES, holds)
}

fn of_no_new_image(old: &Plain, image: &[u8]) -> Vec<&'static str> {
    let waiting: Vec<bool> = old.heads.iter().map(|head| head.waiting.is_some()).collect();
    let alone = |place: usize| (0..waiting.len()).all(|head| waiting[head] == (head == place));
    let [.., all] = of_several(&waiting);
    met(NO_NEW_IMAGES, [alone(0), alone(1), alone(2), alone(3), all, image == old.image])
}

/// The heads beside this one.
fn others(plain: &Plain, head: usize) -> impl Iterator<Item = &Head> {
    plain.heads.iter().enumerate().filter(move |(other, _)| *other != head).map(|(_, other)| other)
}

fn of_ask(run: &Run, plain: &Plain, head: usize) -> Vec<&'static str> {
    let own = &plain.heads[head];
    let is_other = |other: &Head| !is_zeros(&other.start) && own.start != other.start;
    let holds = [
        !is_zeros(&own.start),
        others(plain, head).any(is_other),
        others(plain, head).any(|other| other.waiting.is_some()),
        run.is_renewed,
    ];
    met(ASKS, holds)
}

/// What was called since the last commit of a head, up to the ask whose answer waits, and since that ask.
fn since(log: &[Event]) -> (&[Event], &[Event]) {
    let last_commit = log.iter().rposition(|event| *event == Event::Commit);
    let since = last_commit.map_or(log, |last| &log[last + 1..]);
    let ask = since.iter().rposition(|event| matches!(event, Event::Ask(_))).expect("an answer waits");
    since.split_at(ask + 1)
}

fn of_commit(plain: &Plain, head: usize, log: &[Event]) -> Vec<&'static str> {
    let sizes = &plain.problem.sizes;
    let commits = log.iter().filter(|event| **event == Event::Commit).count();
    let (asks, behind) = since(log);
    let commands = waiting(&plain.heads[head]).expect("an answer waits");
    let refused = |kind, number| behind.contains(&Event::Refused(kind, number));
    let (moved, start) = (moved(sizes, commands), next_start(&plain.problem, commands));
    let held = |by: fn(&i64, &i64) -> bool| moved.iter().zip(&start).any(|(moved, start)| by(moved, start));
    let (before, last) = commands.split_at(commands.len() - sizes.motors);
    let holds = [
        commits >= 2,
        last_asked(&asks[..asks.len() - 1]).is_some_and(|earlier| earlier != commands),
        refused(Kind::Ask, 13),
        refused(Kind::Ask, 16),
        refused(Kind::Ask, 15),
        refused(Kind::Commit, 15),
        behind.iter().any(|event| matches!(event, Event::Refused(Kind::Make, _))),
        behind.contains(&Event::Elsewhere),
        sizes.steps == 1,
        sizes.steps > 1 && !is_zeros(last) && !before.ends_with(last),
        held(|moved, start| moved < start),
        held(|moved, start| moved > start),
    ];
    met(COMMITS, holds)
}

fn waiting(head: &Head) -> Option<&[i64]> {
    head.waiting.as_ref().map(|answer| answer.commands.as_slice())
}

/// What happened beside the head while its answer waited.
fn of_beside(run: &Run, plain: &Plain, head: usize) -> Vec<&'static str> {
    let (log, own) = (&run.log[head], waiting(&plain.heads[head]));
    let (_, behind) = since(log);
    let some = |test: fn(&Event) -> bool| behind.iter().any(test);
    let holds = [
        behind.contains(&Event::OtherHead(Kind::Ask, 0)),
        behind.contains(&Event::OtherHead(Kind::Commit, 0)),
        some(|event| matches!(event, Event::OtherHead(Kind::Ask, 1..))),
        some(|event| matches!(event, Event::OtherHead(Kind::Commit, 1..))),
        some(|event| matches!(event, Event::Refused(Kind::Ask | Kind::Commit | Kind::Done, 3))),
        behind.contains(&Event::Refused(Kind::NewImage, 19)),
        some(|event| matches!(event, Event::Refused(Kind::NewImage, ..=12 | 17))),
        others(plain, head).filter_map(waiting).any(|other| own != Some(other)),
        run.is_renewed && !log.contains(&Event::Commit),
    ];
    met(BESIDE, holds)
}

fn of_refused_commit(run: &Run, plain: &Plain, head: usize) -> Vec<&'static str> {
    let log = &run.log[head];
    let asked = last_asked(log).is_some();
    let refused = log.iter().any(|event| matches!(event, Event::Refused(Kind::Ask, 13..=16 | 20)));
    let other_waits = others(plain, head).any(|other| other.waiting.is_some());
    met(NO_COMMITS, [!asked && !refused, !asked && refused, asked, other_waits, run.is_renewed])
}

/// Of a drive of another length, and of a head that there is.
fn of_length(run: &Run, kind: Kind, number: Number) -> Vec<&'static str> {
    let kinds = [Kind::Make, Kind::Ask, Kind::Commit, Kind::NewImage, Kind::Period, Kind::Done];
    let waits = run.plain.as_ref().is_some_and(Plain::waits);
    let lengths = met(LENGTHS, kinds.map(|other| other == kind));
    let refused = met([REFUSED_IMAGES[1]], [(kind, number) == (Kind::NewImage, 15) && waits]);
    [lengths, refused].concat()
}

fn of_no_head(run: &Run, act: &Act, head: u32) -> Vec<&'static str> {
    let (_, edges) = NO_HEADS.into_iter().find(|(kind, _)| *kind == act.kind).expect("the call has a head");
    let (other_length, waits) = (act.made_len != MADE_LEN, run.plain.as_ref().is_some_and(Plain::waits));
    let cut = |bits: u32| head > 3 && head & bits < 4;
    met(edges, [head == 4, cut(0xFF), cut(0xFFFF), head >> 31 == 1, head < 4, other_length, waits])
}

/// A make that is 3 by its number of heads.
fn of_no_make(act: &Act) -> Vec<&'static str> {
    let heads = act.number.expect("a make has heads");
    let cut = |bits: u32| matches!(heads & bits, 1..=4);
    let faulty = open(&act.inputs[0], Rules::default()).is_err();
    let other_length = act.made_len != MADE_LEN;
    met(NO_MAKES, [heads == 0, heads == 5, cut(0xFF), cut(0xFFFF), heads >> 31 == 1, other_length, faulty])
}

/// Is the image as long as its room because its length word says more?
fn is_beyond_room(made: &[u8]) -> bool {
    word_at(made, 0) as usize > IMAGE_ROOM.len()
}

/// For an accepted ask of a drive that something else wrote to.
fn of_damaged_ask(made: &[u8]) -> Vec<&'static str> {
    met(DAMAGED_ASKS, [true, is_beyond_room(made)])
}

/// The same for a commit.
fn of_damaged_commit(made: &[u8], head: usize) -> Vec<&'static str> {
    let held = Held::of(made).expect("the commit is accepted");
    let sizes = held.sizes().expect("the commit is accepted");
    let moved = moved(&sizes, &words(&made[commands_part(head, &sizes)]));
    let mut crossing: Vec<(i64, (i64, i64))> = moved.into_iter().zip(held.limits(&sizes)).collect();
    crossing.retain(|(_, (low, high))| low > high);
    let holds = [
        true,
        word_at(made, WAITS[head]) != 1,
        is_beyond_room(made),
        open(held.image, Rules::default()).is_err(),
        crossing.iter().any(|(command, (low, _))| command < low),
        crossing.iter().any(|(command, (low, _))| command >= low),
    ];
    met(DAMAGED_COMMITS, holds)
}

/// The same for a new image.
fn of_damaged_image(made: &[u8]) -> Vec<&'static str> {
    let held = Held::of(made).expect("the new image is accepted");
    let (heads, unsolved) = (heads_made(made), open(held.image, Rules::default()).is_err());
    let beyond = (heads..HEADS).any(|head| waits(made, head));
    met(DAMAGED_IMAGES, [true, unsolved, heads > 0 && beyond, heads == 0])
}

/// Is a new image 19 by other words than 1 alone, and with a number of heads that counts as the most?
fn of_damaged_19(made: &[u8]) -> Vec<&'static str> {
    let mut waiting = (0..heads_made(made)).filter(|&head| waits(made, head));
    let other_words = waiting.all(|head| word_at(made, WAITS[head]) != 1);
    met(DAMAGED_19, [other_words, word_at(made, COUNT) as usize > HEADS])
}
