//! Requests 9 to 11: a made drive, which is a buffer of the caller's, and the calls make, ask, commit, new image, period
//! and done on its bytes.

use std::ops::Range;

use crate::drive::{Kind, Outcome};
use crate::image::{HEADER_WORDS, HIGH, LOW, Number, Sizes, bytes, open, read_sizes, words};
use crate::rules::Rules;
use crate::solve::{answer_len, solve_call};

/// Where its parts begin: behind the length of the image the image, then for each head a word that is 0 where no answer
/// waits, the start and the answer, and behind these the number of heads, the common sweeps, and for each head what it
/// has left of its own. Each part has room for that of the largest image.
pub const IMAGE: usize = 4;
pub const WAITS: [usize; HEADS] = [2280, 2484, 2688, 2892];
pub const START: [usize; HEADS] = [2284, 2488, 2692, 2896];
pub const ANSWER: [usize; HEADS] = [2348, 2552, 2756, 2960];
pub const COUNT: usize = 3096;
pub const COMMON: usize = 3100;
pub const OWN: [usize; HEADS] = [3104, 3108, 3112, 3116];
pub const MADE_LEN: usize = 3120;

/// The most that a drive can be made with.
pub const HEADS: usize = 4;
/// The room of the image.
pub const IMAGE_ROOM: Range<usize> = IMAGE..WAITS[0];

/// Makes the call on its buffers, all of which it leaves with another number than 0.
pub fn call(kind: Kind, numbers: &[u64], made: &mut [u8], inputs: &[&[u8]], out: &mut [u8]) -> Number {
    let outcome = outcome(kind, numbers, made, inputs, out.len());
    made.copy_from_slice(&outcome.made);
    if let Some(written) = outcome.written {
        out.copy_from_slice(&written);
    }
    outcome.number
}

/// What the papers say of a call on a made drive.
pub fn outcome(kind: Kind, numbers: &[u64], made: &[u8], inputs: &[&[u8]], out_len: usize) -> Outcome {
    let result = match (kind, numbers, inputs) {
        (Kind::Make, &[heads], &[image]) => make(image, heads, made.len()).map(alone),
        (Kind::NewImage, [], &[image]) => new_image(made, image).map(alone),
        (Kind::Period, &[sweeps], []) => period(made, sweeps).map(alone),
        (Kind::Done, &[head], []) => done(made, head).map(alone),
        (Kind::Ask, &[head], &[state, target]) => ask(made, head, [state, target], out_len).map(both),
        (Kind::Commit, &[head], []) => commit(made, head, out_len).map(both),
        _ => panic!("{kind:?} with other arguments than its own"),
    };
    match result {
        Ok((made, written)) => Outcome { number: 0, written, made },
        Err(number) => Outcome { number, written: None, made: made.to_vec() },
    }
}

fn alone(made: Vec<u8>) -> (Vec<u8>, Option<Vec<u8>>) {
    (made, None)
}

fn both((made, written): (Vec<u8>, Vec<u8>)) -> (Vec<u8>, Option<Vec<u8>>) {
    (made, Some(written))
}

/// 3 for the number of heads, the image's number, then 15 for the drive's length. Every byte is written.
fn make(image: &[u8], heads: u64, made_len: usize) -> Result<Vec<u8>, Number> {
    if !(1..=HEADS as u64).contains(&heads) {
        return Err(3);
    }
    let mut made = with_image(image, made_len)?;
    made.resize(MADE_LEN, 0);
    put_word(&mut made, COUNT, heads as u32);
    Ok(made)
}

/// What a make and a new image write alike: all that is before the number of heads.
fn with_image(image: &[u8], made_len: usize) -> Result<Vec<u8>, Number> {
    open(image, Rules::default())?;
    if made_len != MADE_LEN {
        return Err(15);
    }
    let mut made = vec![0; COUNT];
    made[..IMAGE].copy_from_slice(&bytes(&[image.len() as i64]));
    made[IMAGE..IMAGE + image.len()].copy_from_slice(image);
    Ok(made)
}

/// The image's number, 15, and then 19. Of the drive the waiting words of the heads made alone count.
fn new_image(made: &[u8], image: &[u8]) -> Result<Vec<u8>, Number> {
    let new = with_image(image, made.len())?;
    let waiting = (0..heads_made(made)).any(|head| waits(made, head));
    if waiting { Err(19) } else { Ok([&new, &made[COUNT..]].concat()) }
}

/// 15, and 3 where something else wrote the number of heads. What was left of the earlier period is gone.
fn period(made: &[u8], sweeps: u64) -> Result<Vec<u8>, Number> {
    if made.len() != MADE_LEN {
        return Err(15);
    }
    let (count, sweeps) = (word_at(made, COUNT), sweeps as u32);
    if !(1..=HEADS as u32).contains(&count) {
        return Err(3);
    }
    let mut made = made.to_vec();
    put_word(&mut made, COMMON, sweeps % count);
    (0..count as usize).for_each(|head| put_word(&mut made, OWN[head], sweeps / count));
    Ok(made)
}

/// The drive with the head's unused share in the common part. Where something else wrote the two, their sum may be cut.
fn done(made: &[u8], head: u64) -> Result<Vec<u8>, Number> {
    let head = read_head(made, head)?;
    let (own, common) = (word_at(made, OWN[head]), word_at(made, COMMON));
    let mut made = made.to_vec();
    put_word(&mut made, COMMON, common.wrapping_add(own));
    put_word(&mut made, OWN[head], 0);
    Ok(made)
}

/// The drive with this answer waiting at the head and without its sweeps, and the answer. 20 is the last number.
fn ask(made: &[u8], head: u64, [state, target]: [&[u8]; 2], out_len: usize) -> Result<(Vec<u8>, Vec<u8>), Number> {
    let head = read_head(made, head)?;
    let held = Held::of(made)?;
    // An image without sizes is refused before its start is looked at.
    let start = held.sizes().map_or(&[][..], |sizes| &made[start_part(head, &sizes)]);
    let answer = solve_call([held.image, state, target, start], out_len, Rules::default())?;
    let [own, common] = left_after(made, head, held.sizes()?.iterations as u64).ok_or(20u32)?;
    let mut made = made.to_vec();
    made[ANSWER[head]..ANSWER[head] + answer.len()].copy_from_slice(&answer);
    put_waits(&mut made, head, 1);
    put_word(&mut made, OWN[head], own);
    put_word(&mut made, COMMON, common);
    Ok((made, answer))
}

/// What so many sweeps of a head leave of its own and of the common ones, unless these fall short.
fn left_after(made: &[u8], head: usize, sweeps: u64) -> Option<[u32; 2]> {
    let [own, common] = [OWN[head], COMMON].map(|at| u64::from(word_at(made, at)));
    let of_own = own.min(sweeps);
    let common = common.checked_sub(sweeps - of_own)?;
    Some([(own - of_own) as u32, common as u32])
}

/// The drive with the head's next start, and the first step of its answer that waited.
fn commit(made: &[u8], head: u64, out_len: usize) -> Result<(Vec<u8>, Vec<u8>), Number> {
    let head = read_head(made, head)?;
    let held = Held::of(made)?;
    let sizes = held.sizes()?;
    if out_len != 4 * sizes.motors {
        return Err(15);
    }
    if !waits(made, head) {
        return Err(18);
    }
    let commands = &made[commands_part(head, &sizes)];
    let (first, rest) = commands.split_at(4 * sizes.motors);
    let last = &commands[commands.len() - first.len()..];
    let moved = words(&[rest, last].concat());
    let start: Vec<i64> = moved.into_iter().zip(held.limits(&sizes)).map(|(word, limits)| hold(word, limits)).collect();
    let mut new = made.to_vec();
    new[start_part(head, &sizes)].copy_from_slice(&bytes(&start));
    put_waits(&mut new, head, 0);
    Ok((new, first.to_vec()))
}

/// A head that no drive has is 3, before all else; behind the drive's length, one that it was not made with.
fn read_head(made: &[u8], head: u64) -> Result<usize, Number> {
    if head >= HEADS as u64 {
        return Err(3);
    }
    if made.len() != MADE_LEN {
        return Err(15);
    }
    if head < u64::from(word_at(made, COUNT)) { Ok(head as usize) } else { Err(3) }
}

/// Those that a new image heeds. A number above the most, which something else wrote, counts as the most.
pub fn heads_made(made: &[u8]) -> usize {
    (word_at(made, COUNT) as usize).min(HEADS)
}

/// The low is tested first. In a drive that only the calls wrote no low is above its high, and the order is all one.
pub fn hold(word: i64, (low, high): (i64, i64)) -> i64 {
    match word {
        _ if word < low => low,
        _ if word > high => high,
        _ => word,
    }
}

/// The image that a drive holds, as it may be where something else than the calls wrote to it.
pub struct Held<'a> {
    pub image: &'a [u8],
}

impl Held<'_> {
    /// Unless 15 for the drive's length. An image's length beyond its room counts as the room.
    pub fn of(made: &[u8]) -> Result<Held<'_>, Number> {
        if made.len() != MADE_LEN {
            return Err(15);
        }
        let length = word_at(made, 0) as usize;
        Ok(Held { image: &made[IMAGE..(IMAGE + length).min(IMAGE_ROOM.end)] })
    }

    pub fn sizes(&self) -> Result<Sizes, Number> {
        read_sizes(self.image)
    }

    /// Each command's low and high, of an image whose length is right.
    pub fn limits(&self, sizes: &Sizes) -> Vec<(i64, i64)> {
        let body = words(&self.image[4 * HEADER_WORDS..]);
        let [(lows, n), (highs, _)] = [LOW, HIGH].map(|kind| sizes.extent(kind));
        (0..n).map(|k| (body[lows + k], body[highs + k])).collect()
    }
}

pub fn word_at(made: &[u8], at: usize) -> u32 {
    u32::from_be_bytes(made[at..at + 4].try_into().unwrap())
}

pub fn put_word(made: &mut [u8], at: usize, word: u32) {
    made[at..at + 4].copy_from_slice(&word.to_be_bytes());
}

pub fn waits(made: &[u8], head: usize) -> bool {
    word_at(made, WAITS[head]) != 0
}

pub fn put_waits(made: &mut [u8], head: usize, word: u32) {
    put_word(made, WAITS[head], word);
}

pub fn waits_part(head: usize) -> Range<usize> {
    WAITS[head]..START[head]
}

pub fn start_part(head: usize, sizes: &Sizes) -> Range<usize> {
    START[head]..START[head] + 4 * sizes.commands()
}

pub fn answer_part(head: usize, sizes: &Sizes) -> Range<usize> {
    ANSWER[head]..ANSWER[head] + answer_len(sizes.commands())
}

pub fn commands_part(head: usize, sizes: &Sizes) -> Range<usize> {
    ANSWER[head]..ANSWER[head] + 4 * sizes.commands()
}

/// The rooms of the start and of the answer.
pub fn start_room(head: usize) -> Range<usize> {
    START[head]..ANSWER[head]
}

pub fn answer_room(head: usize) -> Range<usize> {
    ANSWER[head]..head_part(head).end
}

/// All that a head has of its own, but for its sweeps.
pub fn head_part(head: usize) -> Range<usize> {
    WAITS[head]..WAITS.get(head + 1).copied().unwrap_or(COUNT)
}

pub fn count_part() -> Range<usize> {
    COUNT..COMMON
}

pub fn common_part() -> Range<usize> {
    COMMON..OWN[0]
}

pub fn own_part(head: usize) -> Range<usize> {
    OWN[head]..OWN[head] + 4
}
