//! The false economies of requests 9 to 11: other starts and commands, an answer that waits too long or too short, asks
//! from elsewhere, and calls that test too much or too little; heads that are not apart, and new images; other numbers of
//! heads, and sweeps that are dealt, taken or moved otherwise.

mod calls;
mod commits;
mod counts;
mod dones;
mod heads;
mod images;
mod periods;
mod sweeps;
mod waiting;

use std::ops::Range;

use crate::cases::{Answers, Script, answers, run_script};
use crate::drive::{Drive, Kind, Reference};
use crate::harness::Harness;
use crate::image::{HEADER_WORDS, Number, Sizes, bytes, words};
use crate::made::{self, COUNT, HEADS, Held, IMAGE, IMAGE_ROOM, MADE_LEN, START, WAITS};
use crate::made::{commands_part, heads_made, put_waits, put_word, start_part, waits, word_at};
use crate::rules::Rules;

/// A call as the papers have it, for a drive that departs from it.
struct Done<'a> {
    kind: Kind,
    numbers: &'a [u64],
    /// Where the call has a head, it and another.
    head: usize,
    other: usize,
    inputs: &'a [&'a [u8]],
    /// The drive as it was.
    before: &'a [u8],
    number: Number,
    made: &'a mut [u8],
    out: &'a mut [u8],
}

impl Done<'_> {
    fn is(&self, kind: Kind, number: Number) -> bool {
        (self.kind, self.number) == (kind, number)
    }

    /// Those of the held image, of a drive and an image that are right.
    fn sizes(&self) -> Sizes {
        self.held().sizes().expect("the sizes are right")
    }

    fn held(&self) -> Held<'_> {
        Held::of(self.before).expect("the length is right")
    }

    fn limits(&self) -> Vec<(i64, i64)> {
        self.held().limits(&self.sizes())
    }

    /// Is it a call of a head that no drive has?
    fn is_of_no_head(&self) -> bool {
        self.kind.has_head() && self.head >= HEADS
    }

    /// A word of the drive as it was, and another in its place.
    fn was(&self, at: usize) -> u32 {
        word_at(self.before, at)
    }

    fn put(&mut self, at: usize, word: u32) {
        put_word(self.made, at, word);
    }

    /// Those that the drive was made with.
    fn heads(&self) -> usize {
        heads_made(self.before)
    }

    /// The call once more with another number of heads in the drive, which it then has not.
    fn with_count(&mut self, count: u32) -> Number {
        let number = self.again(|made| put_word(made, COUNT, count));
        self.keep(made::count_part());
        number
    }

    /// Did an answer of the call's head wait?
    fn waited(&self) -> bool {
        waits(self.before, self.head)
    }

    /// The same of any head, in a drive that only the calls wrote.
    fn some_waited(&self) -> bool {
        WAITS.iter().any(|&at| word_at(self.before, at) == 1)
    }

    fn put_waits(&mut self, word: u32) {
        put_waits(self.made, self.head, word);
    }

    /// The commands that waited.
    fn commands(&self) -> Vec<i64> {
        words(&self.before[commands_part(self.head, &self.sizes())])
    }

    /// The start that it had.
    fn start(&self) -> Vec<i64> {
        words(&self.before[start_part(self.head, &self.sizes())])
    }

    /// The bounds that waited.
    fn bounds(&self) -> Vec<i64> {
        let commands = commands_part(self.head, &self.sizes());
        words(&self.before[commands.end..commands.end + commands.len()])
    }

    /// Of a make or a new image: is the image the one that was held?
    fn has_same_image(&self) -> bool {
        self.made[..IMAGE_ROOM.end] == self.before[..IMAGE_ROOM.end]
    }

    /// Has it the sizes of that one?
    fn has_same_sizes(&self) -> bool {
        self.made[..IMAGE + 4 * HEADER_WORDS] == self.before[..IMAGE + 4 * HEADER_WORDS]
    }

    /// Leaves a part of the drive as it was.
    fn keep(&mut self, part: Range<usize>) {
        self.made[part.clone()].copy_from_slice(&self.before[part]);
    }

    /// Leaves a part of each head as it was.
    fn keep_of_each(&mut self, part: fn(usize) -> Range<usize>) {
        (0..HEADS).for_each(|head| self.keep(part(head)));
    }

    fn put_start(&mut self, start: &[i64]) {
        self.put_start_of(self.head, start);
    }

    fn put_start_of(&mut self, head: usize, start: &[i64]) {
        let at = START[head];
        self.made[at..at + 4 * start.len()].copy_from_slice(&bytes(start));
    }

    /// The call once more, on the drive as it was but for a change, and all of it written.
    fn again(&mut self, change: impl FnOnce(&mut [u8])) -> Number {
        let mut made = self.before.to_vec();
        change(&mut made);
        let number = made::call(self.kind, self.numbers, &mut made, self.inputs, self.out);
        self.made.copy_from_slice(&made);
        number
    }

    /// The call as one of another head, and all of it written.
    fn as_head(&mut self, head: u64) -> Number {
        let mut made = self.before.to_vec();
        let number = made::call(self.kind, &[head], &mut made, self.inputs, self.out);
        self.made.copy_from_slice(&made);
        number
    }

    /// Leaves the drive as it was, and says this number.
    fn refuse(&mut self, number: Number) -> Number {
        self.made.copy_from_slice(self.before);
        number
    }
}

type Spoil = Box<dyn Fn(&mut Done) -> Number>;

pub struct Economy {
    pub name: String,
    spoil: Spoil,
    /// Is it to be found by numbers and output buffers alone?
    by_answers: bool,
}

impl Drive for Economy {
    fn call(&self, kind: Kind, numbers: &[u64], inputs: &[&[u8]], out: &mut [u8]) -> Number {
        Reference { rules: Rules::default() }.call(kind, numbers, inputs, out)
    }

    fn call_made(&self, kind: Kind, numbers: &[u64], made: &mut [u8], inputs: &[&[u8]], out: &mut [u8]) -> Number {
        let before = made.to_vec();
        let number = made::call(kind, numbers, made, inputs, out);
        let head = if kind.has_head() { numbers[0] as usize } else { 0 };
        let other = usize::from(head == 0);
        (self.spoil)(&mut Done { kind, numbers, head, other, inputs, before: &before, number, made, out })
    }
}

impl Economy {
    /// The calls that differ in the scripts, or where it is to be found by its bytes the comparisons that fail.
    pub fn differences(&self, scripts: &[(Script, Answers)]) -> u64 {
        if self.by_answers {
            let differ = |(script, right): &(Script, Answers)| {
                let found = answers(self, script);
                found.iter().zip(right).filter(|(found, right)| found != right).count() as u64
            };
            return scripts.iter().map(differ).sum();
        }
        let mut scratch = Harness::quiet(self);
        scripts.iter().for_each(|(script, _)| run_script(&mut scratch, script));
        scratch.failed
    }
}

fn lazy(name: &str, spoil: impl Fn(&mut Done) -> Number + 'static) -> Economy {
    Economy { name: name.to_string(), spoil: Box::new(spoil), by_answers: true }
}

/// What its answers alone would not show.
fn by_bytes(economy: Economy) -> Economy {
    Economy { by_answers: false, ..economy }
}

/// A drive that does something else where a call, of a head if it has one, has such a number.
fn at(name: &str, kind: Kind, numbers: &'static [Number], spoil: fn(&mut Done) -> Number) -> Economy {
    lazy(name, move |done| {
        let is_such = done.kind == kind && numbers.contains(&done.number) && !done.is_of_no_head();
        if is_such { spoil(done) } else { done.number }
    })
}

/// A drive that writes to itself though it refuses the call.
fn refused(name: &str, kind: Kind, numbers: &'static [Number], spoil: fn(&mut Done)) -> Economy {
    lazy(name, move |done| {
        if done.kind == kind && numbers.contains(&done.number) && done.made.len() == MADE_LEN {
            spoil(done);
        }
        done.number
    })
}

/// Lets no answer wait, of either head.
fn clear_answers(done: &mut Done) {
    (0..HEADS).for_each(|head| put_waits(done.made, head, 0));
}

/// The numbers of an image that is refused.
const IMAGE_NUMBERS: &[Number] = &[6, 3, 5, 7, 17, 8, 9, 10, 11, 12];

/// Takes a drive of one head, as it was before request 10, or of two, as before request 11.
fn former_length(done: &mut Done) -> Number {
    if matches!(done.before.len(), 2484 | 2688) { 0 } else { 15 }
}

/// A drive that does something more behind an accepted call.
fn behind(name: &str, kind: Kind, spoil: impl Fn(&mut Done) + 'static) -> Economy {
    lazy(name, move |done| {
        if done.is(kind, 0) {
            spoil(done);
        }
        done.number
    })
}

/// The same at one head alone.
fn at_head(head: u64, economy: Economy) -> Economy {
    let Economy { name, spoil, by_answers } = economy;
    let at_head: Spoil = Box::new(move |done| {
        let is_such = done.kind.has_head() && done.numbers == [head];
        if is_such { spoil(done) } else { done.number }
    });
    Economy { name: format!("{name}, at head {head} alone"), spoil: at_head, by_answers }
}

pub fn economies() -> Vec<Economy> {
    let of_request_9 = [commits::economies(), waiting::economies(), calls::economies()];
    let of_request_10 = [heads::economies(), images::economies()];
    let of_request_11 = [counts::economies(), periods::economies(), sweeps::economies(), dones::economies()];
    let at_heads =
        [1, 3].into_iter().flat_map(|head| commits::economies().into_iter().map(move |it| at_head(head, it)));
    let all = of_request_9.into_iter().chain(of_request_10).chain(of_request_11).flatten();
    all.chain(at_heads).collect()
}
