//! Heads that are not apart, and heads that are none.

use std::cell::RefCell;
use std::ops::Range;

use super::{Done, Economy, IMAGE_NUMBERS, at, behind, by_bytes, clear_answers, lazy, refused};
use crate::drive::Kind;
use crate::image::{Number, words};
use crate::made::{MADE_LEN, answer_room, head_part, put_waits, start_part, start_room, waits};

pub fn economies() -> Vec<Economy> {
    let apart = [with_one_answer(), by_the_other(), with_one_start(), behind_refused(), exchanged()];
    apart.into_iter().chain([taken_for_others(), in_other_orders(), with_other_numbers()]).flatten().collect()
}

/// A drive that does something more behind an accepted call of this head.
fn behind_head(name: &str, kind: Kind, head: usize, spoil: fn(&mut Done)) -> Economy {
    behind(name, kind, move |done| {
        if done.head == head {
            spoil(done);
        }
    })
}

/// Writes to the other head what the call has written to its own.
fn share(done: &mut Done, part: fn(usize) -> Range<usize>) {
    let (from, to) = (part(done.head), part(done.other).start);
    done.made.copy_within(from, to);
}

fn clear_other(done: &mut Done) {
    put_waits(done.made, done.other, 0);
}

fn clear_other_start(done: &mut Done) {
    done.made[start_room(done.other)].fill(0);
}

fn with_one_answer() -> Vec<Economy> {
    let asked = RefCell::new(0);
    let last = lazy("issues the answer that was asked last, of either head", move |done| {
        if done.is(Kind::Ask, 0) {
            *asked.borrow_mut() = done.head;
        }
        if done.is(Kind::Commit, 0) {
            let (from, length) = (answer_room(*asked.borrow()).start, done.out.len());
            done.out.copy_from_slice(&done.before[from..from + length]);
        }
        done.number
    });
    vec![
        last,
        behind("uses up the other head's answer too", Kind::Commit, clear_other),
        behind_head("uses up head 0's answer in a commit of head 1", Kind::Commit, 1, clear_other),
        behind_head("uses up head 1's answer in a commit of head 0", Kind::Commit, 0, clear_other),
        behind("uses up the other head's answer for its own", Kind::Commit, |done| {
            clear_other(done);
            done.put_waits(1);
        }),
        behind("lets an ask replace the other head's answer", Kind::Ask, clear_other),
        behind("lets an ask wait at both heads", Kind::Ask, |done| share(done, head_part)),
        behind("writes an answer to both heads' places", Kind::Ask, |done| share(done, answer_room)),
        behind("lets an ask tell of both heads", Kind::Ask, |done| {
            put_waits(done.made, done.other, 1);
        }),
    ]
}

/// The other head's answer where the call's own counts.
fn by_the_other() -> Vec<Economy> {
    vec![
        at("issues the other head's answer where none waits", Kind::Commit, &[18], |done| {
            done.as_head(done.other as u64)
        }),
        at("turns an ask down while the other head waits", Kind::Ask, &[0], |done| {
            if waits(done.before, done.other) { done.refuse(18) } else { 0 }
        }),
        at("commits where both heads wait alone", Kind::Commit, &[0], |done| {
            if waits(done.before, done.other) { 0 } else { done.refuse(18) }
        }),
        at("commits one head at a time", Kind::Commit, &[0], |done| {
            if waits(done.before, done.other) { done.refuse(18) } else { 0 }
        }),
    ]
}

/// The call from the other head's start, which stays where it is.
fn from_other_start(done: &mut Done) -> Number {
    let (head, sizes) = (done.head, done.sizes());
    let (from, to) = (start_part(done.other, &sizes), start_part(head, &sizes).start);
    let number = done.again(|made| made.copy_within(from, to));
    done.keep(start_room(head));
    number
}

fn with_one_start() -> Vec<Economy> {
    /// The start that the call has written goes to the other head instead.
    fn to_other(done: &mut Done) {
        share(done, start_room);
        done.keep(start_room(done.head));
    }
    vec![
        behind("has one start for both heads", Kind::Commit, |done| share(done, start_room)),
        at("solves from the other head's start", Kind::Ask, &[0], from_other_start),
        at("solves head 1's asks from head 0's start", Kind::Ask, &[0], |done| {
            if done.head == 1 { from_other_start(done) } else { 0 }
        }),
        at("solves head 0's asks from head 1's start", Kind::Ask, &[0], |done| {
            if done.head == 0 { from_other_start(done) } else { 0 }
        }),
        behind("moves the other head's start", Kind::Commit, to_other),
        behind_head("moves head 0's start in a commit of head 1", Kind::Commit, 1, to_other),
        behind_head("moves head 1's start in a commit of head 0", Kind::Commit, 0, to_other),
        behind("zeroes the other head's start in a commit", Kind::Commit, clear_other_start),
        behind("zeroes the other head's start in an ask", Kind::Ask, clear_other_start),
        behind_head("moves no start of head 1", Kind::Commit, 1, |done| done.keep(start_room(1))),
        behind("takes the other head's answer for the start", Kind::Commit, |done| {
            let n = done.sizes().commands();
            let commands = words(&done.before[answer_room(done.other)][..4 * n]);
            done.put_start(&commands);
        }),
    ]
}

/// What is written to the other head though the call is refused.
fn behind_refused() -> Vec<Economy> {
    vec![
        refused("clears the other head's answer with 13", Kind::Ask, &[13], clear_other),
        refused("clears the other head's answer with 16", Kind::Ask, &[16], clear_other),
        refused("clears the other head's answer with an ask's 15", Kind::Ask, &[15], clear_other),
        refused("clears the other head's answer with a commit's 15", Kind::Commit, &[15], clear_other),
        refused("uses up the other head's answer with 18", Kind::Commit, &[18], clear_other),
        refused("zeroes the other head's start with 13", Kind::Ask, &[13], clear_other_start),
        lazy("clears both answers with a head that is none", |done| {
            if done.is_of_no_head() && done.made.len() == MADE_LEN {
                clear_answers(done);
            }
            done.number
        }),
        lazy("touches a buffer with a head that is none", |done| {
            if done.is_of_no_head() {
                done.out.fill(0);
            }
            done.number
        }),
    ]
}

/// A drive that takes a head for another in these calls.
fn takes(name: &str, kinds: &'static [Kind], other: fn(u64) -> u64) -> Economy {
    lazy(name, move |done| if kinds.contains(&done.kind) { done.as_head(other(done.numbers[0])) } else { done.number })
}

fn exchanged() -> Vec<Economy> {
    const ALL: &[Kind] = &[Kind::Ask, Kind::Commit, Kind::Done];
    fn exchange(head: u64) -> u64 {
        if head < 2 { 1 - head } else { head }
    }
    fn first(head: u64) -> u64 {
        if head == 1 { 0 } else { head }
    }
    fn second(head: u64) -> u64 {
        if head == 0 { 1 } else { head }
    }
    vec![
        // Its answers are right.
        by_bytes(takes("has each head in the other's place", ALL, exchange)),
        takes("exchanges the heads in an ask", &[Kind::Ask], exchange),
        takes("exchanges the heads in a commit", &[Kind::Commit], exchange),
        takes("has one head", ALL, first),
        takes(
            "has the first two heads in the place of the last two",
            ALL,
            |head| if head < 4 { head % 2 } else { head },
        ),
        takes("asks as head 0 always", &[Kind::Ask], first),
        takes("commits as head 0 always", &[Kind::Commit], first),
        takes("asks as head 1 always", &[Kind::Ask], second),
        takes("commits as head 1 always", &[Kind::Commit], second),
        takes("is done as head 0 always", &[Kind::Done], |head| if head < 4 { 0 } else { head }),
        takes("exchanges the heads in a done", &[Kind::Done], exchange),
        takes("counts the heads from 1", ALL, |head| head.wrapping_sub(1)),
    ]
}

/// Heads that are none, taken for one that there is, in an ask or in a commit.
fn taken_for_others() -> Vec<Economy> {
    let others: [(&str, fn(u64) -> u64); 16] = [
        ("head 2 for head 0", |head| if head == 2 { 0 } else { head }),
        ("head 2 for head 1", |head| if head == 2 { 1 } else { head }),
        ("heads up to 3", |head| if head < 4 { head % 2 } else { head }),
        ("head 4 for head 0", |head| if head == 4 { 0 } else { head }),
        ("head 4 for head 3", |head| if head == 4 { 3 } else { head }),
        ("a head by its last bit", |head| head % 2),
        ("a head by its last two bits", |head| head % 4),
        ("a head by its last byte", |head| head % 256),
        ("a head by its last two bytes", |head| head % 65536),
        ("a head by its last 31 bits", |head| head % (1 << 31)),
        ("every head above 1 for head 1", |head| head.min(1)),
        ("every head above 3 for head 3", |head| head.min(3)),
        ("every head above 3 for head 0", |head| if head > 3 { 0 } else { head }),
        ("every head above 1 for head 0", |head| if head > 1 { 0 } else { head }),
        ("a head below zero, signed, for head 0", |head| if head >> 31 == 1 { 0 } else { head }),
        ("the head minus 1 for head 1", |head| if head == u64::from(u32::MAX) { 1 } else { head }),
    ];
    let calls: [(&str, &'static [Kind]); 3] =
        [("an ask", &[Kind::Ask]), ("a commit", &[Kind::Commit]), ("a done", &[Kind::Done])];
    let with = |(name, other)| calls.map(|(call, kinds)| takes(&format!("takes {name} in {call}"), kinds, other));
    others.into_iter().flat_map(with).collect()
}

/// A drive that tests the head behind these numbers.
fn later(name: &str, kind: Kind, numbers: &'static [Number], on: fn(&Done) -> bool) -> Economy {
    lazy(name, move |done| {
        if done.kind != kind || !done.is_of_no_head() || !on(done) {
            return done.number;
        }
        let out = done.out.to_vec();
        let number = done.as_head(0);
        done.out.copy_from_slice(&out);
        done.refuse(if numbers.contains(&number) { number } else { 3 })
    })
}

fn in_other_orders() -> Vec<Economy> {
    let another_length = |done: &Done| done.before.len() != MADE_LEN;
    let right_length = |done: &Done| done.before.len() == MADE_LEN;
    vec![
        later("tests an ask's head behind the drive's length", Kind::Ask, &[15], another_length),
        later("tests a commit's head behind the drive's length", Kind::Commit, &[15], another_length),
        later("tests a done's head behind the drive's length", Kind::Done, &[15], another_length),
        later("tests an ask's head behind the held image", Kind::Ask, IMAGE_NUMBERS, right_length),
        later("tests a commit's head behind the held image", Kind::Commit, IMAGE_NUMBERS, right_length),
        later("tests an ask's head behind 13", Kind::Ask, &[13], right_length),
        later("tests an ask's head behind 16", Kind::Ask, &[16], right_length),
        later("tests an ask's head behind 14", Kind::Ask, &[14], right_length),
        later("tests an ask's head behind its length", Kind::Ask, &[15], right_length),
        later("tests a commit's head behind its length", Kind::Commit, &[15], right_length),
        later("tests a commit's head behind 18", Kind::Commit, &[18], right_length),
    ]
}

/// What there is to say of a head that is none.
fn with_other_numbers() -> Vec<Economy> {
    let says =
        |name: &str, number: Number| lazy(name, move |done| if done.is_of_no_head() { number } else { done.number });
    vec![
        says("says 18 for a head that is none", 18),
        says("says 15 for a head that is none", 15),
        says("says 6 for a head that is none", 6),
        says("says nothing for a head that is none", 0),
    ]
}
