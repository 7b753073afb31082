//! Answers that wait where they are used up, or do not where they are not, and numbers in another order.

use super::{Done, Economy, IMAGE_NUMBERS, at, behind, clear_answers, former_length, refused};
use crate::drive::Kind;
use crate::image::Number;
use crate::made::{self, Held, IMAGE, MADE_LEN, WAITS, answer_room, hold, put_waits, waits_part, word_at};
use crate::plain::moved;
use crate::solve::answer_len;

pub fn economies() -> Vec<Economy> {
    let waiting = [behind_accepted(), behind_refused(), with_none(), by_other_words()];
    waiting.into_iter().chain([in_other_orders(), with_other_lengths()]).flatten().collect()
}

fn behind_accepted() -> Vec<Economy> {
    vec![
        behind("keeps the waiting answer in a commit", Kind::Commit, |done| done.put_waits(1)),
        behind("leaves the earlier answer waiting", Kind::Ask, |done| {
            if done.waited() {
                done.keep(answer_room(done.head));
            }
        }),
        behind("lets no answer wait", Kind::Ask, |done| done.put_waits(0)),
        behind("lets an answer wait only where none does", Kind::Ask, |done| {
            done.put_waits(u32::from(!done.waited()));
        }),
        at(
            "turns an ask down while an answer waits",
            Kind::Ask,
            &[0],
            |done| if done.waited() { done.refuse(18) } else { 0 },
        ),
    ]
}

fn behind_refused() -> Vec<Economy> {
    fn clear(done: &mut Done) {
        done.put_waits(0);
    }
    vec![
        refused("clears the waiting answer with 13", Kind::Ask, &[13], clear),
        refused("clears the waiting answer with 16", Kind::Ask, &[16], clear),
        refused("clears the waiting answer with an ask's 15", Kind::Ask, &[15], clear),
        refused("clears the waiting answer with a commit's 15", Kind::Commit, &[15], clear),
        refused("clears the waiting answers with a make's 12", Kind::Make, &[12], clear_answers),
        refused("clears the drive with a make's numbers", Kind::Make, IMAGE_NUMBERS, |done| done.made.fill(0)),
        refused("lets a refused ask wait", Kind::Ask, &[13, 16, 15], |done| done.put_waits(1)),
        refused("keeps an answer that it can't write", Kind::Ask, &[15], |done| {
            let mut out = vec![0; answer_len(done.sizes().commands())];
            made::call(Kind::Ask, done.numbers, done.made, done.inputs, &mut out);
        }),
        refused("moves the start with a commit's 15", Kind::Commit, &[15], |done| {
            let moved = moved(&done.sizes(), &done.commands());
            done.put_start(&moved);
        }),
    ]
}

/// What there is to say where no answer waits.
fn with_none() -> Vec<Economy> {
    vec![
        at("issues zeros where no answer waits", Kind::Commit, &[18], |done| {
            done.out.fill(0);
            0
        }),
        at("issues the last answer again", Kind::Commit, &[18], |done| {
            let head = done.head;
            done.again(|made| put_waits(made, head, 1))
        }),
        at("says nothing where no answer waits", Kind::Commit, &[18], |_| 0),
        at("says 15 for 18", Kind::Commit, &[18], |_| 15),
        at("says 14 for 18", Kind::Commit, &[18], |_| 14),
        at("touches a commit's buffer with 18", Kind::Commit, &[18], |done| {
            done.out.fill(0);
            18
        }),
    ]
}

/// Does an answer wait by another test of the word?
fn by_other_words() -> Vec<Economy> {
    fn waits_by(done: &mut Done, test: fn(u32) -> bool) -> Number {
        let head = done.head;
        if test(word_at(done.before, WAITS[head])) { 0 } else { done.again(|made| put_waits(made, head, 0)) }
    }
    vec![
        at("takes the word 1 alone for waiting", Kind::Commit, &[0], |done| waits_by(done, |word| word == 1)),
        at("takes the word's last byte alone", Kind::Commit, &[0], |done| waits_by(done, |word| word as u8 != 0)),
        at("takes an odd word alone for waiting", Kind::Commit, &[0], |done| waits_by(done, |word| word % 2 == 1)),
        at("takes a word below zero for none", Kind::Commit, &[0], |done| waits_by(done, |word| word as i32 > 0)),
    ]
}

fn in_other_orders() -> Vec<Economy> {
    vec![
        at("tests 18 before a commit's length", Kind::Commit, &[15], |done| {
            let whole = Held::of(done.before).is_ok_and(|held| held.sizes().is_ok());
            if whole && !done.waited() { 18 } else { 15 }
        }),
        at(
            "tests 18 before the held image",
            Kind::Commit,
            &[3, 6],
            |done| {
                if done.waited() { done.number } else { 18 }
            },
        ),
        at("tests 18 before the drive's length", Kind::Commit, &[15], |done| {
            let word = done.before.get(waits_part(done.head));
            if word.is_none_or(|word| word == [0; 4]) { 18 } else { 15 }
        }),
        at("tests a commit's length before the held image", Kind::Commit, &[3, 6], |done| {
            let motors = word_at(done.before, IMAGE) as usize;
            if (1..=4).contains(&motors) && done.out.len() == 4 * motors { done.number } else { 15 }
        }),
        at("tests an ask's length first", Kind::Ask, &[13, 16, 14], |done| {
            if done.out.len() == answer_len(done.sizes().commands()) { done.number } else { 15 }
        }),
        at("tests an ask's start before its state", Kind::Ask, &[13, 16], |done| {
            let mut start = done.start().into_iter().zip(done.limits());
            if start.any(|(word, limits)| hold(word, limits) != word) { 14 } else { done.number }
        }),
        at("tests the drive's length before an image", Kind::Make, IMAGE_NUMBERS, |done| {
            if done.before.len() == MADE_LEN { done.number } else { 15 }
        }),
    ]
}

/// Drives of another length.
fn with_other_lengths() -> Vec<Economy> {
    vec![
        at("says 6 for a drive of another length", Kind::Ask, &[15], |done| {
            if done.before.len() == MADE_LEN { 15 } else { 6 }
        }),
        at("says 18 for a drive of another length", Kind::Commit, &[15], |done| {
            if done.before.len() == MADE_LEN { 15 } else { 18 }
        }),
        at("takes a longer drive", Kind::Commit, &[15], |done| match done.before.split_at_checked(MADE_LEN) {
            Some((first, [_, ..])) => made::call(Kind::Commit, done.numbers, &mut first.to_vec(), &[], done.out),
            _ => 15,
        }),
        at("makes a longer drive", Kind::Make, &[15], |done| if done.before.len() > MADE_LEN { 0 } else { 15 }),
        at("makes a drive of the former length", Kind::Make, &[15], former_length),
        at("asks a drive of the former length", Kind::Ask, &[15], former_length),
        at("commits a drive of the former length", Kind::Commit, &[15], former_length),
    ]
}
