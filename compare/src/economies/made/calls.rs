//! Asks from elsewhere, makes that keep something, images that are tested otherwise, and bytes that no answer shows.

use std::cell::RefCell;

use super::{Done, Economy, at, behind, by_bytes, lazy};
use crate::drive::Kind;
use crate::generate::TABLE_NUMBERS;
use crate::image::{Number, Sizes, bytes, open, words};
use crate::made::{self, ANSWER, HEADS, Held, IMAGE, IMAGE_ROOM, MADE_LEN, START, WAITS, hold, put_waits};
use crate::made::{answer_room, commands_part, start_part, start_room, waits_part, word_at};
use crate::rules::Rules;

pub fn economies() -> Vec<Economy> {
    let asks = [from_other_starts(), with_other_answers(), with_other_inputs()];
    let makes = [that_keep(), with_other_makes()];
    let others = [with_other_images(), elsewhere(), in_commits(), in_asks_and_makes()];
    asks.into_iter().chain(makes).chain(others).flatten().collect()
}

/// The ask from another start, which the drive does not keep.
fn ask_from(done: &mut Done, start: Vec<i64>) -> Number {
    let head = done.head;
    let number = done.again(|made| made[START[head]..][..4 * start.len()].copy_from_slice(&bytes(&start)));
    done.keep(start_room(head));
    number
}

fn from_zeros(done: &mut Done) -> Number {
    let n = done.sizes().commands();
    ask_from(done, vec![0; n])
}

fn from_other_starts() -> Vec<Economy> {
    vec![
        at("solves from zeros", Kind::Ask, &[0], from_zeros),
        at("solves from the waiting answer", Kind::Ask, &[0], |done| {
            let start = if done.waited() { done.commands() } else { done.start() };
            ask_from(done, start)
        }),
        at("solves from the last answer, used up or not", Kind::Ask, &[0], |done| {
            let commands = done.commands();
            ask_from(done, commands)
        }),
        at("solves from a start that it holds to the limits", Kind::Ask, &[14], |done| {
            let start = done.start().into_iter().zip(done.limits());
            let start = start.map(|(word, limits)| hold(word, limits)).collect();
            ask_from(done, start)
        }),
        at("solves from zeros where the start is beyond its limits", Kind::Ask, &[14], from_zeros),
    ]
}

fn with_other_answers() -> Vec<Economy> {
    vec![
        behind("does not write the answer", Kind::Ask, |done| done.out.fill(0)),
        behind("writes the answer that waited", Kind::Ask, |done| {
            if done.waited() {
                let length = done.out.len();
                done.out.copy_from_slice(&done.before[ANSWER[done.head]..][..length]);
            }
        }),
        behind("writes the first step alone", Kind::Ask, |done| {
            let issued = 4 * done.sizes().motors;
            done.out[issued..].fill(0);
        }),
        behind("lets the start wait in the answer's place", Kind::Ask, |done| {
            let head = done.head;
            done.made.copy_within(start_part(head, &done.sizes()), ANSWER[head]);
        }),
        at("touches the answer's buffer with 15", Kind::Ask, &[15], |done| {
            done.out.fill(0);
            15
        }),
    ]
}

fn with_other_inputs() -> Vec<Economy> {
    fn ask(done: &mut Done, state: &[u8], target: &[u8]) -> Number {
        done.made.copy_from_slice(done.before);
        made::call(Kind::Ask, done.numbers, done.made, &[state, target], done.out)
    }
    vec![
        at("does not test an ask's state", Kind::Ask, &[13], |done| {
            let state = vec![0; 4 * done.sizes().states];
            ask(done, &state, done.inputs[1])
        }),
        at("does not heed an ask's target", Kind::Ask, &[0, 16], |done| {
            let target = vec![0; 4 * done.sizes().targets];
            ask(done, done.inputs[0], &target)
        }),
    ]
}

fn that_keep() -> Vec<Economy> {
    vec![
        behind("keeps an old waiting answer in a make", Kind::Make, |done| done.keep_of_each(waits_part)),
        behind("keeps an old answer in a make and lets it wait", Kind::Make, |done| {
            done.keep_of_each(answer_room);
            done.keep_of_each(waits_part);
        }),
        behind("keeps the old start in a make", Kind::Make, |done| done.keep_of_each(start_room)),
        behind("keeps the old start where the image is the same", Kind::Make, |done| {
            if done.has_same_image() {
                done.keep_of_each(start_room);
            }
        }),
        behind("keeps the old image while an answer waits", Kind::Make, |done| {
            if done.some_waited() {
                done.keep(0..MADE_LEN);
            }
        }),
        behind("keeps the old image where the sizes are the same", Kind::Make, |done| {
            if done.has_same_sizes() {
                done.keep(0..IMAGE_ROOM.end);
            }
        }),
    ]
}

fn with_other_makes() -> Vec<Economy> {
    fn lows(made: &[u8]) -> Vec<i64> {
        let held = Held::of(made).expect("the length is right");
        let sizes = held.sizes().expect("the image is accepted");
        held.limits(&sizes).into_iter().map(|(low, _)| low).collect()
    }
    vec![
        behind("starts a new drive at its lows", Kind::Make, |done| {
            let lows = lows(done.made);
            (0..HEADS).for_each(|head| done.put_start_of(head, &lows));
        }),
        behind("lets zeros wait in a new drive", Kind::Make, |done| {
            (0..HEADS).for_each(|head| put_waits(done.made, head, 1));
        }),
        at("does not test the tables in a make", Kind::Make, &TABLE_NUMBERS, |_| 0),
        at("says 12 for every image that a make refuses", Kind::Make, &[6, 3, 5, 7, 17, 8, 9, 10, 11], |_| 12),
        at("turns a make down while an answer waits", Kind::Make, &[0], |done| {
            if done.some_waited() { done.refuse(18) } else { 0 }
        }),
    ]
}

/// The call on the drive with another length word, which then goes back to what it was.
fn with_length(done: &mut Done, length: usize) -> Number {
    let number = done.again(|made| made[..IMAGE].copy_from_slice(&(length as u32).to_be_bytes()));
    done.keep(0..IMAGE);
    number
}

/// What becomes of an image that something else wrote to.
fn with_other_images() -> Vec<Economy> {
    fn by_sizes(done: &mut Done) -> Number {
        let header = words(&done.before[IMAGE..IMAGE + 32]);
        Sizes::of_words(&header).map_or(done.number, |sizes| with_length(done, sizes.image_bytes()))
    }
    fn within_room(done: &mut Done) -> Number {
        let length = word_at(done.before, 0) as usize;
        if length <= IMAGE_ROOM.len() { done.number } else { with_length(done, 0) }
    }
    vec![
        at("tests the whole image in a commit", Kind::Commit, &[0], |done| {
            let number = open(done.held().image, Rules::default()).err().unwrap_or(0);
            if number != 0 {
                done.made.copy_from_slice(done.before);
            }
            number
        }),
        at("does not heed the length word in a commit", Kind::Commit, &[6], by_sizes),
        at("does not heed the length word in an ask", Kind::Ask, &[6], by_sizes),
        at("says 6 for a length word beyond the room in a commit", Kind::Commit, &[0], within_room),
        at("says 6 for a length word beyond the room in an ask", Kind::Ask, &[0], within_room),
        at("says 6 for sizes out of their range", Kind::Commit, &[3], |_| 6),
    ]
}

/// What a drive keeps where its caller does not see it.
fn elsewhere() -> Vec<Economy> {
    let kept = RefCell::new([const { Vec::new() }; HEADS]);
    let answer = lazy("keeps the waiting answer outside of the drive", move |done| {
        let mut kept = kept.borrow_mut();
        if done.is(Kind::Ask, 0) {
            kept[done.head] = done.out.to_vec();
        }
        if done.is(Kind::Commit, 0) {
            done.out.iter_mut().zip(&kept[done.head]).for_each(|(to, byte)| *to = *byte);
        }
        done.number
    });
    let waiting = RefCell::new([false; HEADS]);
    let word = lazy("keeps outside of the drive whether an answer waits", move |done| {
        let mut waiting = waiting.borrow_mut();
        match (done.kind, done.number) {
            (Kind::Commit, 0) if !waiting[done.head] => return 18,
            (Kind::Ask | Kind::Commit, 0) => waiting[done.head] = done.kind == Kind::Ask,
            (Kind::Make | Kind::NewImage, 0) => *waiting = [false; HEADS],
            _ => {}
        }
        done.number
    });
    vec![answer, word]
}

/// A drive that does something more behind an accepted call, which its answers alone would not show.
fn unseen(name: &str, kind: Kind, spoil: fn(&mut Done)) -> Economy {
    by_bytes(behind(name, kind, spoil))
}

fn in_commits() -> Vec<Economy> {
    vec![
        unseen("clears the answer's bytes in a commit", Kind::Commit, |done| {
            done.made[answer_room(done.head)].fill(0);
        }),
        unseen("clears the start's room behind its words", Kind::Commit, |done| {
            let (head, sizes) = (done.head, done.sizes());
            done.made[start_part(head, &sizes).end..ANSWER[head]].fill(0);
        }),
        by_bytes(at("writes a start though no answer waits", Kind::Commit, &[18], |done| {
            let commands = done.commands();
            done.put_start(&commands);
            18
        })),
    ]
}

fn in_asks_and_makes() -> Vec<Economy> {
    vec![
        unseen("clears the answer's room behind its words", Kind::Ask, |done| {
            let length = done.out.len();
            done.made[answer_room(done.head)][length..].fill(0);
        }),
        unseen("keeps the commands of an answer alone", Kind::Ask, |done| {
            let commands = commands_part(done.head, &done.sizes());
            done.keep(commands.end..answer_room(done.head).end);
        }),
        unseen("keeps no D", Kind::Ask, |done| {
            let commands = commands_part(done.head, &done.sizes());
            done.keep(commands.end + commands.len()..answer_room(done.head).end);
        }),
        unseen("counts the asks in the word that tells of them", Kind::Ask, |done| {
            let word = word_at(done.before, WAITS[done.head]);
            done.put_waits(word.wrapping_add(1));
        }),
        unseen("mends the length word in an ask", Kind::Ask, |done| {
            let length = done.held().image.len() as u32;
            done.made[..IMAGE].copy_from_slice(&length.to_be_bytes());
        }),
        unseen("leaves the bytes behind a shorter image", Kind::Make, |done| {
            let length = word_at(done.made, 0) as usize;
            done.keep(IMAGE + length..IMAGE_ROOM.end);
        }),
        unseen("leaves the old answers' bytes in a make", Kind::Make, |done| done.keep_of_each(answer_room)),
    ]
}
