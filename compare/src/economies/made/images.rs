//! New images that keep something, that come where they may not or do not where they may, and their numbers.

use std::cell::RefCell;
use std::ops::Range;

use super::{Done, Economy, IMAGE_NUMBERS, at, behind, by_bytes, clear_answers, former_length, lazy, refused};
use crate::drive::Kind;
use crate::generate::TABLE_NUMBERS;
use crate::image::{Number, Sizes, open, words};
use crate::made::{self, ANSWER, COUNT, HEADS, Held, IMAGE, IMAGE_ROOM, MADE_LEN, START, WAITS, put_waits, word_at};
use crate::made::{answer_room, head_part, hold, start_room, waits_part};
use crate::rules::Rules;

pub fn economies() -> Vec<Economy> {
    let accepted = [that_keep_starts(), with_other_starts(), that_keep_tables(), that_keep_bytes(), that_leave_words()];
    let waiting = [by_other_words(), by_other_heads(), in_other_orders(), behind_refused(), of_makes()];
    accepted.into_iter().chain(waiting).chain([with_other_numbers()]).flatten().collect()
}

/// A drive that does something more behind an accepted new image.
fn renews(name: &str, spoil: impl Fn(&mut Done) + 'static) -> Economy {
    behind(name, Kind::NewImage, spoil)
}

/// A drive that does something else where a new image has such a number.
fn numbered(name: &str, numbers: &'static [Number], spoil: fn(&mut Done) -> Number) -> Economy {
    at(name, Kind::NewImage, numbers, spoil)
}

/// The number of commands of the new image.
fn commands(done: &Done) -> usize {
    let header = words(&done.inputs[0][..32]);
    Sizes::of_words(&header).expect("the image is accepted").commands()
}

fn that_keep_starts() -> Vec<Economy> {
    let committed = RefCell::new(0);
    let last = lazy("zeroes the start of the head that committed last alone", move |done| {
        if done.is(Kind::Commit, 0) {
            *committed.borrow_mut() = done.head;
        }
        if done.is(Kind::NewImage, 0) {
            let committed = *committed.borrow();
            (0..HEADS).filter(|&head| head != committed).for_each(|head| done.keep(start_room(head)));
        }
        done.number
    });
    vec![
        last,
        renews("keeps both starts in a new image", |done| done.keep_of_each(start_room)),
        renews("keeps head 0's start in a new image", |done| done.keep(start_room(0))),
        renews("keeps head 1's start in a new image", |done| done.keep(start_room(1))),
        renews("keeps the starts where the new image is the same", |done| {
            if done.has_same_image() {
                done.keep_of_each(start_room);
            }
        }),
        renews("keeps the starts where the sizes are the same", |done| {
            if done.has_same_sizes() {
                done.keep_of_each(start_room);
            }
        }),
        renews("zeroes the first word of a start alone", |done| {
            done.keep_of_each(|head| START[head] + 4..ANSWER[head]);
        }),
    ]
}

/// A drive that has these starts of both heads behind a new image, given the old ones or the old answers.
fn starts(name: &str, room: fn(usize) -> Range<usize>, other: fn(i64, (i64, i64)) -> i64) -> Economy {
    renews(name, move |done| {
        let held = Held::of(done.made).expect("the length is right");
        let limits = held.limits(&held.sizes().expect("the image is accepted"));
        for head in 0..HEADS {
            let old = words(&done.before[room(head)]).into_iter().zip(&limits);
            let start: Vec<i64> = old.map(|(word, limits)| other(word, *limits)).collect();
            done.put_start_of(head, &start);
        }
    })
}

fn with_other_starts() -> Vec<Economy> {
    vec![
        starts("holds the old starts to the new limits", start_room, hold),
        starts("takes the old answers for the new starts", answer_room, |word, _| word),
        starts("holds the old answers to the new limits", answer_room, hold),
        starts("starts at the lows of a new image", start_room, |_, (low, _)| low),
    ]
}

/// A drive that keeps the old tables for one head, and has the new ones for the other.
fn with_tables_of_one(name: &str, head: usize) -> Economy {
    let tables = RefCell::new(None);
    lazy(name, move |done| {
        let mut tables = tables.borrow_mut();
        match (done.kind, done.number) {
            (Kind::Make, 0) => *tables = None,
            (Kind::NewImage, 0) => *tables = Some(done.before[..IMAGE_ROOM.end].to_vec()),
            (Kind::Ask, 0) if done.head == head => {
                if let Some(tables) = &*tables {
                    let number = done.again(|made| made[..tables.len()].copy_from_slice(tables));
                    done.keep(0..IMAGE_ROOM.end);
                    return number;
                }
            }
            _ => {}
        }
        done.number
    })
}

fn that_keep_tables() -> Vec<Economy> {
    vec![
        with_tables_of_one("keeps the old tables for head 0", 0),
        with_tables_of_one("keeps the old tables for head 1", 1),
        renews("keeps the old image, and zeroes the starts", |done| done.keep(0..IMAGE_ROOM.end)),
        renews("keeps the old image where the sizes are the same", |done| {
            if done.has_same_sizes() {
                done.keep(0..IMAGE_ROOM.end);
            }
        }),
        renews("keeps the old length of the image", |done| done.keep(0..IMAGE)),
        renews("keeps the old sizes", |done| done.keep(IMAGE..IMAGE + 32)),
        renews("does nothing with a new image", |done| done.keep(0..MADE_LEN)),
        numbered("takes no image of other sizes", &[0], |done| if done.has_same_sizes() { 0 } else { done.refuse(6) }),
        numbered("takes no longer image", &[0], |done| {
            if word_at(done.made, 0) > word_at(done.before, 0) { done.refuse(6) } else { 0 }
        }),
        numbered("takes no shorter image", &[0], |done| {
            if word_at(done.made, 0) < word_at(done.before, 0) { done.refuse(6) } else { 0 }
        }),
        numbered("takes no image for one that no solve takes", &[0], |done| {
            let number = Held::of(done.before).and_then(|held| open(held.image, Rules::default())).err();
            number.map_or(0, |number| done.refuse(number))
        }),
        numbered("takes no image for one without sizes", &[0], |done| {
            let number = Held::of(done.before).and_then(|held| held.sizes()).err();
            number.map_or(0, |number| done.refuse(number))
        }),
    ]
}

/// What answers alone would not show.
fn that_keep_bytes() -> Vec<Economy> {
    let unseen = |name: &str, spoil: fn(&mut Done)| by_bytes(renews(name, spoil));
    vec![
        unseen("leaves the bytes behind a shorter new image", |done| {
            let length = word_at(done.made, 0) as usize;
            done.keep(IMAGE + length..IMAGE_ROOM.end);
        }),
        unseen("leaves the old answers' bytes", |done| done.keep_of_each(answer_room)),
        unseen("leaves head 0's answer's bytes", |done| done.keep(answer_room(0))),
        unseen("leaves head 1's answer's bytes", |done| done.keep(answer_room(1))),
        unseen("zeroes an answer's commands and bounds alone", |done| {
            let n = commands(done);
            (0..HEADS).for_each(|head| done.keep(ANSWER[head] + 8 * n..answer_room(head).end));
        }),
        unseen("zeroes as much of a start as the new image has", |done| {
            let n = commands(done);
            (0..HEADS).for_each(|head| done.keep(START[head] + 4 * n..ANSWER[head]));
        }),
    ]
}

fn that_leave_words() -> Vec<Economy> {
    vec![
        renews("lets zeros wait behind a new image", |done| (0..HEADS).for_each(|head| put_waits(done.made, head, 1))),
        renews("lets zeros wait at head 1 behind a new image", |done| put_waits(done.made, 1, 1)),
        renews("lets the old answers wait behind a new image", |done| {
            for head in 0..HEADS {
                done.keep(answer_room(head));
                put_waits(done.made, head, 1);
            }
        }),
    ]
}

/// The heads whose words count, for a number of heads.
type Heeded = fn(usize) -> Range<usize>;

/// A drive that takes a new image unless this test of the waiting words of these heads says 19.
fn waits_by(name: &str, heads: Heeded, test: fn(&[u32]) -> bool) -> Economy {
    lazy(name, move |done| {
        if done.kind != Kind::NewImage || !matches!(done.number, 0 | 19) {
            return done.number;
        }
        let words: Vec<u32> = heads(done.was(COUNT) as usize).map(|head| done.was(WAITS[head])).collect();
        if test(&words) {
            return done.refuse(19);
        }
        done.again(|made| (0..HEADS).for_each(|head| put_waits(made, head, 0)))
    })
}

fn any(words: &[u32]) -> bool {
    words.iter().any(|&word| word != 0)
}

/// By the right heads.
fn by_other_words() -> Vec<Economy> {
    let waits_by = |name: &str, test: fn(&[u32]) -> bool| waits_by(name, |count| 0..count.min(HEADS), test);
    vec![
        waits_by("takes a new image while answers wait", |_| false),
        waits_by("says 19 where all heads wait alone", |words| words.iter().all(|&word| word != 0)),
        waits_by("says 19 where one head waits alone", |words| words.iter().filter(|&&word| word != 0).count() == 1),
        waits_by("takes the word 1 alone for waiting in a new image", |words| words.contains(&1)),
        waits_by("takes the last byte alone in a new image", |words| words.iter().any(|&word| word as u8 != 0)),
        waits_by("takes a word below zero for none in a new image", |words| words.iter().any(|&word| word as i32 > 0)),
        waits_by("adds the waiting words", |words| words.iter().fold(0, |sum: u32, &word| sum.wrapping_add(word)) != 0),
        waits_by("heeds the first word, and others' word 1 alone", |words| {
            words.first().is_some_and(|&word| word != 0) || words.iter().skip(1).any(|&word| word == 1)
        }),
        waits_by("takes no new image ever", |_| true),
    ]
}

/// By other heads than those made.
fn by_other_heads() -> Vec<Economy> {
    vec![
        waits_by("heeds head 0 alone in a new image", |_| 0..1, any),
        waits_by("heeds head 1 alone in a new image", |_| 1..2, any),
        waits_by("heeds the first two heads alone in a new image", |_| 0..2, any),
        waits_by("heeds the first three heads alone in a new image", |_| 0..3, any),
        waits_by("heeds all but the last head in a new image", |count| 0..count.min(HEADS).saturating_sub(1), any),
        waits_by("heeds all four heads in a new image", |_| 0..HEADS, any),
        waits_by("heeds all four heads of a drive without heads", |count| 0..(count.wrapping_sub(1) % HEADS + 1), any),
        waits_by("heeds none of more than four heads", |count| 0..if count > HEADS { 0 } else { count }, any),
        waits_by("heeds the heads by the number's last two bits", |count| 0..count % HEADS, any),
    ]
}

/// Does an answer wait, as far as the drive reaches?
fn some_waits(done: &Done) -> bool {
    (0..HEADS).any(|head| done.before.get(waits_part(head)).is_some_and(|word| word != [0; 4]))
}

fn in_other_orders() -> Vec<Economy> {
    fn nineteen_first(done: &mut Done) -> Number {
        if some_waits(done) { 19 } else { done.number }
    }
    fn length_first(done: &mut Done) -> Number {
        if done.before.len() == MADE_LEN { done.number } else { 15 }
    }
    vec![
        numbered("tests 19 before the image", IMAGE_NUMBERS, nineteen_first),
        numbered("tests 19 before the tables", &TABLE_NUMBERS, nineteen_first),
        numbered("tests 19 before 12", &[12], nineteen_first),
        numbered("tests 19 before the drive's length", &[15], nineteen_first),
        numbered("tests the drive's length before a new image", IMAGE_NUMBERS, length_first),
        numbered("tests the drive's length before the new tables", &TABLE_NUMBERS, length_first),
        numbered(
            "takes a longer drive for a new image",
            &[15],
            |done| {
                if done.before.len() > MADE_LEN { 0 } else { 15 }
            },
        ),
        numbered("takes a drive of the former length", &[15], former_length),
    ]
}

/// What is written though a new image is refused.
fn behind_refused() -> Vec<Economy> {
    type Spoil = fn(&mut Done);
    let refused = |name: &str, numbers, spoil: Spoil| refused(name, Kind::NewImage, numbers, spoil);
    fn clear_starts(done: &mut Done) {
        (0..HEADS).for_each(|head| done.made[start_room(head)].fill(0));
    }
    vec![
        refused("uses up the answers with 19", &[19], clear_answers),
        refused("zeroes the starts with 19", &[19], clear_starts),
        refused("replaces the tables though it says 19", &[19], |done| {
            made::call(Kind::Make, &[2], done.made, done.inputs, &mut []);
            done.keep(IMAGE_ROOM.end..MADE_LEN);
        }),
        refused("uses up the answers with an image's number", IMAGE_NUMBERS, clear_answers),
        refused("zeroes the starts with an image's number", IMAGE_NUMBERS, clear_starts),
        refused("clears the drive with a new image's numbers", IMAGE_NUMBERS, |done| done.made.fill(0)),
        refused("writes the tables that it refuses", &TABLE_NUMBERS, |done| {
            let image = done.inputs[0];
            done.made[IMAGE..IMAGE + image.len()].copy_from_slice(image);
        }),
    ]
}

/// 19 is no number of a make.
fn of_makes() -> Vec<Economy> {
    vec![
        at("says 19 for a make while an answer waits", Kind::Make, &[0], |done| {
            if done.some_waited() { done.refuse(19) } else { 0 }
        }),
        at("says 19 for a make while head 1 waits", Kind::Make, &[0], |done| {
            if word_at(done.before, WAITS[1]) == 1 { done.refuse(19) } else { 0 }
        }),
        behind("keeps head 1's start in a make of the same image", Kind::Make, |done| {
            if done.has_same_image() {
                done.keep(start_room(1));
            }
        }),
        behind("keeps head 1's waiting answer in a make", Kind::Make, |done| {
            if word_at(done.before, WAITS[1]) == 1 {
                done.keep(head_part(1));
            }
        }),
        by_bytes(behind("makes head 0 alone", Kind::Make, |done| done.keep(WAITS[1]..COUNT))),
    ]
}

fn with_other_numbers() -> Vec<Economy> {
    vec![
        numbered("says 18 for 19", &[19], |_| 18),
        numbered("says 15 for 19", &[19], |_| 15),
        numbered("says nothing for 19", &[19], |_| 0),
        numbered("does not test the tables of a new image", &TABLE_NUMBERS, |_| 0),
        numbered("says 12 for every new image that it refuses", &[6, 3, 5, 7, 17, 8, 9, 10, 11], |_| 12),
        numbered("says 19 for a new image that it refuses", IMAGE_NUMBERS, |_| 19),
        numbered("says 19 while a head has a start", &[0], |done| {
            let mut starts = (0..HEADS).flat_map(start_room);
            if starts.any(|at| done.before[at] != 0) { done.refuse(19) } else { 0 }
        }),
        numbered("says 19 where an answer once waited", &[0], |done| {
            let mut answers = (0..HEADS).flat_map(answer_room);
            if answers.any(|at| done.before[at] != 0) { done.refuse(19) } else { 0 }
        }),
    ]
}
