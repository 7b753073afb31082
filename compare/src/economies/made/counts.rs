//! Other numbers of heads: in a make, in a new image, and where a head is tested.

use std::cell::RefCell;

use super::{Done, Economy, IMAGE_NUMBERS, at, behind, by_bytes, lazy};
use crate::drive::Kind;
use crate::image::Number;
use crate::made::{self, COMMON, COUNT, HEADS, IMAGE, MADE_LEN, OWN, count_part, head_part, put_word, start_room};

pub fn economies() -> Vec<Economy> {
    let makes = [with_other_heads(), with_other_counts(), that_keep_sweeps(), in_other_orders()];
    let heads = [served(), in_later_places(), with_other_words(), elsewhere()];
    makes.into_iter().chain(heads).chain([in_new_images()]).flatten().collect()
}

/// A drive that takes a number of heads for another in a make.
fn makes(name: &str, other: fn(u64) -> u64) -> Economy {
    lazy(name, move |done| {
        if done.kind != Kind::Make {
            return done.number;
        }
        done.made.copy_from_slice(done.before);
        made::call(Kind::Make, &[other(done.numbers[0])], done.made, done.inputs, done.out)
    })
}

fn with_other_heads() -> Vec<Economy> {
    vec![
        makes("makes one head for none", |heads| heads.max(1)),
        makes("makes four heads for five", |heads| if heads == 5 { 4 } else { heads }),
        makes("makes four heads for more", |heads| heads.min(4)),
        makes("makes as many heads as the last byte says", |heads| heads & 0xFF),
        makes("makes as many heads as the last two bytes say", |heads| heads & 0xFFFF),
        makes("makes as many heads as the last 31 bits say", |heads| heads & 0x7FFF_FFFF),
        makes("makes as many heads as the last three bits say", |heads| heads & 7),
        makes("makes no single head", |heads| if heads == 1 { 0 } else { heads }),
        makes("makes no four heads", |heads| if heads == 4 { 5 } else { heads }),
        makes("makes no three heads", |heads| if heads == 3 { 0 } else { heads }),
        makes("makes two heads always", |_| 2),
        makes("makes four heads always", |_| 4),
        makes("makes one head more", |heads| if heads < 4 { heads + 1 } else { heads }),
        makes("makes one head less", |heads| if heads > 1 { heads - 1 } else { heads }),
    ]
}

fn with_other_counts() -> Vec<Economy> {
    vec![
        behind("keeps the old number of heads in a make", Kind::Make, |done| {
            if matches!(done.was(COUNT), 1..=4) {
                done.keep(count_part());
            }
        }),
        behind("keeps the larger number of heads in a make", Kind::Make, |done| {
            if (done.numbers[0] as u32..=4).contains(&done.was(COUNT)) {
                done.keep(count_part());
            }
        }),
        behind("keeps no number of heads", Kind::Make, |done| done.put(COUNT, 0)),
        by_bytes(behind("makes the heads alone that it is to have", Kind::Make, |done| {
            (done.numbers[0] as usize..HEADS).for_each(|head| done.keep(head_part(head)));
        })),
    ]
}

/// A make in the middle of a period.
fn that_keep_sweeps() -> Vec<Economy> {
    vec![
        behind("keeps the old sweeps in a make", Kind::Make, |done| done.keep(COMMON..MADE_LEN)),
        behind("keeps the old common sweeps in a make", Kind::Make, |done| done.keep(COMMON..OWN[0])),
        behind("keeps the old shares in a make", Kind::Make, |done| done.keep(OWN[0]..MADE_LEN)),
        behind("keeps the last head's share in a make", Kind::Make, |done| {
            let head = done.numbers[0] as usize - 1;
            done.keep(made::own_part(head));
        }),
        behind("keeps the sweeps where the image is the same", Kind::Make, |done| {
            if done.has_same_image() {
                done.keep(COMMON..MADE_LEN);
            }
        }),
        by_bytes(behind("keeps the shares of heads that it does not make", Kind::Make, |done| {
            (done.numbers[0] as usize..HEADS).for_each(|head| done.keep(made::own_part(head)));
        })),
        behind("begins a period with a make", Kind::Make, |done| {
            (0..done.numbers[0] as usize).for_each(|head| done.put(OWN[head], 65535));
        }),
        behind("has sweeps for an ask in common before the first period", Kind::Make, |done| {
            let cost = made::word_at(done.made, IMAGE + 20);
            done.put(COMMON, cost);
        }),
    ]
}

/// A make tests its heads before all else.
fn in_other_orders() -> Vec<Economy> {
    /// Behind these numbers of the image or of the drive.
    fn later(name: &str, numbers: &'static [Number]) -> Economy {
        lazy(name, move |done| {
            if done.kind != Kind::Make || matches!(done.numbers, [1..=4]) {
                return done.number;
            }
            let number = made::call(Kind::Make, &[1], &mut done.before.to_vec(), done.inputs, done.out);
            if numbers.contains(&number) { number } else { 3 }
        })
    }
    fn says(name: &str, number: Number) -> Economy {
        lazy(name, move |done| {
            let is_none = done.kind == Kind::Make && !matches!(done.numbers, [1..=4]);
            if is_none { number } else { done.number }
        })
    }
    vec![
        later("tests a make's heads behind its image", IMAGE_NUMBERS),
        later("tests a make's heads behind 12", &[12]),
        later("tests a make's heads behind an image's length", &[6]),
        later("tests a make's heads behind the drive's length", &[15]),
        says("says 15 for a make of no head", 15),
        says("says 6 for a make of no head", 6),
        says("says 20 for a make of no head", 20),
        says("says nothing for a make of no head", 0),
    ]
}

/// Is it 3 by the drive's own number of heads?
fn is_beyond(done: &Done) -> bool {
    done.number == 3 && done.head < HEADS && done.before.len() == MADE_LEN && done.was(COUNT) <= done.head as u32
}

const CALLS: [(Kind, &str); 3] = [(Kind::Ask, "an ask"), (Kind::Commit, "a commit"), (Kind::Done, "a done")];

/// Heads that were not made, or not all that were.
fn served() -> Vec<Economy> {
    let mut all = Vec::new();
    for (kind, call) in CALLS {
        all.push(lazy(&format!("takes heads that were not made in {call}"), move |done| {
            if done.kind == kind && is_beyond(done) { done.with_count(4) } else { done.number }
        }));
        all.push(lazy(&format!("takes one head too many in {call}"), move |done| {
            let is_next = done.kind == kind && is_beyond(done) && done.was(COUNT) == done.head as u32;
            if is_next { done.with_count(4) } else { done.number }
        }));
        all.push(lazy(&format!("serves the first two heads alone in {call}"), move |done| {
            if done.kind == kind && done.head > 1 { done.refuse(3) } else { done.number }
        }));
        all.push(lazy(&format!("serves all but head 3 in {call}"), move |done| {
            if done.kind == kind && done.head == 3 { done.refuse(3) } else { done.number }
        }));
        all.push(lazy(&format!("serves two heads always in {call}"), move |done| {
            let served = done.kind == kind && done.head < 2 && is_beyond(done);
            if served { done.with_count(4) } else { done.number }
        }));
    }
    all
}

/// A head that was not made is 3 before all but the drive's length.
fn in_later_places() -> Vec<Economy> {
    fn later(name: &str, kind: Kind, numbers: &'static [Number]) -> Economy {
        lazy(name, move |done| {
            if done.kind != kind || !is_beyond(done) {
                return done.number;
            }
            let out = done.out.to_vec();
            let number = done.with_count(4);
            done.out.copy_from_slice(&out);
            done.refuse(if numbers.contains(&number) { number } else { 3 })
        })
    }
    fn sooner(name: &str, kind: Kind) -> Economy {
        lazy(name, move |done| {
            let is_short = done.kind == kind && done.number == 15 && done.before.len() != MADE_LEN;
            if is_short && done.head > 0 { 3 } else { done.number }
        })
    }
    vec![
        later("tests the heads made behind the held image in an ask", Kind::Ask, IMAGE_NUMBERS),
        later("tests the heads made behind the held image in a commit", Kind::Commit, &[6]),
        later("tests the heads made behind 13", Kind::Ask, &[13]),
        later("tests the heads made behind 16", Kind::Ask, &[16]),
        later("tests the heads made behind 14", Kind::Ask, &[14]),
        later("tests the heads made behind an ask's length", Kind::Ask, &[15]),
        later("tests the heads made behind 20", Kind::Ask, &[20]),
        later("tests the heads made behind a commit's length", Kind::Commit, &[15]),
        later("tests the heads made behind 18", Kind::Commit, &[18]),
        sooner("tests the heads made before an ask's drive", Kind::Ask),
        sooner("tests the heads made before a commit's drive", Kind::Commit),
        sooner("tests the heads made before a done's drive", Kind::Done),
    ]
}

/// A number of heads that something else wrote.
fn with_other_words() -> Vec<Economy> {
    let mut all = Vec::new();
    for (kind, call) in CALLS {
        all.push(at(&format!("says 3 for more than four heads in {call}"), kind, &[0, 20], |done| {
            if done.was(COUNT) > 4 { done.refuse(3) } else { done.number }
        }));
        all.push(at(&format!("takes the heads by their last byte in {call}"), kind, &[0, 20], |done| {
            if done.was(COUNT) & 0xFF <= done.head as u32 { done.refuse(3) } else { done.number }
        }));
        all.push(at(&format!("takes the heads for signed in {call}"), kind, &[0, 20], |done| {
            if (done.was(COUNT) as i32) <= done.head as i32 { done.refuse(3) } else { done.number }
        }));
        all.push(lazy(&format!("takes a drive without heads for one of four in {call}"), move |done| {
            let none = done.kind == kind && is_beyond(done) && done.was(COUNT) == 0;
            if none { done.with_count(4) } else { done.number }
        }));
    }
    all
}

/// What a drive keeps where its caller does not see it.
fn elsewhere() -> Vec<Economy> {
    let kept = RefCell::new(0);
    let count = lazy("keeps the number of heads outside of the drive", move |done| {
        if done.is(Kind::Make, 0) {
            *kept.borrow_mut() = done.numbers[0] as u32;
        }
        let reads = done.kind.has_head() || done.kind == Kind::Period;
        if !reads || done.is_of_no_head() || done.before.len() != MADE_LEN {
            return done.number;
        }
        let count = *kept.borrow();
        done.with_count(count)
    });
    let kept = RefCell::new(vec![0; MADE_LEN - COMMON]);
    let sweeps = lazy("keeps the sweeps outside of the drive", move |done| {
        let mut kept = kept.borrow_mut();
        if done.before.len() != MADE_LEN || done.is_of_no_head() {
            return done.number;
        }
        let number = done.again(|made| made[COMMON..].copy_from_slice(&kept));
        kept.copy_from_slice(&done.made[COMMON..]);
        number
    });
    vec![count, sweeps]
}

/// A new image leaves the number of heads and the sweeps, and zeroes every start.
fn in_new_images() -> Vec<Economy> {
    fn renews(name: &str, spoil: impl Fn(&mut Done) + 'static) -> Economy {
        behind(name, Kind::NewImage, spoil)
    }
    let period = RefCell::new(0);
    let again = lazy("begins the period again with a new image", move |done| {
        if done.is(Kind::Period, 0) {
            *period.borrow_mut() = done.numbers[0];
        }
        if done.is(Kind::NewImage, 0) && matches!(done.was(COUNT), 1..=4) {
            made::call(Kind::Period, &[*period.borrow()], done.made, &[], &mut []);
        }
        done.number
    });
    vec![
        again,
        renews("has no sweeps behind a new image", |done| done.made[COMMON..].fill(0)),
        renews("has no common sweeps behind a new image", |done| done.put(COMMON, 0)),
        renews("has no shares behind a new image", |done| done.made[OWN[0]..].fill(0)),
        renews("moves every share with a new image", |done| {
            let all = (0..done.heads()).map(|head| done.was(OWN[head])).fold(done.was(COMMON), u32::wrapping_add);
            done.made[OWN[0]..].fill(0);
            done.put(COMMON, all);
        }),
        renews("takes the sweeps of an ask with a new image", |done| {
            let cost = done.was(IMAGE + 20);
            (0..done.heads()).for_each(|head| done.put(OWN[head], done.was(OWN[head]).saturating_sub(cost)));
        }),
        renews("has two heads behind a new image", |done| done.put(COUNT, 2)),
        renews("has four heads behind a new image", |done| done.put(COUNT, 4)),
        renews("has no head behind a new image", |done| done.put(COUNT, 0)),
        renews("mends the number of heads with a new image", |done| {
            let heads = done.was(COUNT).clamp(1, 4);
            done.put(COUNT, heads);
        }),
        renews("zeroes the first two starts alone", |done| (2..HEADS).for_each(|head| done.keep(start_room(head)))),
        renews("zeroes all but the last start", |done| done.keep(start_room(3))),
        by_bytes(renews("leaves the bytes of heads that were not made", |done| {
            (done.heads()..HEADS).for_each(|head| done.keep(head_part(head)));
        })),
        by_bytes(renews("clears the shares of heads not made with a new image", |done| {
            (done.heads()..HEADS).for_each(|head| put_word(done.made, OWN[head], 0));
        })),
    ]
}
