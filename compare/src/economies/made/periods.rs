//! Periods that begin with other sweeps, or not where they should, and what they leave.

use std::cell::RefCell;

use super::{Done, Economy, at, behind, by_bytes, clear_answers, former_length, lazy};
use crate::drive::Kind;
use crate::image::{Number, open};
use crate::made::{COMMON, COUNT, HEADS, Held, MADE_LEN, OWN, start_room, waits, word_at};
use crate::rules::Rules;

pub fn economies() -> Vec<Economy> {
    let dealt = [that_do_not_lapse(), with_other_remainders(), with_other_shares(), with_other_sweeps()];
    let others = [with_memory(), for_other_heads(), that_write_more(), with_other_numbers()];
    dealt.into_iter().chain(others).flatten().collect()
}

/// A drive that does something else with the sweeps of a period, given these and the number of heads.
fn deals(name: &str, deal: fn(&mut Done, u32, u32)) -> Economy {
    behind(name, Kind::Period, move |done| deal(done, done.numbers[0] as u32, done.was(COUNT)))
}

/// The same share for every head made.
fn put_shares(done: &mut Done, common: u32, own: u32) {
    done.put(COMMON, common);
    (0..done.heads()).for_each(|head| done.put(OWN[head], own));
}

/// Adds what was left there.
fn add(done: &mut Done, at: usize) {
    let word = done.was(at).wrapping_add(word_at(done.made, at));
    done.put(at, word);
}

fn has_sweeps_left(done: &Done) -> bool {
    [COMMON].iter().chain(&OWN).any(|&at| done.was(at) != 0)
}

fn that_do_not_lapse() -> Vec<Economy> {
    vec![
        deals("lets no sweeps lapse", |done, _, _| {
            add(done, COMMON);
            (0..done.heads()).for_each(|head| add(done, OWN[head]));
        }),
        deals("lets no common sweeps lapse", |done, _, _| add(done, COMMON)),
        deals("lets no share lapse", |done, _, _| (0..done.heads()).for_each(|head| add(done, OWN[head]))),
        deals("lets head 0's share not lapse", |done, _, _| add(done, OWN[0])),
        deals("lets the last head's share not lapse", |done, _, heads| add(done, OWN[heads as usize - 1])),
        deals("keeps head 0's old share", |done, _, _| done.keep(OWN[0]..OWN[1])),
        deals("keeps the last head's old share", |done, _, heads| {
            let at = OWN[heads as usize - 1];
            done.keep(at..at + 4);
        }),
        deals("keeps the old common sweeps", |done, _, _| done.keep(COMMON..OWN[0])),
        deals("moves what is left to the common part of the next period", |done, sweeps, heads| {
            let left: u32 = (0..done.heads()).map(|head| done.was(OWN[head])).fold(done.was(COMMON), u32::wrapping_add);
            put_shares(done, left.wrapping_add(sweeps % heads), sweeps / heads);
        }),
        deals("begins no period while sweeps are left", |done, _, _| {
            if has_sweeps_left(done) {
                done.keep(COMMON..MADE_LEN);
            }
        }),
        deals("begins no period while an answer waits", |done, _, _| {
            if (0..done.heads()).any(|head| waits(done.before, head)) {
                done.keep(COMMON..MADE_LEN);
            }
        }),
        deals("begins no period of fewer sweeps", |done, sweeps, heads| {
            if done.was(OWN[0]) > sweeps / heads {
                done.keep(COMMON..MADE_LEN);
            }
        }),
    ]
}

fn with_other_remainders() -> Vec<Economy> {
    vec![
        deals("gives the remainder to head 0", |done, sweeps, heads| {
            put_shares(done, 0, sweeps / heads);
            done.put(OWN[0], sweeps / heads + sweeps % heads);
        }),
        deals("gives the remainder to the last head", |done, sweeps, heads| {
            put_shares(done, 0, sweeps / heads);
            done.put(OWN[heads as usize - 1], sweeps / heads + sweeps % heads);
        }),
        deals("gives the remainder to the first heads", |done, sweeps, heads| {
            put_shares(done, 0, sweeps / heads);
            (0..sweeps % heads).for_each(|head| done.put(OWN[head as usize], sweeps / heads + 1));
        }),
        deals("loses the remainder", |done, _, _| done.put(COMMON, 0)),
        deals("has a remainder of 1 at most", |done, sweeps, heads| done.put(COMMON, (sweeps % heads).min(1))),
        deals("counts the remainder twice", |done, sweeps, heads| done.put(COMMON, sweeps % heads * 2)),
        deals("rounds the shares up", |done, sweeps, heads| put_shares(done, 0, sweeps.div_ceil(heads))),
        deals("rounds the shares up, and keeps the remainder", |done, sweeps, heads| {
            put_shares(done, sweeps % heads, sweeps.div_ceil(heads));
        }),
        deals("rounds the shares to the nearest", |done, sweeps, heads| {
            put_shares(done, 0, (sweeps + heads / 2) / heads)
        }),
    ]
}

fn with_other_shares() -> Vec<Economy> {
    /// As if there were so many heads.
    fn divide(done: &mut Done, sweeps: u32, heads: u32) {
        put_shares(done, sweeps % heads, sweeps / heads);
    }
    vec![
        deals("has all sweeps in common", |done, sweeps, _| put_shares(done, sweeps, 0)),
        deals("gives all sweeps to head 0", |done, sweeps, _| {
            put_shares(done, 0, 0);
            done.put(OWN[0], sweeps);
        }),
        deals("gives each head all sweeps", |done, sweeps, _| put_shares(done, 0, sweeps)),
        deals("has all sweeps in common beside the shares", |done, sweeps, heads| {
            put_shares(done, sweeps, sweeps / heads)
        }),
        deals("divides by two always", |done, sweeps, _| divide(done, sweeps, 2)),
        deals("divides by four always", |done, sweeps, _| divide(done, sweeps, HEADS as u32)),
        deals("divides by one more", |done, sweeps, heads| divide(done, sweeps, heads + 1)),
        deals("divides by one less", |done, sweeps, heads| divide(done, sweeps, (heads - 1).max(1))),
        deals("divides by two where there are three", |done, sweeps, heads| {
            divide(done, sweeps, if heads == 3 { 2 } else { heads });
        }),
        deals("divides by the heads that wait or by one", |done, sweeps, _| {
            let waiting = (0..done.heads()).filter(|&head| waits(done.before, head)).count();
            divide(done, sweeps, waiting.max(1) as u32);
        }),
    ]
}

fn with_other_sweeps() -> Vec<Economy> {
    /// A drive that takes S for another.
    fn takes(name: &str, other: fn(u32) -> u32) -> Economy {
        behind(name, Kind::Period, move |done| {
            let (sweeps, heads) = (other(done.numbers[0] as u32), done.was(COUNT));
            put_shares(done, sweeps % heads, sweeps / heads);
        })
    }
    vec![
        takes("takes the last byte of S", |sweeps| sweeps & 0xFF),
        takes("takes the last 15 bits of S", |sweeps| sweeps & 0x7FFF),
        takes("takes the bytes of S in the other order", |sweeps| u32::from((sweeps as u16).swap_bytes())),
        takes("takes S for none where its sign is set", |sweeps| if sweeps > 0x7FFF { 0 } else { sweeps }),
        takes("has one sweep less than S", |sweeps| sweeps.saturating_sub(1)),
        takes("has one sweep more than S", |sweeps| sweeps + 1),
        takes("has no more than 400 sweeps", |sweeps| sweeps.min(400)),
        takes("has a sweep for each head at least", |sweeps| sweeps.max(4)),
    ]
}

/// A drive that remembers the heads that were done, for its next period.
fn remembers(name: &str, deal: fn(&mut Done, &mut [bool; HEADS])) -> Economy {
    let gone = RefCell::new([false; HEADS]);
    lazy(name, move |done| {
        let mut gone = gone.borrow_mut();
        match (done.kind, done.number) {
            (Kind::Make, 0) => *gone = [false; HEADS],
            (Kind::Done, 0) => gone[done.head] = true,
            (Kind::Period, 0) => deal(done, &mut gone),
            _ => {}
        }
        done.number
    })
}

fn with_memory() -> Vec<Economy> {
    let begun = RefCell::new(false);
    let once = lazy("begins the first period alone", move |done| {
        if done.is(Kind::Make, 0) {
            *begun.borrow_mut() = false;
        }
        if done.is(Kind::Period, 0) && begun.replace(true) {
            done.keep(COMMON..MADE_LEN);
        }
        done.number
    });
    let never = remembers("gives a done head no share ever again", |done, gone| {
        (0..HEADS).filter(|&head| gone[head]).for_each(|head| done.put(OWN[head], 0));
    });
    let moved = remembers("moves a done head's next share too", |done, gone| {
        for head in (0..done.heads()).filter(|&head| std::mem::take(&mut gone[head])) {
            let [own, common] = [OWN[head], COMMON].map(|at| word_at(done.made, at));
            done.put(OWN[head], 0);
            done.put(COMMON, common + own);
        }
    });
    vec![once, never, moved]
}

fn for_other_heads() -> Vec<Economy> {
    vec![
        deals("gives head 0 alone a share", |done, _, _| done.keep(OWN[1]..MADE_LEN)),
        deals("gives the first two heads alone a share", |done, _, _| done.keep(OWN[2]..MADE_LEN)),
        deals("gives the last head no share", |done, _, heads| done.put(OWN[heads as usize - 1], 0)),
        deals("gives no share to a head that waits", |done, _, _| {
            for head in (0..done.heads()).filter(|&head| waits(done.before, head)) {
                done.put(OWN[head], 0);
            }
        }),
        // Only where something else writes do the words of other heads ever count.
        by_bytes(deals("gives heads a share that were not made", |done, sweeps, heads| {
            OWN.into_iter().for_each(|at| done.put(at, sweeps / heads));
        })),
        by_bytes(deals("clears the shares of heads that were not made", |done, _, _| {
            (done.heads()..HEADS).for_each(|head| done.put(OWN[head], 0));
        })),
    ]
}

fn that_write_more() -> Vec<Economy> {
    vec![
        behind("uses up the answers with a period", Kind::Period, clear_answers),
        behind("zeroes the starts with a period", Kind::Period, |done| {
            (0..HEADS).for_each(|head| done.made[start_room(head)].fill(0));
        }),
    ]
}

fn with_other_numbers() -> Vec<Economy> {
    fn numbered(name: &str, numbers: &'static [Number], spoil: fn(&mut Done) -> Number) -> Economy {
        at(name, Kind::Period, numbers, spoil)
    }
    vec![
        numbered(
            "says 3 for a period without sweeps",
            &[0],
            |done| if done.numbers == [0] { done.refuse(3) } else { 0 },
        ),
        numbered("says 20 for a period of less than an ask", &[0], |done| {
            let sizes = done.held().sizes();
            let short = sizes.is_ok_and(|sizes| (done.numbers[0] as usize) < sizes.iterations);
            if short { done.refuse(20) } else { 0 }
        }),
        numbered("says 20 for a period of fewer sweeps than heads", &[0], |done| {
            if done.numbers[0] < done.heads() as u64 { done.refuse(20) } else { 0 }
        }),
        numbered("says 19 for a period while an answer waits", &[0], |done| {
            if done.some_waited() { done.refuse(19) } else { 0 }
        }),
        numbered("tests the image in a period", &[0], |done| {
            let number = Held::of(done.before).and_then(|held| open(held.image, Rules::default())).err();
            number.map_or(0, |number| done.refuse(number))
        }),
        numbered("begins a period on every length", &[15], |_| 0),
        numbered("begins a period on a former length", &[15], former_length),
        numbered("says 3 for a period on another length", &[15], |_| 3),
        numbered(
            "takes no head for one in a period",
            &[3],
            |done| if done.was(COUNT) == 0 { done.with_count(1) } else { 3 },
        ),
        numbered("takes more than four heads for four in a period", &[3], |done| {
            if done.was(COUNT) > 4 { done.with_count(4) } else { 3 }
        }),
        numbered("takes the heads by their last byte in a period", &[3], |done| {
            let heads = done.was(COUNT) & 0xFF;
            if matches!(heads, 1..=4) { done.with_count(heads) } else { 3 }
        }),
        numbered("says nothing for a period of no head", &[3], |_| 0),
        numbered("says 6 for a period of no head", &[3], |_| 6),
    ]
}
