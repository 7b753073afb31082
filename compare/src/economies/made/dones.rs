//! Dones that move something else, and what a done head may do.

use std::cell::RefCell;

use super::{Done, Economy, at, behind, clear_answers, former_length, lazy};
use crate::drive::Kind;
use crate::image::{Number, open};
use crate::made::{COMMON, COUNT, HEADS, Held, OWN, start_room, waits};
use crate::rules::Rules;

pub fn economies() -> Vec<Economy> {
    let moved = [that_move_otherwise(), of_other_heads(), with_whole_shares()];
    let others = [of_done_heads(), that_write_more(), with_other_numbers()];
    moved.into_iter().chain(others).flatten().collect()
}

/// A drive that leaves these own and common sweeps behind a done, given those before it.
fn moves(name: &str, other: fn(u32, u32) -> [u32; 2]) -> Economy {
    behind(name, Kind::Done, move |done| {
        let [own, common] = other(done.was(OWN[done.head]), done.was(COMMON));
        done.put(OWN[done.head], own);
        done.put(COMMON, common);
    })
}

fn that_move_otherwise() -> Vec<Economy> {
    vec![
        moves("gives a share twice with a done", |own, common| [0, common.wrapping_add(own).wrapping_add(own)]),
        moves("leaves a done head its share", |own, common| [own, common.wrapping_add(own)]),
        moves("loses the share of a done head", |_, common| [0, common]),
        moves("does nothing with a done", |own, common| [own, common]),
        moves("has a done head's share for all that is common", |own, _| [0, own]),
        moves("has the larger part for all that is common", |own, common| [0, own.max(common)]),
        moves("moves half of a done head's share", |own, common| [own - own / 2, common.wrapping_add(own / 2)]),
        moves("moves all but one sweep", |own, common| [own.min(1), common.wrapping_add(own.saturating_sub(1))]),
        moves("leaves one sweep with a done", |own, common| [own.min(1), common.wrapping_add(own)]),
        moves("moves one sweep more", |own, common| [0, common.wrapping_add(own).wrapping_add(1)]),
        moves("moves the common part to a done head", |own, common| [own.wrapping_add(common), 0]),
        moves("exchanges own and common sweeps with a done", |own, common| [common, own]),
        moves("stops at the end of 32 bits with a done", |own, common| [0, common.saturating_add(own)]),
        moves("stops at the end of 31 bits with a done", |own, common| {
            [0, (common as i32).wrapping_add(own as i32).max(0) as u32]
        }),
        moves("keeps the last two bytes with a done", |own, common| [0, common.wrapping_add(own) & 0xFFFF]),
        moves("moves nothing that the word does not hold", |own, common| match own.checked_add(common) {
            Some(sum) => [0, sum],
            None => [own, common],
        }),
    ]
}

/// What becomes of the other heads' shares.
fn of_other_heads() -> Vec<Economy> {
    vec![
        behind("moves every share with a done", Kind::Done, |done| {
            let all = (0..done.heads()).map(|head| done.was(OWN[head])).fold(done.was(COMMON), u32::wrapping_add);
            done.put(COMMON, all);
            (0..done.heads()).for_each(|head| done.put(OWN[head], 0));
        }),
        behind("gives a done head's share to the next", Kind::Done, |done| {
            let next = (done.head + 1) % done.heads().max(1);
            let (own, others) = (done.was(OWN[done.head]), done.was(OWN[next]));
            let common = done.was(COMMON);
            done.put(COMMON, common);
            done.put(OWN[done.head], 0);
            done.put(OWN[next], if next == done.head { own } else { others.wrapping_add(own) });
        }),
        behind("deals the common part with a done", Kind::Done, |done| {
            let (heads, own) = (done.heads() as u32, done.head);
            let common = done.was(COMMON).wrapping_add(done.was(OWN[own]));
            for head in (0..done.heads()).filter(|&head| head != own) {
                let own = done.was(OWN[head]).wrapping_add(common / heads);
                done.put(OWN[head], own);
            }
            done.put(COMMON, common % heads);
        }),
        behind("moves the share of the other head", Kind::Done, |done| {
            let [own, other, common] = [OWN[done.head], OWN[done.other], COMMON].map(|at| done.was(at));
            done.put(OWN[done.head], own);
            done.put(OWN[done.other], 0);
            done.put(COMMON, common.wrapping_add(other));
        }),
    ]
}

/// The share of the period, be it used or not.
fn with_whole_shares() -> Vec<Economy> {
    let share = RefCell::new(0);
    let whole = lazy("moves the whole share, used or not", move |done| {
        if done.is(Kind::Period, 0) {
            *share.borrow_mut() = done.numbers[0] as u32 / done.was(COUNT);
        }
        if done.is(Kind::Done, 0) {
            let common = done.was(COMMON).wrapping_add(*share.borrow());
            done.put(COMMON, common);
        }
        done.number
    });
    let share = RefCell::new(0);
    let unused = lazy("moves an unused share alone", move |done| {
        if done.is(Kind::Period, 0) {
            *share.borrow_mut() = done.numbers[0] as u32 / done.was(COUNT);
        }
        if done.is(Kind::Done, 0) && done.was(OWN[done.head]) < *share.borrow() {
            let common = done.was(COMMON);
            done.put(COMMON, common);
        }
        done.number
    });
    vec![whole, unused]
}

/// A drive that does something else with a call of a head that was done in this period.
fn once_done(name: &str, kind: Kind, spoil: fn(&mut Done) -> Number) -> Economy {
    let gone = RefCell::new([false; HEADS]);
    lazy(name, move |done| {
        let mut gone = gone.borrow_mut();
        if done.is(kind, 0) && kind.has_head() && gone[done.head] {
            return spoil(done);
        }
        match (done.kind, done.number) {
            (Kind::Make | Kind::Period, 0) => *gone = [false; HEADS],
            (Kind::Done, 0) => gone[done.head] = true,
            _ => {}
        }
        done.number
    })
}

fn of_done_heads() -> Vec<Economy> {
    vec![
        once_done("says 20 to a done head always", Kind::Ask, |done| done.refuse(20)),
        once_done("says 3 to a done head", Kind::Ask, |done| done.refuse(3)),
        once_done("issues nothing of a done head", Kind::Commit, |done| done.refuse(18)),
        once_done("says 18 for a second done", Kind::Done, |done| done.refuse(18)),
        once_done("says 20 for a second done", Kind::Done, |done| done.refuse(20)),
        once_done("grants a done head's asks for nothing", Kind::Ask, |done| {
            done.keep(COMMON..OWN[0]);
            0
        }),
    ]
}

fn that_write_more() -> Vec<Economy> {
    vec![
        behind("uses up the answer with a done", Kind::Done, |done| done.put_waits(0)),
        behind("uses up every answer with a done", Kind::Done, clear_answers),
        behind("zeroes the start with a done", Kind::Done, |done| done.made[start_room(done.head)].fill(0)),
        behind("lets an answer wait with a done", Kind::Done, |done| done.put_waits(1)),
    ]
}

fn with_other_numbers() -> Vec<Economy> {
    fn numbered(name: &str, numbers: &'static [Number], spoil: fn(&mut Done) -> Number) -> Economy {
        at(name, Kind::Done, numbers, spoil)
    }
    vec![
        numbered("says 18 for a done where no answer waits", &[0], |done| {
            if waits(done.before, done.head) { 0 } else { done.refuse(18) }
        }),
        numbered("says 19 for a done while an answer waits", &[0], |done| {
            if waits(done.before, done.head) { done.refuse(19) } else { 0 }
        }),
        numbered("says 20 for a done without a share", &[0], |done| {
            if done.was(OWN[done.head]) == 0 { done.refuse(20) } else { 0 }
        }),
        numbered("tests the image in a done", &[0], |done| {
            let number = Held::of(done.before).and_then(|held| open(held.image, Rules::default())).err();
            number.map_or(0, |number| done.refuse(number))
        }),
        numbered("is done on every length", &[15], |_| 0),
        numbered("is done on a former length", &[15], former_length),
        numbered("says 3 for a done on another length", &[15], |_| 3),
    ]
}
