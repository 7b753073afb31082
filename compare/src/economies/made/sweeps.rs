//! Asks that cost something else, that are granted where they fall short or turned down where they do not, and 20 in
//! another place or with something taken.

use std::cell::RefCell;

use super::{Done, Economy, IMAGE_NUMBERS, at, behind, clear_answers, lazy, refused};
use crate::drive::Kind;
use crate::generate::TABLE_NUMBERS;
use crate::image::Number;
use crate::made::{ANSWER, COMMON, HEADS, IMAGE, MADE_LEN, OWN, own_part, put_word, start_part, waits, word_at};
use crate::plain::moved;

pub fn economies() -> Vec<Economy> {
    let granted = [with_other_shares(), with_other_costs(), with_former_costs(), that_give_back()];
    let short = [with_other_tests(), with_other_words(), of_other_heads(), in_other_orders()];
    let refused = [that_take_anyway(), behind_twenty(), with_other_numbers()];
    granted.into_iter().chain(short).chain(refused).flatten().collect()
}

/// The own and the common sweeps, and those of the image.
#[derive(Clone, Copy)]
struct Sweeps {
    own: u32,
    common: u32,
    cost: u32,
}

impl Sweeps {
    fn falls_short(self) -> bool {
        u64::from(self.own) + u64::from(self.common) < u64::from(self.cost)
    }

    /// What is left by the paper, or 0 where it falls short.
    fn paid(self) -> [u32; 2] {
        let of_common = self.cost.saturating_sub(self.own);
        [self.own.saturating_sub(self.cost), self.common.saturating_sub(of_common)]
    }

    fn settled(self) -> Option<[u32; 2]> {
        (!self.falls_short()).then(|| self.paid())
    }
}

/// Those before the call.
fn sweeps(done: &Done) -> Sweeps {
    Sweeps { own: done.was(OWN[done.head]), common: done.was(COMMON), cost: done.was(IMAGE + 20) }
}

/// A drive that settles an ask, all else of which is tested, by a rule of its own: own and common sweeps are then these,
/// or it is 20.
fn settles(name: &str, rule: impl Fn(&Done, Sweeps) -> Option<[u32; 2]> + 'static) -> Economy {
    lazy(name, move |done| {
        if !is_settled(done) {
            return done.number;
        }
        let left = rule(done, sweeps(done));
        settle(done, left)
    })
}

/// Is it an ask that passes all checks before 20?
fn is_settled(done: &Done) -> bool {
    done.kind == Kind::Ask && matches!(done.number, 0 | 20)
}

fn settle(done: &mut Done, left: Option<[u32; 2]>) -> Number {
    let Some([own, common]) = left else {
        return done.refuse(20);
    };
    grant(done);
    done.put(OWN[done.head], own);
    done.put(COMMON, common);
    0
}

/// Grants the ask as if there were sweeps enough.
fn grant(done: &mut Done) {
    let head = done.head;
    done.again(|made| put_word(made, OWN[head], u32::MAX));
}

/// The same, where the right asks are turned down.
fn pays(name: &str, pay: fn(Sweeps) -> [u32; 2]) -> Economy {
    settles(name, move |_, sweeps| (!sweeps.falls_short()).then(|| pay(sweeps)))
}

fn with_other_shares() -> Vec<Economy> {
    vec![
        pays("takes common sweeps before its own", |Sweeps { own, common, cost }| {
            let of_common = common.min(cost);
            [own - (cost - of_common), common - of_common]
        }),
        pays("takes common sweeps alone where its own fall short", |Sweeps { own, common, cost }| {
            if own < cost { [own, common.saturating_sub(cost)] } else { [own - cost, common] }
        }),
        pays("takes common sweeps alone where they suffice", |Sweeps { own, common, cost }| {
            if common < cost { Sweeps { own, common, cost }.paid() } else { [own, common - cost] }
        }),
        pays("takes its own sweeps alone", |Sweeps { own, common, cost }| [own.saturating_sub(cost), common]),
        pays("takes nothing of its own", |Sweeps { own, common, cost }| [own, common.saturating_sub(cost)]),
        pays("takes what falls short from both", |Sweeps { own, common, cost }| {
            if own < cost { [0, common.saturating_sub(cost)] } else { [own - cost, common] }
        }),
        pays("takes all of its own with one ask", |sweeps| [0, sweeps.paid()[1]]),
        pays("takes all that is common with one ask", |sweeps| [sweeps.paid()[0], 0]),
    ]
}

/// A drive for which an ask costs something else.
fn costs(name: &str, cost: fn(&Done, u32) -> u32) -> Economy {
    settles(name, move |done, sweeps| Sweeps { cost: cost(done, sweeps.cost), ..sweeps }.settled())
}

fn with_other_costs() -> Vec<Economy> {
    vec![
        pays("grants asks for nothing", |Sweeps { own, common, .. }| [own, common]),
        pays("takes one sweep for an ask", |sweeps| Sweeps { cost: 1, ..sweeps }.paid()),
        costs("has asks cost one sweep", |_, _| 1),
        costs("has asks cost the most sweeps", |_, _| 400),
        costs("has asks cost one sweep more", |_, cost| cost + 1),
        costs("has asks cost one sweep less", |_, cost| cost - 1),
        costs("has asks cost a sweep for each command", |done, _| done.sizes().commands() as u32),
        costs("has asks cost their sweeps for each command", |done, cost| cost * done.sizes().commands() as u32),
        costs("has asks cost their sweeps for each step", |done, cost| cost * done.sizes().steps as u32),
        costs("has asks cost their sweeps' last byte", |_, cost| cost & 0xFF),
        costs("has an ask cost nothing that replaces an answer", |done, cost| if done.waited() { 0 } else { cost }),
        costs("has an ask cost nothing whose answer is the last one", |done, cost| {
            let last = done.number == 0 && done.before[ANSWER[done.head]..].starts_with(done.out);
            if last { 0 } else { cost }
        }),
        costs(
            "has an ask cost twice that replaces an answer",
            |done, cost| if done.waited() { 2 * cost } else { cost },
        ),
        costs("has an ask cost twice behind a commit", |done, cost| {
            if done.start().iter().any(|&word| word != 0) { 2 * cost } else { cost }
        }),
    ]
}

/// A drive that keeps what an ask costs when such a call is accepted, by the new image or by the old.
fn keeps(name: &str, kind: Kind, of_new: bool) -> Economy {
    let kept = RefCell::new(None);
    lazy(name, move |done| {
        if done.is(kind, 0) {
            *kept.borrow_mut() = Some(word_at(if of_new { done.made } else { done.before }, IMAGE + 20));
        }
        match *kept.borrow() {
            Some(cost) if is_settled(done) => {
                let left = Sweeps { cost, ..sweeps(done) }.settled();
                settle(done, left)
            }
            _ => done.number,
        }
    })
}

/// The sweeps of an image that is held no more.
fn with_former_costs() -> Vec<Economy> {
    vec![
        keeps("has asks cost the sweeps of the image that was made", Kind::Make, true),
        keeps("has asks cost the sweeps of the image before", Kind::NewImage, false),
        keeps("has asks cost the sweeps of the image when the period began", Kind::Period, true),
    ]
}

/// Sweeps that come back.
fn that_give_back() -> Vec<Economy> {
    fn give(done: &mut Done) {
        let word = done.was(OWN[done.head]).wrapping_add(done.was(IMAGE + 20));
        done.put(OWN[done.head], word);
    }
    vec![
        behind("gives the sweeps back with a commit", Kind::Commit, give),
        behind("takes sweeps with a commit too", Kind::Commit, |done| {
            let [own, common] = sweeps(done).paid();
            done.put(OWN[done.head], own);
            done.put(COMMON, common);
        }),
        behind("gives the share back with a commit", Kind::Commit, |done| {
            let share = (0..done.heads()).map(|head| done.was(OWN[head])).max();
            done.put(OWN[done.head], share.unwrap_or(0));
        }),
        refused("gives the sweeps back with a refused commit", Kind::Commit, &[18], give),
    ]
}

/// A drive that turns asks down by another test, and takes of a granted one what there is.
fn tests(name: &str, falls_short: fn(Sweeps) -> bool) -> Economy {
    settles(name, move |_, sweeps| (!falls_short(sweeps)).then(|| sweeps.paid()))
}

fn with_other_tests() -> Vec<Economy> {
    vec![
        tests("says 20 where its own alone fall short", |sweeps| sweeps.own < sweeps.cost),
        tests("says 20 where the common ones alone fall short", |sweeps| sweeps.common < sweeps.cost),
        tests("says 20 where either falls short", |sweeps| sweeps.own.min(sweeps.common) < sweeps.cost),
        tests("says 20 where both fall short", |sweeps| sweeps.own.max(sweeps.common) < sweeps.cost),
        tests("says 20 where they are just enough", |Sweeps { own, common, cost }| {
            u64::from(own) + u64::from(common) <= u64::from(cost)
        }),
        tests("says 20 where its own are just enough", |sweeps| sweeps.falls_short() || sweeps.own == sweeps.cost),
        tests("grants an ask that is 1 short", |sweeps| Sweeps { cost: sweeps.cost - 1, ..sweeps }.falls_short()),
        tests("says 20 where nothing is left alone", |Sweeps { own, common, .. }| own == 0 && common == 0),
        tests("says 20 where nothing of its own is left", |sweeps| sweeps.falls_short() || sweeps.own == 0),
        tests("says 20 where nothing common is left", |sweeps| sweeps.falls_short() || sweeps.common == 0),
        tests("says 20 where its own is not all or nothing", |Sweeps { own, common, cost }| {
            own < cost && (own > 0 || common < cost)
        }),
        tests("says 20 never", |_| false),
        tests("says 20 always", |_| true),
        settles("says 20 while an answer waits", |done, sweeps| if done.waited() { None } else { sweeps.settled() }),
        settles("grants every ask that replaces an answer", |done, sweeps| {
            if done.waited() { Some(sweeps.paid()) } else { sweeps.settled() }
        }),
    ]
}

/// Words in fewer bits, or signed.
fn with_other_words() -> Vec<Economy> {
    vec![
        tests("cuts the sum of own and common sweeps", |Sweeps { own, common, cost }| own.wrapping_add(common) < cost),
        tests("takes own sweeps for signed", |sweeps| {
            Sweeps { own: (sweeps.own as i32).max(0) as u32, ..sweeps }.falls_short()
        }),
        tests("takes common sweeps for signed", |sweeps| {
            Sweeps { common: (sweeps.common as i32).max(0) as u32, ..sweeps }.falls_short()
        }),
        tests("adds own and common sweeps signed", |Sweeps { own, common, cost }| {
            (own.wrapping_add(common) as i32) < cost as i32
        }),
        tests("takes the last two bytes of own sweeps", |sweeps| {
            Sweeps { own: sweeps.own & 0xFFFF, ..sweeps }.falls_short()
        }),
        tests("takes the last two bytes of common sweeps", |sweeps| {
            Sweeps { common: sweeps.common & 0xFFFF, ..sweeps }.falls_short()
        }),
        tests("takes the last byte of own sweeps", |sweeps| Sweeps { own: sweeps.own & 0xFF, ..sweeps }.falls_short()),
    ]
}

/// What others have, or at some heads alone.
fn of_other_heads() -> Vec<Economy> {
    /// A drive that turns down the asks of these heads alone.
    fn turns_down(name: &str, heads: fn(usize) -> bool) -> Economy {
        settles(name, move |done, sweeps| if heads(done.head) { sweeps.settled() } else { Some(sweeps.paid()) })
    }
    vec![
        turns_down("says 20 to head 0 alone", |head| head == 0),
        turns_down("says 20 to the first two heads alone", |head| head < 2),
        turns_down("says 20 to the last two heads alone", |head| head > 1),
        turns_down("says 20 to all but head 3", |head| head < 3),
        settles("says 20 where all heads together fall short", |done, sweeps| {
            let all: u64 = OWN.iter().map(|&at| u64::from(done.was(at))).sum();
            let short = all + u64::from(sweeps.common) < u64::from(sweeps.cost);
            (!short).then(|| sweeps.paid())
        }),
        settles("says 20 where another falls short", |done, sweeps| {
            let other = Sweeps { own: done.was(OWN[done.other]), ..sweeps };
            if other.falls_short() { None } else { sweeps.settled() }
        }),
        settles("counts the other's share for its own", |done, sweeps| {
            let other = Sweeps { own: done.was(OWN[done.other]), ..sweeps };
            if other.falls_short() { None } else { Some(sweeps.paid()) }
        }),
        behind("takes the sweeps of head 0 always", Kind::Ask, |done| {
            let old = done.was(OWN[done.head]);
            done.put(OWN[done.head], old);
            let left = done.was(OWN[0]).saturating_sub(done.was(IMAGE + 20));
            done.put(OWN[0], left);
        }),
        behind("takes the sweeps of every head", Kind::Ask, |done| {
            for at in OWN {
                let left = done.was(at).saturating_sub(done.was(IMAGE + 20));
                done.put(at, left);
            }
        }),
    ]
}

/// A drive that tests 20 before these numbers.
fn earlier(name: &str, numbers: &'static [Number]) -> Economy {
    at(name, Kind::Ask, numbers, |done| {
        let made = done.before.len() == MADE_LEN && done.head < done.heads();
        if made && sweeps(done).falls_short() { 20 } else { done.number }
    })
}

fn in_other_orders() -> Vec<Economy> {
    vec![
        earlier("tests 20 before an ask's length", &[15]),
        earlier("tests 20 before 14", &[14]),
        earlier("tests 20 before 16", &[16]),
        earlier("tests 20 before 13", &[13]),
        earlier("tests 20 before the tables", &TABLE_NUMBERS),
        earlier("tests 20 before the held image", IMAGE_NUMBERS),
        earlier("tests 20 before the sizes", &[3]),
    ]
}

/// Sweeps that a refused ask takes.
fn that_take_anyway() -> Vec<Economy> {
    fn take(done: &mut Done) {
        if done.head < done.heads() {
            let [own, common] = sweeps(done).paid();
            done.put(OWN[done.head], own);
            done.put(COMMON, common);
        }
    }
    vec![
        refused("takes sweeps with 13", Kind::Ask, &[13], take),
        refused("takes sweeps with 16", Kind::Ask, &[16], take),
        refused("takes sweeps with an ask's 15", Kind::Ask, &[15], take),
        refused("takes what is left with 20", Kind::Ask, &[20], take),
        refused("takes what is left of its own with 20", Kind::Ask, &[20], |done| done.put(OWN[done.head], 0)),
        refused("takes what is common with 20", Kind::Ask, &[20], |done| done.put(COMMON, 0)),
        refused("moves its share to the common part with 20", Kind::Ask, &[20], |done| {
            let common = done.was(COMMON).wrapping_add(done.was(OWN[done.head]));
            done.put(OWN[done.head], 0);
            done.put(COMMON, common);
        }),
    ]
}

/// What else is written with 20.
fn behind_twenty() -> Vec<Economy> {
    fn twenty(name: &str, spoil: fn(&mut Done)) -> Economy {
        refused(name, Kind::Ask, &[20], spoil)
    }
    vec![
        twenty("uses up the waiting answer with 20", |done| done.put_waits(0)),
        twenty("uses up every answer with 20", clear_answers),
        twenty("lets the last answer wait with 20", |done| done.put_waits(1)),
        twenty("writes the answer with 20", |done| {
            grant(done);
            done.refuse(20);
        }),
        twenty("lets the answer wait with 20", |done| {
            let out = done.out.to_vec();
            grant(done);
            done.out.copy_from_slice(&out);
            (0..HEADS).for_each(|head| done.keep(own_part(head)));
        }),
        twenty("commits with 20", |done| {
            if waits(done.before, done.head) {
                let start = moved(&done.sizes(), &done.commands());
                done.put_start(&start);
            }
        }),
        twenty("zeroes the start with 20", |done| {
            let start = start_part(done.head, &done.sizes());
            done.made[start].fill(0);
        }),
    ]
}

fn with_other_numbers() -> Vec<Economy> {
    fn says(name: &str, spoil: fn(&mut Done) -> Number) -> Economy {
        at(name, Kind::Ask, &[20], spoil)
    }
    vec![
        says("says 15 for 20", |_| 15),
        says("says 18 for 20", |_| 18),
        says("says 19 for 20", |_| 19),
        says("says 3 for 20", |_| 3),
        says("says 13 for 20", |_| 13),
        says("says nothing for 20", |_| 0),
    ]
}
