//! The cases of request 11: scripts of one to four heads' calls, with sweeps that do not always suffice. From zero S
//! answers −10, −15, −18, −19, −20 for state 10 with 1 to 5 sweeps, and without a commit it does so again.

use super::heads::no_head_numbers;
use super::made::refused_images;
use super::script::Script;
use super::{motors_and_steps, sample};
use crate::image::{COST, words};
use crate::made::{ANSWER, COMMON, COUNT, IMAGE, MADE_LEN, OWN, START, WAITS};

pub fn scripts() -> Vec<Script> {
    let periods = [before_the_first(), dealt(), lapsing(), by_answers(), large()];
    let asks = [remainders(), own_first(), within_own(), costs(), other_costs(), nothing_taken(), behind_all_checks()];
    let dones = [dones(), done_twice(), done_and_more()];
    let heads = [counts(), no_makes(), heads_made(), behind_the_length(), four_heads(), in_bytes()];
    let images = [nineteen(), new_images(), makes(), two_drives()];
    let damaged = [damaged_counts(), damaged_periods(), damaged_images(), damaged_sweeps(), damaged_dones()];
    let all = periods.into_iter().chain(asks).chain(dones).chain(heads).chain(images).chain(damaged);
    all.flatten().collect()
}

/// A drive of S with 3 sweeps, in a period.
fn s(name: &str, heads: u32, sweeps: u16) -> Script {
    Script::with(name, heads, &sample()).period(sweeps)
}

/// The next ask of each of these heads, from zero, for 3 sweeps.
fn asks(script: Script, heads: &[u32]) -> Script {
    heads.iter().fold(script, |script, &head| script.head(head).ask(&[10], &[-18, 3], 2))
}

/// Each of these heads falls short.
fn no_asks(script: Script, heads: &[u32]) -> Script {
    heads.iter().fold(script, |script, &head| script.head(head).no_ask(&[10], 20))
}

/// All are 0, and no ask is granted.
fn before_the_first() -> Vec<Script> {
    let of = |name: &str, heads: u32| Script::with(name, heads, &sample()).left(0, &vec![0; heads as usize]);
    vec![
        no_asks(of("before the first period, one head", 1), &[0]).period(3).ask(&[10], &[-18, 3], 2).no_ask(&[10], 20),
        no_asks(of("before the first period", 2), &[0, 1, 0]).no_commit(18).period(6).left(0, &[3, 3]),
        asks(no_asks(of("before the first period, four heads", 4), &[3, 2, 1, 0]).period(12), &[0, 1, 2, 3]),
        no_asks(of("a done before the first period", 2).done().left(0, &[0, 0]), &[0, 1]),
        // One sweep is more than none.
        Script::with("one sweep", 1, &sample().iterations(1)).no_ask(&[10], 20).period(1).ask(&[10], &[-10, 1], 10),
        no_asks(s("S 0", 2, 0).left(0, &[0, 0]), &[0, 1]),
        no_asks(asks(s("S 0 behind another", 2, 9), &[0, 1]).period(0).left(0, &[0, 0]), &[1, 0])
            .commit(&[-18], &[-18]),
    ]
}

/// S divided by the number of heads, rounded down, and the remainder.
fn dealt() -> Vec<Script> {
    let of = |heads: u32, sweeps: u16, common: i64, own: i64| {
        let name = format!("{sweeps} sweeps for {heads} heads");
        s(&name, heads, sweeps).left(common, &vec![own; heads as usize])
    };
    let of_one = [(1, 0, 1), (7, 0, 7), (256, 0, 256), (65535, 0, 65535)].map(|(s, common, own)| of(1, s, common, own));
    let of_two = [(1, 1, 0), (2, 0, 1), (7, 1, 3), (255, 1, 127), (257, 1, 128), (32768, 0, 16384), (65535, 1, 32767)];
    let of_three = [(1, 1, 0), (2, 2, 0), (3, 0, 1), (7, 1, 2), (8, 2, 2), (65534, 2, 21844), (65535, 0, 21845)];
    let of_four =
        [(1, 1, 0), (3, 3, 0), (4, 0, 1), (5, 1, 1), (6, 2, 1), (7, 3, 1), (65532, 0, 16383), (65535, 3, 16383)];
    let all = of_one.into_iter().chain(of_two.map(|(s, common, own)| of(2, s, common, own)));
    let all = all.chain(of_three.map(|(s, common, own)| of(3, s, common, own)));
    all.chain(of_four.map(|(s, common, own)| of(4, s, common, own))).collect()
}

/// What was left of the earlier period is gone, and what waits stays.
fn lapsing() -> Vec<Script> {
    vec![
        asks(s("S lapses unused", 2, 7).period(5).left(1, &[2, 2]), &[0]).left(0, &[0, 2]).head(1).no_ask(&[10], 20),
        asks(s("S lapses half used", 2, 9), &[0]).left(1, &[1, 4]).period(6).left(0, &[3, 3]).no_ask(&[11], 13),
        no_asks(s("every share lapses", 4, 65535).period(3).period(2).left(2, &[0; 4]), &[0, 1, 2, 3]),
        no_asks(s("the common part lapses", 4, 3).left(3, &[0; 4]).period(0).left(0, &[0; 4]), &[3, 2, 1, 0]),
        no_asks(s("what a done moved lapses", 2, 8).done().left(4, &[0, 4]).period(4).left(0, &[2, 2]), &[0, 1]),
        // Twice the same S, used up and then again.
        no_asks(asks(no_asks(asks(s("again", 2, 6), &[0, 1]), &[0, 1]).period(6).left(0, &[3, 3]), &[1, 0]), &[0, 1]),
        // From −18 it is −20 at once.
        asks(s("answers and starts stay", 2, 6), &[0])
            .period(6)
            .commit(&[-18], &[-18])
            .period(6)
            .start(&[-18])
            .ask(&[10], &[-20, 3], 0)
            .left(0, &[0, 3])
            .period(0)
            .commit(&[-20], &[-20]),
        s("a period of another length", 2, 6)
            .no_period(9, 15)
            .length(MADE_LEN - 1)
            .no_period(9, 15)
            .length(MADE_LEN + 1)
            .no_period(9, 15)
            .length(0)
            .no_period(9, 15)
            .length(2688)
            .left(0, &[3, 3]),
    ]
}

/// How many asks of 3 sweeps each head is granted, by the numbers alone.
fn by_answers() -> Vec<Script> {
    vec![
        no_asks(asks(s("3 for one head", 1, 3), &[0]), &[0]),
        no_asks(asks(s("8 for one head", 1, 8), &[0, 0]), &[0]),
        no_asks(asks(s("6 for two heads", 2, 6), &[1, 0]), &[0, 1]),
        no_asks(asks(s("15 for two heads", 2, 15), &[0, 0, 1, 1]), &[0, 1]),
        no_asks(asks(s("9 for three heads", 3, 9), &[2, 0, 1]), &[0, 1, 2]),
        no_asks(asks(s("12 for four heads", 4, 12), &[3, 1, 0, 2]), &[0, 1, 2, 3]),
        no_asks(asks(s("12 for four heads, one head", 4, 12), &[2]), &[2]),
    ]
}

/// Beyond 8 bits, and beyond 15.
fn large() -> Vec<Script> {
    vec![
        asks(s("256 for two heads", 2, 256), &[0, 1]),
        asks(s("512 for one head", 1, 512), &[0]).left(0, &[509]),
        asks(s("32768 for two heads", 2, 32768), &[1, 0]).left(0, &[16381, 16381]),
        asks(s("65280 for three heads", 3, 65280), &[2, 1, 0]).left(0, &[21757; 3]),
        asks(s("the most for one head", 1, 65535), &[0, 0]).left(0, &[65529]),
        asks(s("the most for four heads", 4, 65535), &[3, 2, 3]).left(3, &[16383, 16383, 16380, 16377]),
    ]
}

/// The remainder decides.
fn remainders() -> Vec<Script> {
    vec![
        // 2 of its own and 1 of the common part; the next is 1 short.
        no_asks(asks(s("7 for three heads", 3, 7).left(1, &[2, 2, 2]), &[0]).left(0, &[0, 2, 2]), &[1, 2, 0]),
        no_asks(asks(s("8 for three heads", 3, 8), &[1, 2]).left(0, &[2, 0, 0]), &[0, 1]).left(0, &[2, 0, 0]),
        no_asks(s("6 for three heads", 3, 6).left(0, &[2, 2, 2]), &[0, 1, 2]).left(0, &[2, 2, 2]),
        no_asks(asks(s("11 for four heads", 4, 11), &[3, 0, 2]).left(0, &[0, 2, 0, 0]), &[1]),
        no_asks(asks(s("3 for four heads", 4, 3), &[2]).left(0, &[0; 4]), &[0, 1, 2, 3]),
        no_asks(asks(s("5 for two heads", 2, 5), &[1]).left(0, &[2, 0]), &[0]),
        // 1 and 2, and 1 is left.
        no_asks(asks(s("7 for four heads", 4, 7), &[1]).left(1, &[1, 0, 1, 1]), &[0, 1, 2, 3]),
    ]
}

/// Its own share first and then the common part. An ask costs 2: −15.
fn own_first() -> Vec<Script> {
    let two = sample().iterations(2);
    let of = |name: &str, heads: u32, sweeps: u16| Script::with(name, heads, &two).period(sweeps);
    let ask = |script: Script, head: u32| script.head(head).ask(&[10], &[-15, 2], 5);
    let common = ask(of("the common part is left for the other", 2, 7).left(1, &[3, 3]), 0).left(1, &[1, 3]);
    let common = ask(ask(common, 1).left(1, &[1, 1]), 1).left(0, &[1, 0]);
    let last = ask(ask(of("own, then both, then none", 2, 7), 0).left(1, &[1, 3]), 0).left(0, &[0, 3]);
    let alone = ask(of("common sweeps alone", 3, 2).left(2, &[0; 3]), 2).left(0, &[0; 3]);
    vec![
        common.head(0).no_ask(&[10], 20).head(1).no_ask(&[10], 20),
        ask(last.no_ask(&[10], 20), 1).left(0, &[0, 1]),
        alone.no_ask(&[10], 20).head(0).no_ask(&[10], 20),
    ]
}

/// What others do with their shares and the common part does not turn down an ask within a head's own.
fn within_own() -> Vec<Script> {
    let others = asks(s("its own is left to each", 4, 13), &[0, 1]).left(1, &[0, 0, 3, 3]);
    let others = no_asks(others, &[0, 1, 0]).head(1).done().left(1, &[0, 0, 3, 3]);
    let others = asks(others.head(2).done().left(4, &[0, 0, 0, 3]), &[0]).left(1, &[0, 0, 0, 3]);
    let used = asks(s("all but its own is used", 3, 11), &[0]).left(2, &[0, 3, 3]).head(1).done().left(5, &[0, 0, 3]);
    vec![
        no_asks(asks(no_asks(others, &[0, 1, 2]), &[3]), &[3]).left(1, &[0; 4]),
        asks(no_asks(asks(used, &[1]).left(2, &[0, 0, 3]), &[0, 1]), &[2]).left(2, &[0; 3]),
        // The last of its own, beside a common part that would do.
        asks(s("from its own beside a common part", 2, 12).done().left(6, &[0, 6]), &[1, 1]).left(6, &[0, 0]),
    ]
}

/// Every ask that is granted, be it asked again or committed, or used up with a later period.
fn costs() -> Vec<Script> {
    vec![
        asks(s("an ask that replaces another", 2, 14), &[0, 0]).left(0, &[1, 7]).no_ask(&[10], 20),
        asks(s("a commit costs nothing", 2, 14), &[0])
            .left(0, &[4, 7])
            .commit(&[-18], &[-18])
            .left(0, &[4, 7])
            .ask(&[10], &[-20, 3], 0)
            .left(0, &[1, 7])
            .commit(&[-20], &[-20])
            .no_ask(&[10], 20),
        asks(s("a refused commit gives nothing back", 2, 6), &[0])
            .no_commit(15)
            .room(8)
            .commit(&[-18], &[-18])
            .no_commit(18)
            .left(0, &[0, 3])
            .no_ask(&[10], 20),
        Script::with("four commands of 3 sweeps", 2, &motors_and_steps())
            .period(6)
            .ask(&[10], &super::made::FOUR_ASKED, 2)
            .left(0, &[0, 3])
            .no_ask(&[10], 20),
        Script::with("the most sweeps", 1, &sample().iterations(400))
            .period(799)
            .ask(&[10], &[-20, 3], 0)
            .left(0, &[399])
            .no_ask(&[10], 20)
            .period(800)
            .ask(&[10], &[-20, 3], 0)
            .ask(&[10], &[-20, 3], 0)
            .left(0, &[0]),
        // At rest long before.
        Script::with("more sweeps than a byte", 2, &sample().iterations(300))
            .period(601)
            .ask(&[10], &[-20, 3], 0)
            .left(1, &[0, 300])
            .period(598)
            .no_ask(&[10], 20),
    ]
}

/// An ask costs the sweeps of the image that is held: with 1, 4 and 5 sweeps −10, −19 and −20.
fn other_costs() -> Vec<Script> {
    let of = |iterations: usize| sample().iterations(iterations);
    vec![
        asks(s("other sweeps in a period", 2, 8), &[0])
            .commit(&[-18], &[-18])
            .left(0, &[1, 4])
            .new_image(&of(1))
            .left(0, &[1, 4])
            .ask(&[10], &[-10, 1], 10)
            .left(0, &[0, 4])
            .no_ask(&[10], 20)
            .commit(&[-10], &[-10])
            .new_image(&of(5))
            .head(1)
            .no_ask(&[10], 20)
            .new_image(&of(4))
            .ask(&[10], &[-19, 3], 1)
            .left(0, &[0, 0]),
        Script::with("a cheaper image", 1, &of(5))
            .period(4)
            .no_ask(&[10], 20)
            .new_image(&of(4))
            .ask(&[10], &[-19, 3], 1)
            .left(0, &[0]),
        Script::with("a dearer image", 1, &of(4)).period(4).new_image(&of(5)).no_ask(&[10], 20).left(0, &[4]),
        Script::with("a dearer drive", 1, &of(4))
            .period(4)
            .make_of(1, &of(5))
            .period(4)
            .no_ask(&[10], 20)
            .period(5)
            .ask(&[10], &[-20, 3], 0),
    ]
}

/// A refused ask costs nothing, one for want of sweeps included.
fn nothing_taken() -> Vec<Script> {
    let refused = s("refused asks cost nothing", 2, 7).no_ask(&[11], 13).left(1, &[3, 3]).no_ask(&[10], 16).to(&[0]);
    let refused = refused.left(1, &[3, 3]).no_ask(&[10], 15).room(8).no_ask(&[10], 15).length(0).left(1, &[3, 3]);
    let refused = refused.head(2).no_ask(&[10], 3).head(4).no_ask(&[10], 3).left(1, &[3, 3]);
    let dear = Script::with("20 costs nothing", 2, &sample().iterations(4)).period(5);
    vec![
        no_asks(asks(refused, &[0, 1]), &[0, 1]),
        // What was there is enough for less.
        asks(no_asks(dear, &[0, 1, 0]).left(1, &[2, 2]).new_image(&sample()), &[1]).left(0, &[2, 0]),
        // The answer that waits is the earlier one, from the earlier start.
        asks(s("20 while an answer waits", 2, 6), &[0])
            .no_ask(&[-10], 20)
            .start(&[0])
            .commit(&[-18], &[-18])
            .no_ask(&[-10], 20)
            .no_commit(18)
            .start(&[-18])
            .period(6)
            .ask(&[10], &[-20, 3], 0),
        no_asks(s("20 lets no answer wait", 2, 4), &[0]).no_commit(18).new_image(&sample()),
        no_asks(asks(s("20 beside another's answer", 2, 6), &[1]), &[1]).head(1).commit(&[-18], &[-18]),
        no_asks(s("20 leaves its share to a done", 2, 4), &[0])
            .done()
            .left(2, &[0, 2])
            .head(1)
            .done()
            .ask(&[10], &[-18, 3], 2)
            .left(1, &[0, 0]),
    ]
}

/// 20 is the last number of all.
fn behind_all_checks() -> Vec<Script> {
    let none = |name: &str| s(name, 2, 0);
    let image = IMAGE + 32;
    vec![
        none("20 behind 13, 16 and 15")
            .no_ask(&[11], 13)
            .no_ask(&[10], 16)
            .to(&[0])
            .no_ask(&[10], 15)
            .room(8)
            .no_ask(&[10], 15)
            .room(0)
            .no_ask(&[10], 20),
        none("20 behind 14").put_word(START[0], 21).no_ask(&[10], 14).no_ask(&[10], 14).room(0).no_ask(&[11], 13),
        none("20 behind the image").put_word(image, 0).no_ask(&[10], 9).put_word(image, 17).no_ask(&[10], 10),
        none("20 behind its sizes")
            .put_word(IMAGE + 20, 401)
            .no_ask(&[10], 3)
            .put_word(IMAGE + 20, 400)
            .no_ask(&[10], 20),
        none("20 behind its length").put_word(0, 52).no_ask(&[10], 6).put_word(0, 56).no_ask(&[10], 20),
        none("20 behind the drive's length").no_ask(&[10], 15).length(MADE_LEN - 1).no_ask(&[10], 15).length(2688),
        none("20 behind the head").head(4).no_ask(&[10], 3).head(2).no_ask(&[10], 3).head(3).no_ask(&[10], 3),
        no_asks(s("for want of 1 behind 13", 1, 2).no_ask(&[11], 13).no_ask(&[10], 15).room(15), &[0]),
    ]
}

/// The unused share moves to the common part.
fn dones() -> Vec<Script> {
    let short = no_asks(asks(s("a done makes an ask possible", 2, 7), &[0]).left(1, &[0, 3]), &[0]);
    let part = asks(s("a done with a part of its share", 2, 9), &[0]).left(1, &[1, 4]).done().left(2, &[0, 4]);
    let three = s("dones of two", 3, 8).head(2).done().left(4, &[2, 2, 0]).head(1).done().left(6, &[2, 0, 0]);
    vec![
        no_asks(asks(short.head(1).done().left(4, &[0, 0]), &[0]).left(1, &[0, 0]), &[0, 1]),
        no_asks(part, &[0]).head(1).ask(&[10], &[-18, 3], 2).left(2, &[0, 1]).ask(&[10], &[-18, 3], 2).left(0, &[0, 0]),
        no_asks(asks(three, &[0]).left(5, &[0; 3]).head(0).ask(&[10], &[-18, 3], 2).left(2, &[0; 3]), &[0, 1, 2]),
        // A done head may ask for what is common.
        no_asks(asks(s("an ask of a done head", 2, 7).done().left(4, &[0, 3]), &[0]).left(1, &[0, 3]), &[0]),
        no_asks(
            asks(s("all are done", 2, 8).done().head(1).done().left(8, &[0, 0]), &[0, 1]).left(2, &[0, 0]),
            &[0, 1],
        ),
        asks(s("the done of the only head", 1, 4).done().left(4, &[0]), &[0]).left(1, &[0]).done().left(1, &[0]),
        no_asks(asks(s("a done without a share", 2, 6), &[0]).done().left(0, &[0, 3]), &[0]),
        // The whole share, and not what was used of it too.
        no_asks(asks(s("a done behind two asks", 2, 13), &[0, 0]).left(1, &[0, 6]).done().left(1, &[0, 6]), &[0]),
    ]
}

/// A second done has nothing to move.
fn done_twice() -> Vec<Script> {
    vec![
        no_asks(asks(s("done twice", 2, 8).done().left(4, &[0, 4]).done().left(4, &[0, 4]), &[0]), &[0])
            .left(1, &[0, 4]),
        asks(s("done, asked and done", 2, 8).done(), &[0]).done().left(1, &[0, 4]).no_ask(&[10], 20),
        // It owns its share again.
        asks(s("done, and the next period", 2, 6).done().left(3, &[0, 3]).period(6).left(0, &[3, 3]), &[0, 1]),
        no_asks(asks(s("done in each period", 2, 6).done().period(6).done().left(3, &[0, 3]), &[1, 0]), &[0, 1]),
        asks(s("done, and a period for another", 4, 12).head(3).done().head(2).done().period(12), &[0, 1, 2, 3]),
    ]
}

/// Answers and starts stay with a done, and its numbers.
fn done_and_more() -> Vec<Script> {
    let wait =
        asks(s("a done while answers wait", 2, 6), &[0, 1]).done().head(0).done().no_new_image(&sample().image(), 19);
    let length = |script: Script, length: usize| script.no_done(15).length(length);
    let lengths = [0, 1, 2484, 2688, COUNT, COMMON, MADE_LEN - 1, MADE_LEN + 1].into_iter();
    let none = no_head_numbers().fold(s("dones of other heads", 2, 7), |script, head| {
        script.head(head).no_done(3).no_done(3).length(0).left(1, &[3, 3])
    });
    vec![
        wait.commit(&[-18], &[-18]).head(1).commit(&[-18], &[-18]).no_commit(18),
        asks(s("a done behind a commit", 2, 12), &[0])
            .commit(&[-18], &[-18])
            .done()
            .start(&[-18])
            .ask(&[10], &[-20, 3], 0)
            .left(0, &[0, 6]),
        lengths.fold(s("dones on another length", 2, 7), length).left(1, &[3, 3]).done().left(4, &[0, 3]),
        none.head(2).no_done(3).head(3).no_done(3).left(1, &[3, 3]),
        // The image is of no concern to it, nor to a period.
        s("a done without an image", 2, 7)
            .put_word(0, 0)
            .done()
            .left(4, &[0, 3])
            .period(4)
            .left(0, &[2, 2])
            .no_ask(&[10], 6),
    ]
}

/// The number of heads is one of the drive, and every head below it is served.
fn counts() -> Vec<Script> {
    (1..=4u32)
        .map(|heads| {
            let script = Script::with(&format!("{heads} heads"), heads, &sample()).period(3 * heads as u16);
            let script = (0..heads).fold(script, |script, head| asks(script, &[head]).commit(&[-18], &[-18]));
            (heads..4).fold(script, |script, head| script.head(head).no_ask(&[10], 3).no_commit(3).no_done(3))
        })
        .collect()
}

/// Numbers of heads that are none, some of which are 1 to 4 in fewer bits: 3, before the image and the drive's length.
fn no_makes() -> Vec<Script> {
    let others =
        [0, 5, 6, 8, 255, 256, 257, 258, 260, 65537, 65540, (1 << 24) + 1, (1 << 31) + 1, u32::MAX - 1, u32::MAX];
    let image = sample().image();
    let of = |script: Script, heads: u32| {
        let script = script.no_make(&image, 3).heads(heads).no_make(&image, 3).heads(heads).length(0);
        refused_images().iter().fold(script, |script, (image, _)| script.no_make(image, 3).heads(heads))
    };
    let made = |heads: u32| {
        let script = refused_images()
            .into_iter()
            .fold(Script::new(&format!("refused images for {heads} heads")), |script, (image, number)| {
                script.no_make(&image, number).heads(heads)
            });
        script.no_make(&image, 15).heads(heads).length(2688).no_make(&image, 15).heads(heads).length(MADE_LEN + 1)
    };
    let used = others.into_iter().fold(asks(s("other numbers of heads", 2, 7), &[0]), of);
    vec![
        no_asks(used.left(1, &[0, 3]).commit(&[-18], &[-18]), &[0]),
        others.into_iter().fold(Script::new("other numbers of heads, and no drive"), of),
        made(1),
        made(3),
        made(4),
    ]
}

/// Head k of a drive of k heads is 3, and behind it nothing else is tested.
fn heads_made() -> Vec<Script> {
    let none = |script: Script, head: u32| {
        let script = script.head(head).no_ask(&[10], 3).no_ask(&[11], 3).to(&[0]).room(0).no_ask(&[10], 3).room(8);
        let script = script.no_ask(&[11], 3).no_ask(&[10], 3).to(&[0]);
        script.no_commit(3).no_commit(3).room(8).no_done(3)
    };
    let of_none = |script: Script, heads: u32| (heads..4).fold(script, none);
    let start = |script: Script, head: usize| script.put_word(START[head], 21).put_word(WAITS[head], 1);
    vec![
        no_asks(asks(of_none(s("a drive of one head", 1, 4), 1), &[0]).left(0, &[1]), &[0]),
        no_asks(asks(of_none(s("a drive of two heads", 2, 7), 2), &[0, 1]).left(1, &[0, 0]), &[0, 1]),
        no_asks(asks(of_none(s("a drive of three heads", 3, 9), 3), &[0, 1, 2]), &[0, 1, 2]),
        of_none(s("3 behind no image", 1, 4).put_word(0, 0), 1).head(0).no_ask(&[10], 6).no_commit(6),
        of_none(s("3 behind no motor", 2, 7).put_word(IMAGE, 0), 2).no_ask(&[10], 3),
        // What is where head 2 would be is nobody's.
        of_none(start(s("3 behind a start beyond its limit", 2, 7), 2), 2).head(0).no_commit(18).new_image(&sample()),
        of_none(Script::with("before the first period, heads that are none", 3, &sample()), 3),
    ]
}

/// By the drive's own number a head is 3 behind the drive's length, and by the most that there can be before it.
fn behind_the_length() -> Vec<Script> {
    let short = |script: Script, head: u32, number: u32| {
        [0, 2484, 2688, COUNT, MADE_LEN - 1, MADE_LEN + 1].into_iter().fold(script.head(head), |script, length| {
            let script = script.no_ask(&[10], number).length(length).no_commit(number).length(length);
            script.no_done(number).length(length)
        })
    };
    let one = s("another length, a drive of one head", 1, 4);
    vec![
        short(short(short(short(short(one, 0, 15), 1, 15), 2, 15), 3, 15), 4, 3),
        short(short(short(s("another length, a drive of four heads", 4, 4), 3, 15), 4, 3), u32::MAX, 3),
    ]
}

/// Each has its own start and its own waiting answer, from 17 with h = 0: 8 for 8.5; 4; 2.
fn four_heads() -> Vec<Script> {
    let asked = asks(s("each of four heads", 4, 65535), &[0]).head(1).ask(&[-10], &[17, 3], 3);
    let asked = asked.head(2).ask(&[0], &[0, 3], 0).head(3).ask(&[10], &[-18, 3], 2).ask(&[-10], &[17, 3], 3);
    let started = asked.commit(&[17], &[17]).head(2).commit(&[0], &[0]).no_commit(18).head(0).commit(&[-18], &[-18]);
    let started = started.head(3).ask(&[0], &[2, 3], 2).head(2).ask(&[10], &[-18, 3], 2).head(1).commit(&[17], &[17]);
    let three = asks(s("each of three heads", 3, 18), &[2]).commit(&[-18], &[-18]).no_commit(18);
    vec![
        started.head(3).commit(&[2], &[2]).head(0).ask(&[10], &[-20, 3], 0).head(2).commit(&[-18], &[-18]),
        asks(three, &[0, 1])
            .head(2)
            .ask(&[10], &[-20, 3], 0)
            .head(1)
            .commit(&[-18], &[-18])
            .head(2)
            .commit(&[-20], &[-20]),
    ]
}

/// The whole drive: head 2 at 2688, 2692 and 2756, and head 3 at 2892, 2896 and 2960; the number of heads at 3096, the
/// common sweeps at 3100, and what each head has left from 3104 on.
fn in_bytes() -> Vec<Script> {
    let image: &[i64] = &words(&sample().image());
    let (length, answer, up): (&[i64], &[i64], &[i64]) = (&[56], &[-18, 3, 0, 2], &[17, 3, 0, 3]);
    let with = |script: Script, sweeps: &[i64], parts: &[(usize, &[i64])]| {
        script.whole(&[&[(0, length), (4, image), (3096, sweeps)], parts].concat())
    };
    let script = with(Script::with("the bytes of four heads", 4, &sample()), &[4, 0, 0, 0, 0, 0], &[]).period(23);
    let script = with(script, &[4, 3, 5, 5, 5, 5], &[]).head(3).ask(&[-10], &[17, 3], 3);
    let script = with(script, &[4, 3, 5, 5, 5, 2], &[(2892, &[1]), (2960, up)]).head(2).ask(&[10], &[-18, 3], 2);
    let parts: [(usize, &[i64]); 4] = [(2688, &[1]), (2756, answer), (2892, &[1]), (2960, up)];
    let script = with(script, &[4, 3, 5, 5, 2, 2], &parts).head(3).commit(&[17], &[17]).head(2);
    let parts: [(usize, &[i64]); 4] = [(2688, &[1]), (2756, answer), (2896, &[17]), (2960, up)];
    let script = with(script, &[4, 3, 5, 5, 2, 2], &parts).commit(&[-18], &[-18]).head(0).done();
    let parts: [(usize, &[i64]); 4] = [(2692, &[-18]), (2756, answer), (2896, &[17]), (2960, up)];
    let script = with(script, &[4, 8, 0, 5, 2, 2], &parts).new_image(&sample());
    let script = with(script, &[4, 8, 0, 5, 2, 2], &[]).make_of(3, &sample());
    let three = with(script, &[3, 0, 0, 0, 0, 0], &[]).period(65535);
    vec![with(three, &[3, 0, 21845, 21845, 21845, 0], &[]).fixed()]
}

/// While any head made has a waiting answer.
fn nineteen() -> Vec<Script> {
    let image = sample().image();
    let by = |heads: u32, head: u32| {
        let script = asks(s(&format!("19 by head {head} of {heads}"), heads, 65535), &[head]);
        let script = script.no_new_image(&image, 19).no_new_image(&[], 6).no_new_image(&image, 15).length(2688);
        script.commit(&[-18], &[-18]).new_image(&sample()).ask(&[10], &[-18, 3], 2)
    };
    let all = asks(s("19 by each of four", 4, 65535), &[0, 1, 2, 3]);
    let all = [2, 0, 3]
        .into_iter()
        .fold(all, |script, head| script.head(head).commit(&[-18], &[-18]).no_new_image(&image, 19));
    let mut scripts: Vec<Script> = [(1, 0), (3, 2), (4, 2), (4, 3)].map(|(heads, head)| by(heads, head)).into();
    scripts.push(all.head(1).commit(&[-18], &[-18]).new_image(&sample()));
    // Those that were not made do not count.
    let beyond = s("a waiting word beyond the heads", 2, 6).put_word(WAITS[2], 1).put_word(WAITS[3], 1);
    scripts.push(asks(beyond.new_image(&sample()), &[0, 1]).no_new_image(&image, 19));
    scripts.push(
        s("a waiting word beyond one head", 1, 6).put_word(WAITS[1], 1).new_image(&sample()).head(1).no_commit(3),
    );
    scripts
}

/// Every start is zeros again; the number of heads and the sweeps stay.
fn new_images() -> Vec<Script> {
    let started = |script: Script, heads: u32| {
        (0..heads).fold(script, |script, head| asks(script, &[head]).commit(&[-18], &[-18]))
    };
    let four =
        started(s("a new image for four heads", 4, 27).left(3, &[6; 4]), 4).left(3, &[3; 4]).new_image(&sample());
    let again =
        no_asks(asks(four.left(3, &[3; 4]), &[3, 2, 1, 0]).left(3, &[0; 4]).head(2).ask(&[10], &[-18, 3], 2), &[1]);
    let three = started(s("a new image for three heads", 3, 12), 3).left(0, &[1; 3]).new_image(&sample());
    vec![
        again,
        no_asks(three, &[0, 1, 2]).head(3).no_ask(&[10], 3).period(9).left(0, &[3; 3]).head(2).ask(&[10], &[-18, 3], 2),
        no_asks(s("a new image has no sweeps", 2, 4).new_image(&sample()).left(0, &[2, 2]), &[0, 1]),
        // A share, the common part and what a done moved.
        asks(
            s("a new image leaves all sweeps", 2, 9).done().left(5, &[0, 4]).new_image(&sample()).left(5, &[0, 4]),
            &[0],
        )
        .left(2, &[0, 4]),
        s("a refused new image leaves all sweeps", 2, 9)
            .no_new_image(&[], 6)
            .left(1, &[4, 4])
            .head(1)
            .done()
            .left(5, &[4, 0]),
        no_asks(Script::with("a new image before the first period", 2, &sample()).new_image(&sample()), &[0, 1]),
    ]
}

/// A make in the middle of a period: no sweeps are left, and the number of heads is the new one.
fn makes() -> Vec<Script> {
    let again = |name: &str, old: u32, new: u32| {
        let script = asks(s(name, old, 65535), &[0]).done().make_of(new, &sample()).left(0, &vec![0; new as usize]);
        let script = (0..new).fold(script, |script, head| no_asks(script, &[head]));
        let script = script.period(3 * new as u16).left(0, &vec![3; new as usize]);
        let script = (0..new).fold(script, |script, head| asks(script, &[head]));
        (new..4).fold(script, |script, head| script.head(head).no_ask(&[10], 3))
    };
    let bad = sample().with(COST, &[0]).image();
    vec![
        again("made again with as many heads", 2, 2),
        again("made again with more heads", 2, 4),
        again("made again with fewer heads", 4, 1),
        again("made again with one more", 3, 4),
        again("made again with one less", 4, 3),
        no_asks(asks(s("a refused make leaves the sweeps", 2, 7).no_make(&bad, 9).left(1, &[3, 3]), &[0, 1]), &[0, 1]),
    ]
}

/// Each drive has its own heads and sweeps.
fn two_drives() -> Vec<Script> {
    let both = s("two drives of other heads", 2, 7).on(1).make_of(4, &sample()).left(0, &[0; 4]).no_ask(&[10], 20);
    let both = asks(both.on(0), &[0, 1]).left(1, &[0, 0]).head(2).no_ask(&[10], 3).on(1).no_ask(&[10], 20).period(15);
    let both = asks(both.left(3, &[3; 4]).head(3).done(), &[2]).on(0).left(6, &[3, 3, 0, 0]);
    vec![
        no_asks(both.head(3).no_done(3), &[0, 1]).on(1).ask(&[10], &[-18, 3], 2).left(6, &[3, 0, 0, 0]),
        no_asks(s("a period of another drive", 2, 0).on(1).make_of(2, &sample()).period(65535).on(0), &[0, 1]),
    ]
}

/// Something else writes the number of heads.
fn damaged_counts() -> Vec<Script> {
    let image = sample().image();
    let of = |name: &str, count: i64| s(name, 4, 13).put_word(COUNT, count).fixed();
    let all = |name: &str, count: i64| {
        let script =
            asks(of(name, count), &[0, 1, 2, 3]).left(1, &[0; 4]).no_new_image(&image, 19).head(4).no_ask(&[10], 3);
        let script = script.head(3).commit(&[-18], &[-18]).no_new_image(&image, 19).done().left(1, &[0; 4]);
        script.no_period(9, 3).left(1, &[0; 4])
    };
    let none = (0..4).fold(asks(of("no head by the word", 4), &[0, 3]).put_word(COUNT, 0), |script, head| {
        script.head(head).no_ask(&[10], 3).no_commit(3).no_done(3)
    });
    let fewer =
        asks(of("fewer heads by the word", 2), &[0, 1]).head(2).no_ask(&[10], 3).no_done(3).left(1, &[0, 0, 3, 3]);
    vec![
        all("5 heads by the word", 5),
        all("260 heads by the word", 260),
        all("the most heads by the word", -1),
        all("a word that a sign makes less than 0", i32::MIN.into()),
        // No head waits.
        none.no_period(9, 3).left(1, &[0, 3, 3, 0]).new_image(&sample()).put_word(COUNT, 4).head(0).no_commit(18),
        fewer
            .period(5)
            .left(1, &[2, 2, 3, 3])
            .put_word(COUNT, 3)
            .head(2)
            .ask(&[10], &[-18, 3], 2)
            .left(1, &[2, 2, 0, 3]),
        no_asks(s("more heads by the word", 2, 6).put_word(COUNT, 3).fixed(), &[2])
            .head(3)
            .no_ask(&[10], 3)
            .left(0, &[3, 3, 0]),
    ]
}

/// A period heeds the number of heads, and leaves the words of those that were not made.
fn damaged_periods() -> Vec<Script> {
    let word =
        |name: &str, count: i64| s(name, 2, 6).put_word(COUNT, count).fixed().no_period(9, 3).left(0, &[3, 3, 0, 0]);
    let beyond = s("sweeps of heads not made", 2, 6).put_word(OWN[2], 5).put_word(OWN[3], -1).fixed();
    vec![
        word("a period of no head", 0).no_period(9, 15).length(2688),
        word("a period of 5 heads", 5),
        word("a period of 258 heads", 258),
        word("a period of the most heads", -1),
        beyond
            .period(9)
            .left(1, &[4, 4, 5, -1])
            .done()
            .left(5, &[0, 4, 5, -1])
            .head(2)
            .no_done(3)
            .period(0)
            .left(0, &[0, 0, 5, -1]),
        s("a period of one head by the word", 2, 6)
            .put_word(COUNT, 1)
            .fixed()
            .period(9)
            .left(0, &[9, 3])
            .head(1)
            .no_done(3),
    ]
}

/// A new image reads the waiting words of the heads made, and leaves the sweeps.
fn damaged_images() -> Vec<Script> {
    let image = sample().image();
    vec![
        asks(s("19 with fewer heads by the word", 4, 65535), &[3])
            .put_word(COUNT, 3)
            .fixed()
            .new_image(&sample())
            .no_ask(&[10], 3)
            .put_word(COUNT, 4)
            .no_commit(18),
        s("19 with more heads by the word", 2, 6)
            .put_word(WAITS[3], 1)
            .put_word(COUNT, 4)
            .fixed()
            .no_new_image(&image, 19),
        Script::new("a new image for nothing but zeros")
            .put(0, &[0; MADE_LEN])
            .new_image(&sample())
            .no_ask(&[10], 3)
            .no_period(9, 3)
            .put_word(COUNT, 1)
            .no_ask(&[10], 20)
            .period(3)
            .ask(&[10], &[-18, 3], 2)
            .fixed(),
        s("a new image leaves other words", 2, 6)
            .put_word(COMMON, -1)
            .put_word(OWN[3], -2)
            .put_word(ANSWER[3], 7)
            .fixed()
            .new_image(&sample())
            .left(-1, &[3, 3, 0, -2]),
    ]
}

/// Words of 32 bits, and their sum of 33.
fn damaged_sweeps() -> Vec<Script> {
    let of = |name: &str, own: i64, common: i64| s(name, 2, 6).put_word(OWN[0], own).put_word(COMMON, common);
    let most = i64::from(u32::MAX);
    let half = 1 << 31;
    vec![
        asks(of("own and common beyond 32 bits", 1, most), &[0]).left(most - 2, &[0, 3]),
        asks(of("own and common beyond 32 bits by 1", 2, most), &[0]).left(most - 1, &[0, 3]),
        asks(of("the most of both", most, most), &[0]).left(most, &[most - 3, 3]),
        asks(of("the most of its own", most, 0), &[0]).left(0, &[most - 3, 3]),
        asks(of("the most of the common part", 0, most), &[0]).left(most - 3, &[0, 3]),
        asks(of("half of 32 bits each", half, half), &[0]).left(half, &[half - 3, 3]),
        asks(of("beyond 16 bits of its own", 65536, 0), &[0]).left(0, &[65533, 3]),
        asks(of("beyond 16 bits of the common part", 0, 65536), &[0]).left(65533, &[0, 3]),
        asks(of("together what an ask costs", 1, 2), &[0]).left(0, &[0, 3]),
        no_asks(of("together 1 less", 1, 1), &[0]).left(1, &[1, 3]),
        asks(of("what a period leaves of them", most, most).period(6).left(0, &[3, 3]), &[0, 1]),
    ]
}

/// The last 32 bits of the sum.
fn damaged_dones() -> Vec<Script> {
    let of = |name: &str, own: i64, common: i64| s(name, 2, 6).put_word(OWN[0], own).put_word(COMMON, common).done();
    let most = i64::from(u32::MAX);
    vec![
        no_asks(of("a done beyond 32 bits", most, 2).left(1, &[0, 3]), &[0]),
        no_asks(of("a done at 2^32", most, 1).left(0, &[0, 3]), &[0]),
        asks(of("a done at the end of 32 bits", most - 1, 1).left(most, &[0, 3]), &[0]).left(most - 3, &[0, 3]),
        of("a done of the most and the most", most, most).left(most - 1, &[0, 3]).done().left(most - 1, &[0, 3]),
        of("a done of two halves", 1 << 31, 1 << 31).left(0, &[0, 3]),
        asks(of("a done beyond 16 bits", 65535, 1).left(65536, &[0, 3]), &[0]).left(65533, &[0, 3]),
    ]
}
