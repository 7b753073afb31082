//! The cases of request 10: scripts of both heads' calls, with sweeps enough, and of new images. From zero S answers −18
//! for state 10 and 17 for −10, as in the scripts of request 9; each script is run with the heads exchanged too.

use super::made::{FOUR_ASKED, FOUR_MOVED, ask_largest, commit_largest, largest, refused_images, state_of};
use super::script::Script;
use super::{motors_and_steps, sample, with_target};
use crate::draft::Draft;
use crate::image::{COST, GAIN, words};
use crate::made::{ANSWER, COUNT, IMAGE, MADE_LEN, START, WAITS};

pub fn scripts() -> Vec<Script> {
    let heads = [pen_and_knife(), of_each(), in_turns(), refused_beside(), other_sizes(), in_bytes(), no_heads()];
    let images = [new_images(), other_images(), larger_and_smaller(), counted_starts(), refused_new_images()];
    let waiting = [nineteen(), before_nineteen(), waiting_words(), makes(), two_drives()];
    let damaged = [damaged_heads(), damaged_images()];
    heads.into_iter().chain(images).chain(waiting).chain(damaged).flatten().collect()
}

fn s(name: &str) -> Script {
    Script::of(name, &sample())
}

/// Head 0 waits with −18, and head 1 with 17. The next call is of head 1.
fn both_asked(name: &str) -> Script {
    s(name).ask(&[10], &[-18, 3], 2).head(1).ask(&[-10], &[17, 3], 3)
}

/// Head 0 starts at −18, and head 1 at 17.
fn both_started(name: &str) -> Script {
    both_asked(name).commit(&[17], &[17]).head(0).commit(&[-18], &[-18])
}

/// S with h = 5 for state 10: −5; −3 − 5 for −2.5; −4 − 5.
fn other_table() -> Draft {
    sample().with(GAIN, &[8])
}

/// Each has its own start and its own waiting answer.
fn pen_and_knife() -> Vec<Script> {
    vec![
        // h = 0, from −18: −9; −5 for −4.5; −3 for −2.5. From 17: 8 for 8.5; 4; 2.
        both_started("pen and knife")
            .ask(&[0], &[-3, 3], 3)
            .head(1)
            .ask(&[0], &[2, 3], 2)
            .commit(&[2], &[2])
            .head(0)
            .commit(&[-3], &[-3]),
        // From 17, h = 10: 8 − 10; −1 − 10; −6 − 10 for −5.5.
        both_started("to and fro")
            .head(1)
            .ask(&[10], &[-16, 3], 4)
            .commit(&[-16], &[-16])
            .head(0)
            .ask(&[10], &[-20, 3], 0)
            .commit(&[-20], &[-20]),
        both_asked("the last asked commits first").commit(&[17], &[17]).no_commit(18).head(0).commit(&[-18], &[-18]),
        both_asked("the first asked commits first")
            .head(0)
            .commit(&[-18], &[-18])
            .no_commit(18)
            .head(1)
            .start(&[0])
            .commit(&[17], &[17])
            .no_commit(18),
        both_asked("asked again beside the other")
            .ask(&[0], &[0, 3], 0)
            .head(0)
            .commit(&[-18], &[-18])
            .head(1)
            .commit(&[0], &[0]),
    ]
}

/// What one has does not count for the other.
fn of_each() -> Vec<Script> {
    vec![
        s("the same answer of both")
            .ask(&[10], &[-18, 3], 2)
            .head(1)
            .ask(&[10], &[-18, 3], 2)
            .commit(&[-18], &[-18])
            .head(0)
            .start(&[0])
            .commit(&[-18], &[-18]),
        s("18 of each")
            .no_commit(18)
            .head(1)
            .no_commit(18)
            .head(0)
            .ask(&[10], &[-18, 3], 2)
            .head(1)
            .no_commit(18)
            .head(0)
            .commit(&[-18], &[-18])
            .no_commit(18)
            .head(1)
            .no_commit(18),
        // The cases "S with a target, sweeps 3" and "target -7".
        Script::of("a target of each", &with_target())
            .ask(&[10], &[-11, 3], 2)
            .to(&[7])
            .head(1)
            .ask(&[10], &[-20, 3], 0)
            .to(&[-7])
            .head(0)
            .commit(&[-11], &[-11])
            .head(1)
            .commit(&[-20], &[-20]),
    ]
}

/// Asks and commits of one head while the other does something else, or nothing.
fn in_turns() -> Vec<Script> {
    vec![
        // From zero once more, and from −18: −19; −10 − 10 for −9.5; −20.
        s("each from its own start")
            .ask(&[10], &[-18, 3], 2)
            .commit(&[-18], &[-18])
            .head(1)
            .ask(&[10], &[-18, 3], 2)
            .head(0)
            .ask(&[10], &[-20, 3], 0)
            .head(1)
            .commit(&[-18], &[-18])
            .head(0)
            .commit(&[-20], &[-20])
            .head(1)
            .ask(&[10], &[-20, 3], 0),
        // Head 1's answer waits all the time, and its start is zero.
        both_asked("the other waits through commits")
            .head(0)
            .commit(&[-18], &[-18])
            .ask(&[10], &[-20, 3], 0)
            .commit(&[-20], &[-20])
            .ask(&[10], &[-20, 3], 0)
            .commit(&[-20], &[-20])
            .head(1)
            .commit(&[17], &[17]),
        // From 17, h = −10: 8 + 10 for 8.5; 9 + 10; 9 + 10 for 9.5. From −18: −9 + 10; 0 + 10 for 0.5; 5 + 10.
        both_started("in turns")
            .head(1)
            .ask(&[-10], &[19, 3], 1)
            .head(0)
            .ask(&[-10], &[15, 3], 5)
            .head(1)
            .commit(&[19], &[19])
            .head(0)
            .commit(&[15], &[15]),
    ]
}

/// What head 1 is refused, or no head, leaves both starts.
fn beside_starts(name: &str, refused: fn(Script) -> Script) -> Script {
    let script = refused(both_started(name).head(1)).head(0).ask(&[10], &[-20, 3], 0);
    script.head(1).ask(&[0], &[2, 3], 2).commit(&[2], &[2]).head(0).commit(&[-20], &[-20])
}

/// Refused calls of head 1 leave what head 0 has, and the reverse.
fn refused_beside() -> Vec<Script> {
    let asked = |name: &str| s(name).ask(&[10], &[-18, 3], 2).head(1);
    let whole = |script: Script| script.no_commit(18).head(0).commit(&[-18], &[-18]).ask(&[10], &[-20, 3], 0);
    vec![
        whole(asked("13 of the other")).head(1).no_ask(&[11], 13).head(0).commit(&[-20], &[-20]),
        whole(asked("13 of the other between").no_ask(&[11], 13)),
        whole(asked("16 of the other between").no_ask(&[10], 16).to(&[0])),
        whole(asked("15 of the other's ask between").no_ask(&[10], 15).room(8)),
        whole(asked("15 of the other's commit between").no_commit(15).room(8)),
        whole(asked("18 of the other between").no_commit(18).no_commit(18)),
        whole(asked("another length between").no_ask(&[10], 15).length(0).no_commit(15).length(MADE_LEN + 1)),
        whole(asked("a refused make between").no_make(&[], 6).no_make(&sample().image(), 15).length(2484)),
        beside_starts("13 beside starts", |script| script.no_ask(&[11], 13)),
        beside_starts("16 beside starts", |script| script.no_ask(&[10], 16).to(&[0])),
        beside_starts("15 of an ask beside starts", |script| script.no_ask(&[10], 15).room(0)),
        beside_starts("15 of a commit beside starts", |script| script.no_commit(15).room(0)),
        beside_starts("18 beside starts", |script| script.no_commit(18)),
        beside_starts("3 beside starts", |script| script.head(2).no_commit(3).no_ask(&[10], 3)),
        both_asked("13 of the one, and of the other")
            .no_ask(&[11], 13)
            .head(0)
            .no_ask(&[-11], 13)
            .commit(&[-18], &[-18])
            .no_ask(&[11], 13)
            .head(1)
            .commit(&[17], &[17]),
    ]
}

/// The words of the case "two motors, two steps, upward, sweeps 3", and their next start: (3, 1) at both steps.
const FOUR_UPWARD: [i64; 8] = [17, 2, 3, 1, 3, 3, 3, 3];
const FOUR_ABOVE: [i64; 4] = [3, 1, 3, 1];

/// More than one command, and rooms that are full.
fn other_sizes() -> Vec<Script> {
    let zeros = [[0; 16], [1; 16]].concat();
    let largest = ask_largest(Script::of("the largest image of each", &largest())).head(1);
    let largest = commit_largest(largest.ask(&state_of(0), &zeros, 0).to(&[0; 4]).head(0)).head(1);
    vec![
        // h = 0, from (−2, −4, −2, −18): −1, −2, −1, −9; −1, −1, −1, −5; −1, −1, −1, −3. From (3, 1, 3, 1): 1, 0, 1, 0
        // and zeros.
        Script::of("four commands of each", &motors_and_steps())
            .ask(&[10], &FOUR_ASKED, 2)
            .head(1)
            .ask(&[-10], &FOUR_UPWARD, 3)
            .head(0)
            .commit(&[-18, -4], &FOUR_MOVED)
            .head(1)
            .commit(&[17, 2], &FOUR_ABOVE)
            .head(0)
            .ask(&[0], &[-1, -1, -1, -3, 3, 3, 3, 3], 3)
            .head(1)
            .ask(&[0], &[0, 0, 0, 0, 3, 3, 3, 3], 0)
            .commit(&[0, 0], &[0; 4])
            .head(0)
            .commit(&[-1, -1], &[-1, -3, -1, -3]),
        commit_largest(ask_largest(largest.commit(&[0; 4], &[0; 16]))),
    ]
}

/// The whole drive: head 0 at 2280, 2284 and 2348, and head 1 at 2484, 2488 and 2552. Of 65535 sweeps each of two heads
/// has 32767, and an ask costs 3.
fn in_bytes() -> Vec<Script> {
    let image: &[i64] = &[1, 1, 1, 4, 8, 3, 0, 0, 8, 16, -20, 20, 0, 10];
    let (length, first, second): (&[i64], &[i64], &[i64]) = (&[56], &[-18, 3, 0, 2], &[17, 3, 0, 3]);
    let with = |script: Script, own: [i64; 2], parts: &[(usize, &[i64])]| {
        script.whole(&[&[(0, length), (4, image), (3096, &[2, 1, own[0], own[1]])], parts].concat())
    };
    let (unused, one, both) = ([32767, 32767], [32767, 32764], [32764, 32764]);
    let script = with(s("the bytes of both heads"), unused, &[]).head(1).ask(&[-10], &[17, 3], 3);
    let script = with(script, one, &[(2484, &[1]), (2552, second)]).head(0).ask(&[10], &[-18, 3], 2);
    let script = with(script, both, &[(2280, &[1]), (2348, first), (2484, &[1]), (2552, second)]).head(1);
    let parts: [(usize, &[i64]); 4] = [(2280, &[1]), (2348, first), (2488, &[17]), (2552, second)];
    let script = with(script.commit(&[17], &[17]), both, &parts).head(0).commit(&[-18], &[-18]);
    let script = with(script, both, &[(2284, &[-18]), (2348, first), (2488, &[17]), (2552, second)]);
    vec![with(script.new_image(&sample()), both, &[])]
}

/// Heads that no drive has, some of which are 0 or 1 in fewer bits.
pub fn no_head_numbers() -> impl Iterator<Item = u32> {
    let edges = [8, 16, 24, 31].map(|bits| 1 << bits).into_iter();
    [4, 5, 6].into_iter().chain(edges.flat_map(|edge| [edge - 1, edge, edge + 1])).chain([u32::MAX - 1, u32::MAX])
}

/// 3 before all else: the drive's length, the held image, the other buffers and 18.
fn no_heads() -> Vec<Script> {
    let each = |script: Script, calls: fn(Script) -> Script| {
        no_head_numbers().fold(script, |script, head| calls(script.head(head)))
    };
    let asked = each(both_asked("other heads where both wait"), |script| {
        let script = script.no_ask(&[10], 3).no_ask(&[11], 3).to(&[0]).room(0).no_commit(3).no_commit(3).room(8);
        let script = script.no_ask(&[11], 3).no_ask(&[10], 3).to(&[0]).no_ask(&[10], 3).room(8);
        let script = script.no_ask(&[10], 3).length(0).no_ask(&[10], 3).length(MADE_LEN - 1);
        script.no_commit(3).length(2484).no_commit(3).length(MADE_LEN + 1)
    });
    let new = each(s("other heads of a new drive"), |script| script.no_commit(3).no_commit(3).room(0).no_ask(&[10], 3));
    let zeros = s("other heads of a drive of zeros").put(0, &[0; MADE_LEN]).put_word(COUNT, 2);
    let zeros = each(zeros, |script| script.no_commit(3).no_ask(&[10], 3));
    let unmade = each(Script::new("other heads of no drive"), |script| script.no_commit(3).length(0).no_ask(&[], 3));
    let beyond = s("other heads beside a start beyond its limit").put_word(START[0], 21).put_word(START[1], 21);
    vec![
        asked.head(0).commit(&[-18], &[-18]).head(1).commit(&[17], &[17]),
        new.head(0).ask(&[10], &[-18, 3], 2).head(1).no_commit(18),
        zeros.head(0).no_commit(6).no_ask(&[10], 6).head(1).no_commit(6).no_ask(&[10], 6),
        unmade.head(0).no_commit(15).length(0).head(1).no_ask(&[10], 15).length(0),
        each(beyond, |script| script.no_ask(&[10], 3)).head(0).no_ask(&[10], 14).head(1).no_ask(&[10], 14),
    ]
}

/// Accepted, with starts or without.
fn new_images() -> Vec<Script> {
    let again = |script: Script| {
        let script = script.head(0).no_commit(18).ask(&[10], &[-18, 3], 2).head(1).no_commit(18);
        script.ask(&[10], &[-18, 3], 2).commit(&[-18], &[-18]).head(0).commit(&[-18], &[-18])
    };
    vec![
        again(s("a new image of a new drive").new_image(&sample())),
        again(both_started("a new image behind both commits").new_image(&sample())),
        again(s("a new image behind head 0").ask(&[10], &[-18, 3], 2).commit(&[-18], &[-18]).new_image(&sample())),
        again(both_started("two new images").new_image(&other_table()).new_image(&sample())),
        again(s("a new image behind refused asks").no_ask(&[11], 13).head(1).no_ask(&[11], 13).new_image(&sample())),
        // All of the drive is zeros but for its heads, and no call has made it.
        again(
            Script::new("a new image for a drive of zeros")
                .put(0, &[0; MADE_LEN])
                .put_word(COUNT, 2)
                .new_image(&sample())
                .period(65535),
        ),
        both_started("other tables for both")
            .new_image(&other_table())
            .ask(&[10], &[-9, 3], 1)
            .head(1)
            .ask(&[10], &[-9, 3], 1)
            .head(0)
            .commit(&[-9], &[-9])
            .head(1)
            .commit(&[-9], &[-9]),
    ]
}

/// Of other sizes.
fn other_images() -> Vec<Script> {
    vec![
        both_started("a larger image")
            .new_image(&motors_and_steps())
            .ask(&[10], &FOUR_ASKED, 2)
            .head(1)
            .ask(&[-10], &FOUR_UPWARD, 3)
            .head(0)
            .commit(&[-18, -4], &FOUR_MOVED)
            .head(1)
            .commit(&[17, 2], &FOUR_ABOVE),
        Script::of("a smaller image", &motors_and_steps())
            .ask(&[10], &FOUR_ASKED, 2)
            .commit(&[-18, -4], &FOUR_MOVED)
            .head(1)
            .ask(&[-10], &FOUR_UPWARD, 3)
            .commit(&[17, 2], &FOUR_ABOVE)
            .new_image(&sample())
            .ask(&[10], &[-18, 3], 2)
            .commit(&[-18], &[-18])
            .head(0)
            .ask(&[10], &[-18, 3], 2),
    ]
}

/// What is behind the words of the smaller image is zero again.
fn larger_and_smaller() -> Vec<Script> {
    let four = motors_and_steps();
    let full = |script: Script| commit_largest(ask_largest(script));
    let largest = full(both_started("the largest image, and S again").new_image(&largest()));
    vec![
        both_started("a smaller image between larger ones")
            .new_image(&four)
            .ask(&[10], &FOUR_ASKED, 2)
            .commit(&[-18, -4], &FOUR_MOVED)
            .new_image(&sample())
            .ask(&[10], &[-18, 3], 2)
            .commit(&[-18], &[-18])
            .new_image(&four)
            .ask(&[10], &FOUR_ASKED, 2),
        full(largest.head(1)).new_image(&sample()).ask(&[10], &[-18, 3], 2).head(0).ask(&[10], &[-18, 3], 2),
    ]
}

/// From the last accepted new image on, zeros until a head's next commit.
fn counted_starts() -> Vec<Script> {
    let renewed = |name: &str| both_started(name).new_image(&sample());
    vec![
        renewed("one head commits behind a new image")
            .ask(&[10], &[-18, 3], 2)
            .commit(&[-18], &[-18])
            .head(1)
            .ask(&[-10], &[17, 3], 3)
            .head(0)
            .ask(&[10], &[-20, 3], 0)
            .head(1)
            .commit(&[17], &[17]),
        renewed("a new image behind each commit")
            .ask(&[10], &[-18, 3], 2)
            .commit(&[-18], &[-18])
            .new_image(&sample())
            .ask(&[10], &[-18, 3], 2)
            .head(1)
            .ask(&[-10], &[17, 3], 3)
            .commit(&[17], &[17])
            .head(0)
            .commit(&[-18], &[-18])
            .new_image(&sample())
            .ask(&[-10], &[17, 3], 3)
            .head(1)
            .ask(&[10], &[-18, 3], 2),
        // 19 does not count.
        both_started("from the accepted one alone")
            .ask(&[10], &[-20, 3], 0)
            .no_new_image(&sample().image(), 19)
            .commit(&[-20], &[-20])
            .head(1)
            .ask(&[0], &[2, 3], 2)
            .commit(&[2], &[2]),
    ]
}

/// Starts, answers and tables stay.
fn refused_new_images() -> Vec<Script> {
    let all = |script: Script| {
        refused_images().into_iter().fold(script, |script, (image, number)| {
            // The image's number goes before 15.
            script.no_new_image(&image, number).no_new_image(&image, number).length(MADE_LEN + 1)
        })
    };
    let other = |script: Script| {
        [0, 4, WAITS[1], MADE_LEN - 1, MADE_LEN + 1]
            .into_iter()
            .fold(script, |script, length| script.no_new_image(&other_table().image(), 15).length(length))
    };
    let started = |name: &str| both_started(name).head(0);
    let goes_on = |script: Script| script.ask(&[10], &[-20, 3], 0).head(1).ask(&[0], &[2, 3], 2);
    vec![
        goes_on(all(started("refused new images"))),
        goes_on(other(started("new images on another length"))),
        goes_on(other(all(started("refused new images, and another length")))),
        s("a refused new image of a new drive").no_new_image(&[], 6).no_commit(18).ask(&[10], &[-18, 3], 2),
    ]
}

/// While either head has a waiting answer, and whatever the image.
fn nineteen() -> Vec<Script> {
    let [own, other, four] = [sample(), other_table(), motors_and_steps()].map(|draft| draft.image());
    let no_image = |script: Script| script.no_new_image(&own, 19).no_new_image(&other, 19).no_new_image(&four, 19);
    let by_both = no_image(both_asked("19 by both, and by each")).commit(&[17], &[17]);
    let by_one = no_image(by_both).head(0).commit(&[-18], &[-18]).head(1).ask(&[0], &[2, 3], 2);
    let by_one = no_image(by_one).commit(&[2], &[2]);
    vec![
        no_image(s("19 by head 0").ask(&[10], &[-18, 3], 2)).commit(&[-18], &[-18]).new_image(&sample()),
        no_image(s("19 by head 1").head(1).ask(&[10], &[-18, 3], 2))
            .commit(&[-18], &[-18])
            .new_image(&motors_and_steps())
            .ask(&[10], &FOUR_ASKED, 2),
        by_one.new_image(&sample()).ask(&[10], &[-18, 3], 2),
        // The old tables go on, from the old starts.
        no_image(both_started("19 leaves the tables and the starts").ask(&[10], &[-20, 3], 0))
            .head(1)
            .ask(&[0], &[2, 3], 2)
            .head(0)
            .commit(&[-20], &[-20])
            .no_new_image(&own, 19),
        no_image(both_asked("19 leaves both answers")).commit(&[17], &[17]).head(0).commit(&[-18], &[-18]),
        no_image(s("asked again behind 19").ask(&[10], &[-18, 3], 2)).ask(&[-10], &[17, 3], 3).commit(&[17], &[17]),
    ]
}

/// The image's own number and then 15 go before 19.
fn before_nineteen() -> Vec<Script> {
    let image = sample().image();
    let refused = |name: &str, head: u32| {
        let script = s(name).head(head).ask(&[10], &[-18, 3], 2);
        let script = refused_images().into_iter().fold(script, |script, (image, number)| {
            script.no_new_image(&image, number).no_new_image(&image, number).length(MADE_LEN - 1)
        });
        script.no_new_image(&image, 19).commit(&[-18], &[-18]).ask(&[10], &[-20, 3], 0)
    };
    let lengths = [0, 4, WAITS[0], START[0], ANSWER[0], WAITS[1], START[1], ANSWER[1], MADE_LEN - 1, MADE_LEN + 1];
    let length = |script: Script| {
        lengths.into_iter().fold(script, |script, length| script.no_new_image(&image, 15).length(length))
    };
    vec![
        refused("faulty images while head 0 waits", 0),
        refused("faulty images while head 1 waits", 1),
        length(both_asked("another length while both wait")).commit(&[17], &[17]).head(0).commit(&[-18], &[-18]),
        length(s("another length while head 1 waits").head(1).ask(&[10], &[-18, 3], 2)).commit(&[-18], &[-18]),
        // Every byte is 238, so that both would wait.
        length(Script::new("a new image for no drive").no_new_image(&image, 19)).no_new_image(&[], 6),
    ]
}

/// Something else writes to the word that tells whether an answer waits: any but 0 is 19.
fn waiting_words() -> Vec<Script> {
    let image = sample().image();
    let word = |head: u32, bytes: [u8; 4]| {
        let at = WAITS[head as usize];
        let script = s(&format!("the waiting word of head {head} is {bytes:?}")).put(at, &bytes);
        let script = script.no_new_image(&image, 19).head(1 - head).no_commit(18).no_new_image(&image, 19);
        script.head(head).commit(&[0], &[0]).new_image(&sample()).no_commit(18)
    };
    let together = |name: &str, words: [i64; 2]| {
        let script = s(name).put_word(WAITS[0], words[0]).put_word(WAITS[1], words[1]);
        let script = script.no_new_image(&image, 19).commit(&[0], &[0]).no_new_image(&image, 19);
        script.head(1).commit(&[0], &[0]).new_image(&sample())
    };
    let words = [[0, 0, 0, 2], [0, 0, 1, 0], [0, 1, 0, 0], [1, 0, 0, 0], [128, 0, 0, 0], [255; 4]];
    let mut scripts: Vec<Script> = words.into_iter().flat_map(|bytes| [word(0, bytes), word(1, bytes)]).collect();
    scripts.extend([
        together("words that come to 0 by their sum", [1, -1]),
        together("words that have no bit in common", [2, 1]),
        together("words of the same bits", [6, 6]),
        both_asked("both words are cleared").put(WAITS[0], &[0; 4]).put(WAITS[1], &[0; 4]).new_image(&sample()),
        both_asked("one word is cleared").put(WAITS[0], &[0; 4]).no_new_image(&image, 19).commit(&[17], &[17]),
    ]);
    scripts
}

/// What something else wrote to one head is of no concern to the other.
fn damaged_heads() -> Vec<Script> {
    vec![
        both_asked("another answer at one head")
            .put_word(ANSWER[1], 5)
            .head(0)
            .commit(&[-18], &[-18])
            .head(1)
            .commit(&[5], &[5]),
        both_started("another start at one head")
            .put_word(START[0], 21)
            .no_ask(&[10], 14)
            .head(1)
            .ask(&[0], &[2, 3], 2)
            .head(0)
            .no_ask(&[10], 14),
        // Words behind those in use are nobody's, and go with a new image.
        both_started("words behind")
            .put_word(START[0] + 4, 99)
            .put_word(ANSWER[0] + 132, 98)
            .put_word(START[1] + 60, 97)
            .put_word(ANSWER[1] + 16, 96)
            .put_word(WAITS[0] - 4, 95)
            .ask(&[10], &[-20, 3], 0)
            .commit(&[-20], &[-20])
            .new_image(&sample())
            .ask(&[10], &[-18, 3], 2),
    ]
}

/// What something else wrote to the held image is of no concern to a new one.
fn damaged_images() -> Vec<Script> {
    let image = sample().image();
    let s = |name: &str| s(name).ask(&[10], &[-18, 3], 2).commit(&[-18], &[-18]);
    let renewed = |script: Script| script.new_image(&sample()).ask(&[10], &[-18, 3], 2);
    let cost = IMAGE + 32;
    vec![
        renewed(s("a new image for one of no length").put_word(0, 0).no_ask(&[10], 6).head(1).no_commit(6)),
        renewed(s("a new image for one beyond its room").put_word(0, -1).no_ask(&[10], 6)),
        renewed(s("a new image for one of no motor").put_word(IMAGE, 0).no_ask(&[10], 3)),
        renewed(s("a new image for one that is 9").put_word(cost, 0).no_ask(&[10], 9).head(1).no_ask(&[10], 9)),
        s("19 for one of no length").ask(&[10], &[-20, 3], 0).put_word(0, 0).no_new_image(&image, 19).no_commit(6),
        s("19 for one of no motor").head(1).ask(&[10], &[-18, 3], 2).put_word(IMAGE, 0).no_new_image(&image, 19),
        // Both heads have the table that something else wrote: h = 5.
        both_asked("another Φ for both")
            .put(IMAGE, &other_table().image())
            .ask(&[10], &[-9, 3], 1)
            .commit(&[-9], &[-9])
            .head(0)
            .ask(&[10], &[-9, 3], 1),
    ]
}

/// 19 is for a new image alone: a make is accepted on a drive in use.
fn makes() -> Vec<Script> {
    let again = |script: Script| {
        script.head(0).no_commit(18).ask(&[10], &[-18, 3], 2).head(1).no_commit(18).ask(&[10], &[-18, 3], 2)
    };
    vec![
        again(both_asked("made again while both wait").make(&sample())),
        again(s("made again while head 1 waits").head(1).ask(&[10], &[-18, 3], 2).make(&sample())),
        again(both_started("made again behind both commits").make(&sample())),
        again(both_asked("a larger image, and S again").make(&motors_and_steps()).make(&sample())),
        both_asked("a refused make while both wait")
            .no_make(&sample().with(COST, &[0]).image(), 9)
            .commit(&[17], &[17])
            .head(0)
            .commit(&[-18], &[-18]),
        // Of a drive that was just made, a new image is the same.
        s("a new image as made")
            .whole(&[(0, &[56]), (4, &words(&sample().image())), (3096, &[2, 1, 32767, 32767])])
            .new_image(&sample())
            .whole(&[(0, &[56]), (4, &words(&sample().image())), (3096, &[2, 1, 32767, 32767])]),
    ]
}

/// An answer that waits in one drive is of no concern to a new image of the other.
fn two_drives() -> Vec<Script> {
    vec![
        both_asked("a new image of another drive")
            .on(1)
            .make(&sample())
            .new_image(&other_table())
            .ask(&[10], &[-9, 3], 1)
            .on(0)
            .no_new_image(&sample().image(), 19)
            .commit(&[17], &[17])
            .on(1)
            .commit(&[-9], &[-9]),
        both_started("two drives of two heads")
            .on(1)
            .make(&sample())
            .ask(&[10], &[-18, 3], 2)
            .head(1)
            .ask(&[-10], &[17, 3], 3)
            .on(0)
            .new_image(&motors_and_steps())
            .ask(&[10], &FOUR_ASKED, 2)
            .on(1)
            .commit(&[17], &[17])
            .head(0)
            .commit(&[-18], &[-18]),
    ]
}
