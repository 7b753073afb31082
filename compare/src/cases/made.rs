//! The cases of request 9: scripts of one head's calls, with sweeps enough. As in S a sweep makes z into half of z, rounded down, less h,
//! unless the script says otherwise, and the bounds are 1, 2, 3 whatever the start.

use super::script::Script;
use super::{coupled, motors_and_steps, sample, two_steps, uncoupled, with_steps, with_target};
use crate::draft::Draft;
use crate::image::{COST, GAIN, HEADER_WORDS, HIGH, LOW, MOMENTUM, Number, STATE_LIMIT, Sizes, bytes, words};
use crate::made::{self, COUNT, IMAGE, MADE_LEN};

/// Where the parts of head 0 begin.
const WAITS: usize = made::WAITS[0];
const START: usize = made::START[0];
const ANSWER: usize = made::ANSWER[0];

pub fn scripts() -> Vec<Script> {
    let calls = [of_sample(), in_bytes(), refused(), lengths(), makes(), two_drives(), with_inputs()];
    let moves = [held_starts(), narrowing(), motors(), many_commands()];
    let damaged = [damaged_waiting(), damaged_limits(), damaged_images(), damaged_sizes()];
    calls.into_iter().chain(moves).chain(damaged).flatten().collect()
}

/// State 10 has h = 10: from zero −10; −5 − 10; −8 − 10 for −7.5. From −18: −19; −10 − 10 for −9.5; −20, the optimum.
fn of_sample() -> Vec<Script> {
    let s = |name: &str| Script::of(name, &sample());
    let asked = |name: &str| s(name).ask(&[10], &[-18, 3], 2);
    vec![
        asked("S").commit(&[-18], &[-18]).ask(&[10], &[-20, 3], 0).commit(&[-20], &[-20]),
        // h = −10 from −18: −9 + 10; 0 + 10 for 0.5; 5 + 10, which 20 is 5 from.
        asked("S, to and fro").commit(&[-18], &[-18]).ask(&[-10], &[15, 3], 5).commit(&[15], &[15]),
        // The start stays until a commit, however often it is asked.
        asked("asked again from another start")
            .commit(&[-18], &[-18])
            .ask(&[10], &[-20, 3], 0)
            .start(&[-18])
            .ask(&[10], &[-20, 3], 0)
            .commit(&[-20], &[-20]),
        asked("asked again").start(&[0]).ask(&[10], &[-18, 3], 2).start(&[0]).commit(&[-18], &[-18]),
        s("no ask").no_commit(18).no_commit(18).ask(&[10], &[-18, 3], 2).commit(&[-18], &[-18]),
        asked("a second commit").commit(&[-18], &[-18]).no_commit(18).start(&[-18]).ask(&[10], &[-20, 3], 0),
        asked("a second commit, asked")
            .commit(&[-18], &[-18])
            .no_commit(18)
            .ask(&[10], &[-20, 3], 0)
            .commit(&[-20], &[-20]),
        // h = −10: 10; 5 + 10; 7 + 10 for 7.5. From 17 with h = 0: 8; 4; 2; from −18 it would be −3.
        asked("two asks").ask(&[-10], &[17, 3], 3).commit(&[17], &[17]).ask(&[0], &[2, 3], 2).commit(&[2], &[2]),
        asked("three asks").ask(&[-10], &[17, 3], 3).ask(&[0], &[0, 3], 0).commit(&[0], &[0]).no_commit(18),
        // −9; −5 for −4.5; −3 for −2.5. −2; −1; −1 for −0.5. −1.
        asked("S, let go")
            .commit(&[-18], &[-18])
            .ask(&[0], &[-3, 3], 3)
            .commit(&[-3], &[-3])
            .ask(&[0], &[-1, 3], 1)
            .commit(&[-1], &[-1])
            .ask(&[0], &[-1, 3], 1),
    ]
}

/// The number of heads and the sweeps of a drive with the most sweeps, and behind one ask of 3 sweeps, and two.
const UNUSED: (usize, &[i64]) = (3096, &[2, 1, 32767, 32767]);
const USED: (usize, &[i64]) = (3096, &[2, 1, 32764, 32767]);
const USED_TWICE: (usize, &[i64]) = (3096, &[2, 1, 32761, 32767]);

/// The whole drive: 14 words of S, and 38 of two motors and two steps.
fn in_bytes() -> Vec<Script> {
    let image: &[i64] = &[1, 1, 1, 4, 8, 3, 0, 0, 8, 16, -20, 20, 0, 10];
    let (length, answer): (&[i64], &[i64]) = (&[56], &[-18, 3, 0, 2]);
    let s = Script::of("the bytes of S", &sample())
        .whole(&[(0, length), (4, image), UNUSED])
        .ask(&[10], &[-18, 3], 2)
        .whole(&[(0, length), (4, image), (2280, &[1]), (2348, answer), USED])
        .commit(&[-18], &[-18])
        .whole(&[(0, length), (4, image), (2284, &[-18]), (2348, answer), USED])
        .ask(&[10], &[-20, 3], 0)
        .whole(&[(0, length), (4, image), (2280, &[1]), (2284, &[-18]), (2348, &[-20, 3, 0, 0]), USED_TWICE]);
    let image: &[i64] = &[
        &[2, 2, 1, 4, 8, 3, 0, 0, 8, 0, 0, 0, 0, 8, 0, 0, 0, 0, 8, 0, 0, 0, 0, 8][..],
        &[16, 16, 16, 16, -20, -4, -2, -20, 20, 2, 3, 1, 0, 10],
    ]
    .concat();
    let answer: &[i64] = &[&FOUR_ASKED[..], &[0, 2]].concat();
    let four = Script::of("the bytes of four commands", &motors_and_steps())
        .whole(&[(0, &[152]), (4, image), UNUSED])
        .ask(&[10], &FOUR_ASKED, 2)
        .whole(&[(0, &[152]), (4, image), (2280, &[1]), (2348, answer), USED])
        .commit(&[-18, -4], &FOUR_MOVED)
        .whole(&[(0, &[152]), (4, image), (2284, &FOUR_MOVED), (2348, answer), USED]);
    // All that the former drive had is gone.
    let again = four.make(&sample()).whole(&[(0, length), (4, &words(&sample().image())), UNUSED]);
    vec![s, again]
}

/// Refused calls leave the drive as it was, the waiting answer included.
fn refused() -> Vec<Script> {
    let s = |name: &str| Script::of(name, &sample());
    let asked = |name: &str| s(name).ask(&[10], &[-18, 3], 2);
    let whole = |script: Script| script.commit(&[-18], &[-18]).no_commit(18).ask(&[10], &[-20, 3], 0);
    let bad = sample().with(STATE_LIMIT, &[118]).image();
    vec![
        whole(asked("13 between").no_ask(&[11], 13)),
        whole(asked("16 between").no_ask(&[10], 16).to(&[0])),
        whole(asked("15 of an ask between").no_ask(&[10], 15).room(8)),
        whole(asked("15 of a commit between").no_commit(15).room(8)),
        whole(asked("12 of a make between").no_make(&bad, 12)),
        whole(asked("15 of a make between").no_make(&sample().image(), 15).length(MADE_LEN - 1)),
        whole(asked("all of them between").no_ask(&[-11], 13).no_ask(&[10], 16).to(&[0]).no_commit(15).room(0)),
        s("a refused ask alone").no_ask(&[11], 13).no_commit(18).no_ask(&[10], 15).room(0).no_commit(18),
        // Behind a commit the answer that was issued does not wait again.
        asked("13 behind a commit").commit(&[-18], &[-18]).no_ask(&[11], 13).no_commit(18).ask(&[10], &[-20, 3], 0),
        s("15 before 18").no_commit(15).room(8).no_commit(18).no_commit(15).room(0),
        asked("15 before 18 behind a commit").commit(&[-18], &[-18]).no_commit(15).room(5).no_commit(18),
        s("13, 16 and 15 in their order").no_ask(&[11], 13).to(&[0]).room(0).no_ask(&[10], 16).to(&[0]).room(0),
        s("16 before 15").no_ask(&[10], 16).to(&[0]).room(8).no_ask(&[11], 13).room(8).no_ask(&[], 13),
    ]
}

/// 4nu bytes for a commit, 8n + 8 for an ask, and 3120 for the drive, which is tested before all else of these two. It
/// was 2484 before request 10, and 2688 before request 11.
fn lengths() -> Vec<Script> {
    let s = Script::of("lengths of S", &sample()).ask(&[10], &[-18, 3], 2);
    let s = [0, 1, 3, 5, 8, 16].into_iter().fold(s, |script, room| script.no_commit(15).room(room));
    let s = [0, 4, 8, 12, 15, 17, 20, 24].into_iter().fold(s, |script, room| script.no_ask(&[10], 15).room(room));
    // Two motors and two steps: not all commands, nor one.
    let four = Script::of("lengths of four commands", &motors_and_steps()).ask(&[10], &FOUR_ASKED, 2);
    let four = [0, 4, 7, 9, 12, 16, 40].into_iter().fold(four, |script, room| script.no_commit(15).room(room));
    let four = [16, 24, 32, 36, 39, 41, 48].into_iter().fold(four, |script, room| script.no_ask(&[10], 15).room(room));
    let drive = Script::of("lengths of a drive", &sample()).ask(&[10], &[-18, 3], 2);
    let parts = [0, 1, 3, 4, 60, WAITS, START, ANSWER, 2484, 2688, 3096, 3100, 3104];
    let beside = [MADE_LEN - 4, MADE_LEN - 1, MADE_LEN + 1, MADE_LEN + 4];
    let drive = parts.into_iter().chain(beside).fold(drive, |script, length| {
        let script = script.no_ask(&[10], 15).length(length).no_ask(&[11], 15).to(&[0]).room(0).length(length);
        let script = script.no_commit(15).length(length).no_commit(15).room(8).length(length);
        script.no_make(&sample().image(), 15).length(length)
    });
    // No call has written these, and an answer that waits is not looked for.
    let short = Script::new("a short drive").no_commit(15).length(MADE_LEN - 1).no_ask(&[10], 15).length(0);
    vec![
        s.commit(&[-18], &[-18]),
        four.commit(&[-18, -4], &FOUR_MOVED),
        drive.commit(&[-18], &[-18]),
        short,
        Script::new("no drive").no_commit(3).no_ask(&[10], 3),
        // Without a head, and then with some.
        Script::new("a drive of zeros")
            .put(0, &[0; MADE_LEN])
            .no_commit(3)
            .no_ask(&[10], 3)
            .put_word(COUNT, 2)
            .no_commit(6)
            .no_ask(&[10], 6),
    ]
}

/// The case "two motors, two steps, sweeps 3", and its next start: (−2, −18) at both steps, held to −4 at the first.
pub const FOUR_ASKED: [i64; 8] = [-18, -4, -2, -18, 3, 3, 3, 3];
pub const FOUR_MOVED: [i64; 4] = [-2, -4, -2, -18];

/// Images that a make refuses, by the cases of document 01 and of requests 3 and 6.
pub fn refused_images() -> Vec<(Vec<u8>, Number)> {
    let s = sample;
    let image = s().image();
    vec![
        (Vec::new(), 6),
        (image[..31].to_vec(), 6),
        (image[..32].to_vec(), 6),
        (image[..55].to_vec(), 6),
        ([&image[..], &[0]].concat(), 6),
        (s().iterations(401).image(), 3),
        (s().with(HIGH, &[128]).image(), 5),
        (s().with(LOW, &[6]).with(HIGH, &[5]).image(), 7),
        (s().with(LOW, &[1]).image(), 17),
        (s().with(HIGH, &[-1]).image(), 17),
        (two_steps(8, 0).with(COST, &[8, 1, 0, 8]).image(), 8),
        (two_steps(8, 8).image(), 9),
        (two_steps(9, 8).image(), 10),
        (two_steps(8, 7).with(MOMENTUM, &[9]).image(), 11),
        (s().with(STATE_LIMIT, &[118]).image(), 12),
    ]
}

fn makes() -> Vec<Script> {
    let asked = |name: &str, draft: &Draft, row: &[i64]| Script::of(name, draft).ask(&[10], row, 2);
    let s = |name: &str| asked(name, &sample(), &[-18, 3]);
    let four = |name: &str| asked(name, &motors_and_steps(), &FOUR_ASKED);
    let refused = refused_images().into_iter().fold(s("refused images"), |script, (image, number)| {
        // The image's number goes before 15.
        script.no_make(&image, number).no_make(&image, number).length(MADE_LEN + 1)
    });
    vec![
        refused.commit(&[-18], &[-18]).ask(&[10], &[-20, 3], 0),
        s("made again while an answer waits").make(&sample()).no_commit(18).ask(&[10], &[-18, 3], 2),
        s("made again behind a commit").commit(&[-18], &[-18]).make(&sample()).no_commit(18).ask(&[10], &[-18, 3], 2),
        four("a smaller image").commit(&[-18, -4], &FOUR_MOVED).make(&sample()).no_commit(18).ask(&[10], &[-18, 3], 2),
        s("a larger image")
            .commit(&[-18], &[-18])
            .make(&motors_and_steps())
            .ask(&[10], &FOUR_ASKED, 2)
            .commit(&[-18, -4], &FOUR_MOVED),
        // The same sizes with h = 5 in place of 10: −5; −3 − 5 for −2.5; −4 − 5.
        s("other tables").make(&sample().with(GAIN, &[8])).no_commit(18).ask(&[10], &[-9, 3], 1).commit(&[-9], &[-9]),
    ]
}

/// Each drive has its own image, start and answer.
fn two_drives() -> Vec<Script> {
    let both = |name: &str| Script::of(name, &sample()).on(1).make(&sample()).on(0).ask(&[10], &[-18, 3], 2);
    vec![
        both("two drives")
            .on(1)
            .no_commit(18)
            .ask(&[-10], &[17, 3], 3)
            .on(0)
            .commit(&[-18], &[-18])
            .on(1)
            .commit(&[17], &[17]),
        both("two drives, one start").commit(&[-18], &[-18]).on(1).ask(&[10], &[-18, 3], 2).on(0).no_commit(18),
        both("two drives, asked in turn")
            .on(1)
            .ask(&[10], &[-18, 3], 2)
            .commit(&[-18], &[-18])
            .ask(&[10], &[-20, 3], 0)
            .on(0)
            .commit(&[-18], &[-18])
            .on(1)
            .commit(&[-20], &[-20]),
        both("two images")
            .on(1)
            .make(&motors_and_steps())
            .ask(&[10], &FOUR_ASKED, 2)
            .on(0)
            .commit(&[-18], &[-18])
            .on(1)
            .commit(&[-18, -4], &FOUR_MOVED),
    ]
}

/// With a target, and with momentum.
fn with_inputs() -> Vec<Script> {
    // The case "S with a target, sweeps 3"; from −11, with h = 6: −6 − 6 for −5.5, and −12 stays. The optimum is −13.
    let target = Script::of("a target", &with_target()).ask(&[10], &[-11, 3], 2).to(&[7]);
    let target = target.no_ask(&[10], 16).to(&[8]).no_ask(&[10], 16).no_ask(&[11], 13).to(&[8]).commit(&[-11], &[-11]);
    // β 8: y is the start before the first sweep: −2 for both, (−16 + 8) / 16 is −1 for −0.5, −1 − 10, held at step 1.
    // −8 × −11 − 4 × −2 − 160 = −64 over 4; at step 1 the low holds the step.
    let pair =
        Script::of("coupled steps", &coupled([(-20, 20), (-2, 5)]).iterations(1)).ask(&[10], &[-10, -2, 1, 1], 18);
    vec![
        target.ask(&[10], &[-12, 3], 1).to(&[7]).commit(&[-12], &[-12]),
        pair.commit(&[-10], &[-2, -2]).ask(&[10], &[-11, -2, 1, 1], 16),
    ]
}

/// A step that comes to narrower limits than its own.
fn held_starts() -> Vec<Script> {
    let held = with_steps(1, &[(-5, 5), (-20, 20)]);
    let widening = with_steps(1, &[(-1, 1), (-8, 8), (-20, 20)]);
    vec![
        // −18 at both steps, held to −5 at the first. h = 0: −3 for −2.5; −2 for −1.5; −1. And −9; −5 for −4.5; −3 for
        // −2.5.
        Script::of("held by a low", &held)
            .ask(&[10], &[-5, -18, 3, 3], 2)
            .commit(&[-5], &[-5, -18])
            .ask(&[0], &[-1, -3, 3, 3], 3)
            .commit(&[-1], &[-3, -3]),
        // 2 for 2.5; 1; 0 for 0.5. 8 for 8.5; 4; 2.
        Script::of("held by a high", &held)
            .ask(&[-10], &[5, 17, 3, 3], 3)
            .commit(&[5], &[5, 17])
            .ask(&[0], &[0, 2, 3, 3], 2)
            .commit(&[0], &[2, 2]),
        // −8 and −18, held to −1 and −8. −1 stays; −4; −2; −1.
        Script::of("each held by its own", &widening)
            .ask(&[10], &[-1, -8, -18, 2, 3, 3], 2)
            .commit(&[-1], &[-1, -8, -18])
            .ask(&[0], &[-1, -1, -3, 2, 3, 3], 3)
            .commit(&[-1], &[-1, -3, -3]),
        // 8 and 17, held to 1 and 8.
        Script::of("each held by its own, upward", &widening)
            .ask(&[-10], &[1, 8, 17, 2, 3, 3], 3)
            .commit(&[1], &[1, 8, 17]),
        // Zero is all that the first step has.
        Script::of("held to zero", &with_steps(1, &[(0, 0), (-20, 20)]))
            .ask(&[10], &[0, -18, 0, 3], 2)
            .commit(&[0], &[0, -18]),
    ]
}

/// A step that comes to wider limits, which leave it.
fn narrowing() -> Vec<Script> {
    vec![
        // −5 at both. From −5: −3 − 10 for −2.5; −7 − 10 for −6.5; −9 − 10 for −8.5. A count from −20.
        Script::of("the second step eases off", &with_steps(1, &[(-20, 20), (-5, 5)]))
            .ask(&[10], &[-18, -5, 3, 3], 2)
            .commit(&[-18], &[-5, -5])
            .ask(&[10], &[-19, -5, 3, 3], 1)
            .commit(&[-19], &[-5, -5]),
        // (−8, −1, −1). h = 0: −4; −2; −1, and −1 for −0.5 stays.
        Script::of("three steps, narrowing", &with_steps(1, &[(-20, 20), (-8, 8), (-1, 1)]))
            .ask(&[10], &[-18, -8, -1, 3, 3, 2], 2)
            .commit(&[-18], &[-8, -1, -1])
            .ask(&[0], &[-1, -1, -1, 3, 3, 2], 1)
            .commit(&[-1], &[-1, -1, -1]),
    ]
}

/// Several motors: a step is nu commands, each of which goes to its own motor. One sweep.
fn motors() -> Vec<Script> {
    // (−2, −10) at both steps, held to −4 at the first. h = 0: −1, −2, −1, −5.
    let four = Script::of("two motors, two steps", &motors_and_steps().iterations(1))
        .ask(&[10], &[-10, -4, -2, -10, 1, 1, 1, 1], 10)
        .commit(&[-10, -4], &[-2, -4, -2, -10])
        .ask(&[0], &[-1, -2, -1, -5, 1, 1, 1, 1], 5)
        .commit(&[-1, -2], &[-1, -4, -1, -5]);
    // One step: what was issued is where the next begins. −5, −2, −1, −5.
    let one = Script::of("four motors, one step", &with_steps(4, &super::FOUR).iterations(1))
        .ask(&[10], &[-10, -4, -2, -10, 1, 1, 1, 1], 10)
        .commit(&[-10, -4, -2, -10], &[-10, -4, -2, -10])
        .ask(&[0], &[-5, -2, -1, -5, 1, 1, 1, 1], 5);
    // (−4, −2, −10, −10), held to −2 at the third step. −2, −1, −1, −5.
    let steps = Script::of("one motor, four steps", &with_steps(1, &super::FOUR).iterations(1))
        .ask(&[10], &[-10, -4, -2, -10, 1, 1, 1, 1], 10)
        .commit(&[-10], &[-4, -2, -2, -10])
        .ask(&[0], &[-2, -1, -1, -5, 1, 1, 1, 1], 5)
        .commit(&[-2], &[-1, -1, -2, -5]);
    vec![four, one, steps]
}

/// Φ of the commands 0, −1, −2 and so on for state 10: ten times it over 16 is a count, or a fraction above it.
const GAINS: [i64; 16] = [0, 2, 4, 5, 7, 8, 10, 12, 13, 15, 16, 18, 20, 21, 23, 24];

/// Every command another, after one sweep: those from `first` on. Inputs beside the first state take no part.
fn unlike(motors: usize, steps: usize, first: usize, [states, targets]: [usize; 2]) -> Draft {
    let mut draft = uncoupled(Sizes { motors, steps, states, targets, ..sample().sizes }).iterations(1);
    draft.section(GAIN).fill(0);
    draft.section(GAIN).iter_mut().step_by(states).zip(&GAINS[first..]).for_each(|(gain, word)| *gain = *word);
    draft.section(STATE_LIMIT).fill(0);
    draft.section(STATE_LIMIT)[0] = 10;
    draft
}

/// Of these the largest image, and its states.
pub fn largest() -> Draft {
    unlike(4, 4, 0, [12, 4])
}

pub fn state_of(first: i64) -> Vec<i64> {
    [&[first][..], &[0; 11]].concat()
}

/// Minus 4 to minus 15, and the last step twice.
fn largest_moved() -> Vec<i64> {
    (4..16).chain(12..16).map(|k| -k).collect()
}

/// A drive of the largest image is asked for the commands 0 to −15, and commits them.
pub fn ask_largest(script: Script) -> Script {
    let row = [(0..16).map(|k| -k).collect::<Vec<i64>>(), vec![1; 16]].concat();
    script.ask(&state_of(10), &row, 14).to(&[0; 4])
}

pub fn commit_largest(script: Script) -> Script {
    script.commit(&[0, -1, -2, -3], &largest_moved())
}

/// The command minus k is 8 k − 10 Φ away: 52 for the sixth of these is the largest, and 106 for the fourteenth, as the
/// low limit holds the two behind it to 96 and 80.
fn many_commands() -> Vec<Script> {
    let with_bounds = |commands: Vec<i64>| [&commands[..], &vec![1; commands.len()]].concat();
    let halves = |start: &[i64]| with_bounds(start.iter().map(|word| word.div_euclid(2)).collect());
    let six = with_bounds(vec![-1, -2, -3, -4, -5, -6]);
    let of = |name: &str, motors: usize, start: &[i64]| {
        let draft = unlike(motors, 6 / motors, 1, [1, 0]);
        let issued: Vec<i64> = (1..=motors as i64).map(|k| -k).collect();
        let script = Script::of(name, &draft).ask(&[10], &six, 7).commit(&issued, start);
        script.ask(&[0], &halves(start), 3)
    };
    let moved = largest_moved();
    let again: Vec<i64> = moved[4..].iter().chain(&moved[12..]).map(|word| word.div_euclid(2)).collect();
    vec![
        of("one motor, six steps", 1, &[-2, -3, -4, -5, -6, -6]),
        of("two motors, three steps", 2, &[-3, -4, -5, -6, -5, -6]),
        of("three motors, two steps", 3, &[-4, -5, -6, -4, -5, -6]),
        commit_largest(ask_largest(Script::of("the largest image", &largest())))
            .ask(&state_of(0), &halves(&moved), 8)
            .to(&[0; 4])
            .commit(&[-2, -3, -3, -4], &again),
    ]
}

/// Where the words of an image with one command lie in a drive.
fn word_of(draft: &Draft, kind: u8) -> usize {
    IMAGE + 4 * (HEADER_WORDS + draft.sizes.extent(kind).0)
}

/// Something else writes to the start, the answer, or the word that tells whether one waits.
fn damaged_waiting() -> Vec<Script> {
    let s = |name: &str| Script::of(name, &sample());
    let asked = |name: &str| s(name).ask(&[10], &[-18, 3], 2);
    let word = |name: &str, bytes: [u8; 4]| s(name).put(WAITS, &bytes).commit(&[0], &[0]).no_commit(18);
    vec![
        word("another word than 1 waits", [0, 0, 0, 2]),
        word("a word of one high byte waits", [1, 0, 0, 0]),
        word("a word of another byte waits", [0, 0, 1, 0]),
        word("a word of ones waits", [255; 4]),
        asked("the word is cleared").put(WAITS, &[0; 4]).no_commit(18).start(&[0]).ask(&[10], &[-18, 3], 2),
        // What was answered is issued as it waits, and held as a start alone.
        // From 20: 0; −10; −5 − 10.
        asked("another answer").put_word(ANSWER, 21).commit(&[21], &[20]).ask(&[10], &[-15, 3], 5),
        asked("another answer, below").put_word(ANSWER, -21).commit(&[-21], &[-20]),
        asked("an answer at the end of 32 bits").put_word(ANSWER, i32::MAX as i64).commit(&[i32::MAX as i64], &[20]),
        asked("the least answer").put_word(ANSWER, i32::MIN as i64).commit(&[i32::MIN as i64], &[-20]),
        asked("another answer, asked over").put_word(ANSWER, 5).ask(&[10], &[-18, 3], 2).commit(&[-18], &[-18]),
        // Behind 16 and before 15.
        asked("a start beyond its limit")
            .put_word(START, 21)
            .no_ask(&[10], 14)
            .no_ask(&[10], 14)
            .room(8)
            .commit(&[-18], &[-18]),
        s("a start below its limit").put_word(START, -21).no_ask(&[11], 13).no_ask(&[10], 16).to(&[0]).no_ask(&[0], 14),
        s("a start at its limit").put_word(START, -20).ask(&[10], &[-20, 3], 0).commit(&[-20], &[-20]),
        // Words behind the start's and the answer's are nobody's, and stay.
        asked("words behind")
            .put_word(START + 4, 99)
            .put_word(ANSWER + 16, 99)
            .commit(&[-18], &[-18])
            .ask(&[10], &[-20, 3], 0)
            .commit(&[-20], &[-20]),
    ]
}

/// Limits that no solve takes, and a commit does. One sweep, from the start that such a commit leaves, once the limits
/// are −20 and 20 again: half of it, rounded down, or 14.
fn damaged_limits() -> Vec<Script> {
    let s = sample().iterations(1);
    let [low, high] = [LOW, HIGH].map(|kind| word_of(&s, kind));
    let of = |name: &str, limits: (i64, i64), number: Number, answer: i64, start: i64| {
        let script = Script::of(name, &s).ask(&[10], &[-10, 1], 10).put_word(ANSWER, answer);
        let script = script.put_word(low, limits.0).put_word(high, limits.1);
        let script = script.no_ask(&[10], number).commit(&[answer], &[start]).no_commit(18);
        let script = script.put_word(low, -20).put_word(high, 20);
        match start {
            -20..=20 => script.ask(&[0], &[start.div_euclid(2), 1], start.div_euclid(2).unsigned_abs()),
            _ => script.no_ask(&[0], 14),
        }
    };
    vec![
        of("a low above zero", (1, 20), 17, -18, 1),
        of("a high below zero", (-20, -1), 17, 3, -1),
        of("limits beyond the word", (-1000, 1000), 5, -900, -900),
        of("a high beyond the word", (-20, 1000), 5, 1001, 1000),
        // The low is tested first.
        of("crossing limits, below both", (5, 3), 7, 2, 5),
        of("crossing limits, at the high", (5, 3), 7, 3, 5),
        of("crossing limits, between", (5, 3), 7, 4, 5),
        of("crossing limits, at the low", (5, 3), 7, 5, 3),
        of("crossing limits, above both", (5, 3), 7, 10, 3),
        of("crossing limits, at the ends of 32 bits", (i32::MAX as i64, i32::MIN as i64), 5, 0, i32::MAX as i64),
    ]
}

/// Other words of the image, and its length.
fn damaged_images() -> Vec<Script> {
    let s = |name: &str| Script::of(name, &sample()).ask(&[10], &[-18, 3], 2);
    let word = |name: &str, kind: u8, word: i64, number: Number| {
        s(name).put_word(word_of(&sample(), kind), word).no_ask(&[10], number).commit(&[-18], &[-18])
    };
    let length = |length: i64, number: Number| {
        let script = s(&format!("a length word of {length}")).put_word(0, length);
        script.no_ask(&[10], number).no_commit(number).no_commit(number).room(8).no_commit(15).length(MADE_LEN - 1)
    };
    // (8, 1), (0, 8) is 8, with the answer of two commands that have no part in each other.
    let skew = Script::of("a table that is not symmetric", &two_steps(8, 0)).ask(&[10], &[-18, -18, 3, 3], 2);
    let mut scripts = vec![
        word("H 0", COST, 0, 9),
        word("H 17", COST, 17, 10),
        word("H beyond the word", COST, 128, 5),
        word("β -1", MOMENTUM, -1, 11),
        word("a state limit of 118", STATE_LIMIT, 118, 12),
        word("a state limit of -1", STATE_LIMIT, -1, 5),
        skew.put_word(IMAGE + 4 * HEADER_WORDS + 4, 1).no_ask(&[10], 8).commit(&[-18], &[-18, -18]),
        // Another table that a solve takes: from zero −5; −3 − 5 for −2.5; −4 − 5.
        s("another Φ").put_word(word_of(&sample(), GAIN), 8).ask(&[10], &[-9, 3], 1).commit(&[-9], &[-9]),
    ];
    scripts.extend([0, 31, 32, 52, 55, 57, 60, 2276, 2277, 56 + (1 << 24), -1].map(|word| length(word, 6)));
    let largest =
        |word: i64| Script::of(&format!("the largest image, a length word of {word}"), &largest()).put_word(0, word);
    // A word beyond the largest image counts as its length.
    let beyond = [2277, 2280, 1 << 30, i32::MIN as i64, -1];
    scripts.extend(beyond.map(|word| commit_largest(ask_largest(largest(word)))));
    scripts.extend([2272, 2275].map(|word| largest(word).no_ask(&state_of(10), 6).to(&[0; 4]).no_commit(6)));
    scripts
}

/// Other sizes: their number goes before that of a commit's length.
fn damaged_sizes() -> Vec<Script> {
    let size = |index: usize, word: i64, number: Number| {
        let name = format!("image word {index} is {word}");
        let script = Script::of(&name, &sample()).ask(&[10], &[-18, 3], 2).put_word(IMAGE + 4 * index, word);
        script.no_ask(&[10], number).no_ask(&[11], number).room(0).no_commit(number).no_commit(number).room(0)
    };
    let mut scripts: Vec<Script> = [
        (0, 0),
        (0, 5),
        (1, 0),
        (1, 17),
        (2, 0),
        (2, 13),
        (3, 3),
        (3, 7),
        (4, 7),
        (4, 33),
        (5, 0),
        (5, 401),
        (6, 5),
        (7, 1),
    ]
    .map(|(index, word)| size(index, word, 3))
    .into();
    scripts.extend([(0, 2), (1, 2), (2, 2), (6, 1)].map(|(index, word)| size(index, word, 6)));
    // b, W and sweeps leave the length as it is: S with one sweep.
    let sweeps = Script::of("other sweeps", &sample()).put_word(IMAGE + 20, 1);
    scripts.push(sweeps.ask(&[10], &[-10, 1], 10).commit(&[-10], &[-10]));
    // Four steps become four motors: all four commands are issued, and are where the next begins.
    let asked = [-10, -4, -2, -10];
    let turned = Script::of("motors for steps", &with_steps(1, &super::FOUR).iterations(1));
    let turned = turned.ask(&[10], &[-10, -4, -2, -10, 1, 1, 1, 1], 10).put(IMAGE, &bytes(&[4, 1]));
    scripts.push(turned.no_commit(15).no_commit(0).room(16).issues(&asked).start(&asked));
    let turned = Script::of("steps for motors", &with_steps(4, &super::FOUR).iterations(1));
    let turned = turned.ask(&[10], &[-10, -4, -2, -10, 1, 1, 1, 1], 10).put(IMAGE, &bytes(&[1, 4]));
    scripts.push(turned.no_commit(15).no_commit(0).room(4).issues(&asked[..1]).start(&[-4, -2, -2, -10]));
    scripts
}
