//! The cases of request 8. As in S a count is 1/16 and H is 8, unless the case says otherwise. Where no limit holds its
//! step, a command z of S has the difference −8 z − G, and D is its distance from −G / 8, rounded up.

use super::Expect::*;
use super::sums::resized;
use super::{Case, case, coupled, label, runs, sample, two_steps, uncoupled, with_distances, with_steps, with_target};
use crate::draft::Draft;
use crate::image::{COST, GAIN, HIGH, LOW, MOMENTUM, STATE_LIMIT, Sizes, bytes};
use crate::process::{Folder, Table};
use crate::sheet::hex;

pub fn table() -> Vec<Case> {
    let solved = [fractions(), held_steps(), from_starts(), apart(), places(), coupled_pairs(), far()];
    solved.into_iter().chain([lengths(), behind_other_numbers()]).flatten().collect()
}

/// S with another Φ, beside which G is ten times it, or minus that.
fn with_gain(gain: i64) -> Draft {
    sample().with(GAIN, &[gain])
}

/// An optimum between two counts, which no command reaches.
fn fractions() -> Vec<Case> {
    // G = 150: −18.75. h = 9 for 9.375: −9; −5 − 9 for −4.5; −7 − 9; −8 − 9; −9 − 9 for −8.5. The differences are 78,
    // 38, 22, 14 and 6 over 8.
    let rows: [&[i64]; 5] = [&[-9, 1], &[-14, 2], &[-16, 3], &[-17, 3], &[-18, 3]];
    let mut table = with_distances(runs("an optimum of -18.75", &with_gain(15), &[10], &rows), &[10, 5, 3, 2, 1]);
    // G = −150: 18.75. h = −10: 10; 5 + 10; 7 + 10 for 7.5; 8 + 10 for 8.5; 9 + 10: 70, 30, 14 and 6, and 2 beyond.
    let rows: [&[i64]; 5] = [&[10, 1], &[15, 2], &[17, 3], &[18, 3], &[19, 3]];
    table.extend(with_distances(runs("an optimum of 18.75", &with_gain(15), &[-10], &rows), &[9, 4, 2, 1, 1]));
    // H = 7 and M = 9, G = 10: −10 / 7. h = 0: nothing moves. 10 / 7 is 2.
    let seven = with_gain(1).with(COST, &[7]).iterations(1);
    table.push(case("an optimum of -10 / 7", &seven, &[10], Answer(vec![0, 1])).distance(2));
    table
}

/// The gradient step leads beyond a limit, and the command may be at it or not.
fn held_steps() -> Vec<Case> {
    // G = 200, −25 unheld. h = 12 for 12.5: −12; −6 − 12; −9 − 12, held. −104 leads to −18.5; −56 beyond −20, which is
    // 2 counts away (by itself it would be 7); from −20 the step leads back to it (by itself 5).
    let rows: [&[i64]; 3] = [&[-12, 1], &[-18, 2], &[-20, 3]];
    let mut table = with_distances(runs("a step beyond the low limit", &with_gain(20), &[10], &rows), &[13, 4, 0]);
    // h = −13: 13; 6 + 13 for 6.5; 9 + 13 for 9.5, held. 96 leads to 19, and 48 beyond 20, a count away.
    let rows: [&[i64]; 3] = [&[13, 1], &[19, 2], &[20, 3]];
    table.extend(with_distances(runs("a step beyond the high limit", &with_gain(20), &[-10], &rows), &[12, 2, 0]));
    // −160 at zero, and 160.
    let held: [&[i64]; 2] = [&[0, 1], &[0, 2]];
    let zero = |limits, state: i64| runs("held at zero", &with_steps(1, &[limits]), &[state], &held);
    table.extend(with_distances(zero((0, 20), 10), &[0, 0]));
    table.extend(with_distances(zero((-20, 0), -10), &[0, 0]));
    table.push(case("the one command", &with_steps(1, &[(0, 0)]), &[10], Answer(vec![0, 0])).distance(0));
    // At step 1 −40 − 160 is held to −5 + 5; with the limits of step 0 it would be 120.
    let rows: [&[i64]; 2] = [&[-10, -5, 1, 1], &[-15, -5, 2, 2]];
    let steps = with_steps(1, &[(-20, 20), (-5, 5)]);
    table.extend(with_distances(runs("a step held at step 1", &steps, &[10], &rows), &[10, 5]));
    table
}

/// D is that of the commands after the sweep, and not of the start.
fn from_starts() -> Vec<Case> {
    let of = |name: &str, momentum: i64, [start, command]: [i64; 2], distance: u64| {
        let draft = sample().with(MOMENTUM, &[momentum]).iterations(1);
        case(name, &draft, &[10], Answer(vec![command, 1])).start(&[start]).distance(distance)
    };
    vec![
        of("away from a start 40 from the optimum", 0, [20, 0], 20),
        of("a start at the optimum", 0, [-20, -20], 0),
        of("a start beside the optimum", 0, [-19, -20], 0),
        of("a start at zero", 8, [0, -10], 10),
        // y is −24 + 4, at the optimum, which z is not.
        of("a y at the optimum", 8, [-8, -14], 6),
        // M is 0, and D is what rounding h leaves.
        case("H 16", &with_gain(15).with(COST, &[16]), &[10], Answer(vec![-9, 1])).distance(1),
    ]
}

/// Commands with no part in each other, after one sweep from zero with β 3: the diagonal of H, and h in quarters of 10
/// counts, of which z is minus the whole counts.
fn uneven(name: &str, diagonal: &[i64], gains: &[i64], distance: u64) -> Case {
    let n = diagonal.len();
    let mut draft =
        uncoupled(Sizes { steps: n, ..sample().sizes }).with(GAIN, gains).with(MOMENTUM, &[3]).iterations(1);
    draft.section(COST).iter_mut().step_by(n + 1).zip(diagonal).for_each(|(entry, word)| *entry = *word);
    let commands = gains.iter().map(|gain| -(10 * gain / 16));
    case(name, &draft, &[10], Answer(commands.chain(vec![1; n]).collect())).distance(distance)
}

/// R and m of different commands. A Φ of 16 has z = −10, and with H 8 the difference 80, with H 4 120; a Φ of 4 has −2,
/// and 24 or 32.
fn apart() -> Vec<Case> {
    vec![
        uneven("R first, m last", &[8, 4], &[16, 4], 20),
        uneven("R last, m first", &[4, 8], &[4, 16], 20),
        uneven("R and m first", &[4, 8], &[16, 4], 30),
        uneven("R and m last", &[8, 4], &[4, 16], 30),
        uneven("R first of three, m between", &[8, 4, 8], &[16, 4, 4], 20),
        uneven("R last of three, m between", &[8, 4, 8], &[4, 4, 16], 20),
        uneven("R between, m first of three", &[4, 8, 8], &[4, 16, 4], 20),
        uneven("R between, m last of three", &[8, 8, 4], &[4, 16, 4], 20),
        uneven("R and m between", &[8, 4, 8], &[4, 16, 4], 30),
        // 120 upward and 80 downward, and the reverse: −10 × −16 / 16 and −4 × −10 + 160.
        uneven("R upward", &[8, 4], &[16, -16], 30),
        uneven("R downward", &[4, 8], &[16, -16], 30),
        // Each would be 10.
        uneven("R twice", &[8, 8, 8], &[16, -16, 16], 10),
        uneven("no R", &[8, 4, 8], &[0, 0, 0], 0),
        // 80 / 7, and 80 / 6: 11.4 and 13.3.
        uneven("R over 7", &[8, 7], &[16, 0], 12),
        uneven("R over 6", &[6, 8], &[0, 16], 14),
    ]
}

/// The same at places of five, nine and sixteen commands.
fn places() -> Vec<Case> {
    let at = |n: usize, largest: usize, least: usize| {
        let (mut diagonal, mut gains) = (vec![8; n], vec![4; n]);
        (gains[largest], diagonal[least]) = (16, 4);
        uneven(&format!("{n} commands, R at {largest}, m at {least}"), &diagonal, &gains, 20)
    };
    let sizes: [(usize, &[usize]); 3] = [(5, &[0, 1, 2, 3, 4]), (9, &[0, 4, 8]), (16, &[0, 4, 15])];
    sizes.into_iter().flat_map(|(n, at_k)| at_k.iter().map(move |&k| at(n, k, (k + n / 2) % n))).collect()
}

/// H is (9, x), (x, 10), of margins 3 and 4, and β 7; the state is 0, and so the optimum.
fn coupled_pairs() -> Vec<Case> {
    let of = |x: i64, start: [i64; 2], commands: [i64; 2], distance: u64| {
        let draft = two_steps(9, x).with(COST, &[9, x, x, 10]).with(MOMENTUM, &[7]).iterations(1);
        let answer = Answer([commands, [1, 1]].concat());
        case(&format!("H beside its diagonal {x}"), &draft, &[0], answer).start(&start).distance(distance)
    };
    let mut table = vec![
        // (112 + 48) / 16 and (96 + 48) / 16. 90 − 54 = 36 over 3, and −60 + 90.
        of(-6, [16, 8], [10, 9], 12),
        // (112 − 48) / 16 and (−96 + 48) / 16. 36 − 18 over 3, and 24 − 30.
        of(6, [16, 8], [4, -3], 6),
        of(6, [-16, -8], [-4, 3], 6),
        // 28 − 96 is −5 for −4.25, and −24 + 96 is 4 for 4.5: −45 + 24 = −21, and −30 + 40.
        of(6, [4, 16], [-5, 4], 7),
    ];
    // H (8,4),(4,8), G 160 for both: the optimum is (−40, −40) / 3, and z = (−10, −10) has 120 − 160 over 4.
    let both: [&[i64]; 1] = [&[-10, -10, 1, 1]];
    table.extend(with_distances(runs("an optimum of -40 / 3", &coupled([(-20, 20); 2]), &[10], &both), &[10]));
    table
}

/// At b 20 in words of 32 bits: a state of (q, r) has G = 2^20 q + r, so that one sweep from zero gives −q, and D is
/// (2^20 − H) q + r over H.
fn wide(cost: i64) -> Draft {
    wide_beside(1).with(COST, &[cost])
}

const FAR: i64 = 1 << 30;

fn of_wide(cost: i64, state: [i64; 2], command: i64, distance: u64) -> Case {
    let name = format!("D of {distance:X}, H {cost}");
    case(&name, &wide(cost), &state, Answer(vec![command, 1])).distance(distance)
}

/// D of eight digits and of more. It may be far above the width, which is 2^31.
fn far() -> Vec<Case> {
    let full = 1u64 << 32;
    vec![
        // 2^32 − 2^12 + r.
        of_wide(1, [4096, 4095], -4096, full - 1),
        of_wide(1, [4096, 4096], -4096, full),
        of_wide(1, [4096, 4097], -4096, full + 1),
        // Below zero h is rounded down: z is 4097, or with r 0 4096.
        of_wide(1, [-4096, -4096], 4097, full - 1),
        of_wide(1, [-4096, -4097], 4097, full),
        of_wide(1, [-4096, 0], 4096, full - 4096),
        // 3 × 2^32 − 36864 + r, over 3.
        of_wide(3, [12288, 36861], -12288, full - 1),
        of_wide(3, [12288, 36862], -12288, full),
        of_wide(3, [12288, 36864], -12288, full),
        of_wide(3, [12288, 36865], -12288, full + 1),
        // 2^31 − 2^11 + r.
        of_wide(1, [2048, 2047], -2048, (1 << 31) - 1),
        of_wide(1, [2048, 2048], -2048, 1 << 31),
        // Every digit another: (2^20 − 1) × 305420187 + 918376.
        of_wide(1, [305420187, 918376], -305420187, 0x0001_2345_6789_ABCD),
        // 2^49 − 2^29 + 2^20 − 1.
        of_wide(1, [FAR / 2, (1 << 20) - 1], -FAR / 2, 0x0001_FFFF_E00F_FFFF),
        // The step from −2^28 leads to about −2^29, and the low limit holds it 2^27 counts away.
        case("a far step, held", &wide(1).with(LOW, &[-3 << 27]), &[1 << 28, 0], Answer(vec![-1 << 28, 1]))
            .distance(1 << 47),
    ]
}

/// The buffer has 8n + 8 bytes: not 8n, as before, nor half of D, nor a D for each command.
fn lengths() -> Vec<Case> {
    let of = |draft: &Draft, spare: isize| {
        let name = format!("{} commands, {spare} bytes too many", draft.sizes.commands());
        case(&name, draft, &[10], Refused(15)).spare(spare)
    };
    let (one, two, four) = (sample(), two_steps(8, 0), with_steps(2, &[(-20, 20); 4]));
    let mut table: Vec<Case> = [-16, -12, -9, -8, -7, -4, -1, 1, 4, 7, 8, 9, 16].map(|spare| of(&one, spare)).into();
    table.extend([-24, -16, -9, -8, -4, -1, 1, 4, 8, 16].map(|spare| of(&two, spare)));
    table.extend([-40, -24, -8, -4, -1, 1, 4, 8, 24].map(|spare| of(&four, spare)));
    table
}

/// 15 is tested last, on a buffer of the former length as on any other.
fn behind_other_numbers() -> Vec<Case> {
    let s = with_target();
    let of = |number, [state, target, start]: [i64; 3]| {
        let name = format!("{number} before 15 with the former length");
        case(&name, &s, &[state], Refused(number)).target(&[target]).start(&[start]).spare(-8)
    };
    let tables = case("12 before 15 with the former length", &sample().with(STATE_LIMIT, &[118]), &[10], Refused(12));
    vec![of(13, [11, 8, 21]), of(16, [10, 8, 21]), of(14, [10, 7, 21]), of(15, [10, 7, 20]), tables.spare(-8)]
}

/// The label program's folders: cases of eight digits, and those that take sixteen, with one command and with more.
pub fn folders() -> Table {
    let full = 1 << 32;
    let last = [of_wide(1, [4096, 4095], -4096, full - 1), of_wide(3, [12288, 36861], -12288, full - 1)];
    let eight = [fractions(), held_steps(), apart(), places()].into_iter().flatten().chain(last);
    let sixteen = [
        folder(&wide(1), [4096, 4096], "FFFFF000 00000001 0000000100000000\n"),
        folder(&wide(1), [4096, 4097], "FFFFF000 00000001 0000000100000001\n"),
        folder(&wide(3), [12288, 36862], "FFFFD000 00000001 0000000100000000\n"),
        folder(&wide(1), [305420187, 918376], "EDCBA865 00000001 000123456789ABCD\n"),
    ];
    let beside = [2, 16].into_iter().flat_map(|steps| {
        [([4096, 4095], "FFFFFFFF"), ([4096, 4096], "0000000100000000")].map(|(state, d)| {
            let others = format!("00000000 00000001 {d}\n").repeat(steps - 1);
            folder(&wide_beside(steps), state, &format!("FFFFF000 00000001 {d}\n{others}"))
        })
    });
    eight.map(|case| label(&case)).chain(sixteen).chain(beside).collect()
}

/// The wide problem with more commands, which stay at 0.
fn wide_beside(steps: usize) -> Draft {
    let mut draft = resized(uncoupled(Sizes { steps, states: 2, ..sample().sizes }), 20, 32).iterations(1);
    draft.section(COST).iter_mut().step_by(steps + 1).for_each(|diagonal| *diagonal = 1);
    draft.section(GAIN).fill(0);
    draft.section(GAIN)[..2].copy_from_slice(&[1 << 20, 1]);
    draft.section(LOW).fill(-FAR);
    draft.section(HIGH).fill(FAR);
    draft.with(STATE_LIMIT, &[FAR / 2, 1 << 20])
}

fn folder(draft: &Draft, state: [i64; 2], text: &str) -> (Folder, String) {
    let state = hex(&bytes(&state)) + "\n";
    (Folder { drive: Some(draft.sheet()), state: Some(state.into_bytes()), target: None }, text.to_string())
}
