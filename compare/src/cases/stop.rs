//! The cases of request 6: zero at a limit, 17 at every command, and its place among the numbers.

use super::Expect::{self, *};
use super::sums::{TOP, resized};
use super::{
    Case, FOUR, PAGE_OF_THREE_STEPS, SAMPLE, case, one_sided, page_case, runs, sample, sheet_case, two_steps,
    with_distances, with_doubles, with_steps, with_target,
};
use crate::draft::Draft;
use crate::image::{COST, GAIN, HIGH, LOW, MOMENTUM, Number, STATE_LIMIT, TARGET_LIMIT};
use crate::process::{Folder, Table};
use crate::sheet::LINE;

pub fn table() -> Vec<Case> {
    let zeros = [zero_at_limits(), starts_at_zero(), rounded_to_zero()];
    let refused = [refused_limits(), refused_commands(), refused_sheets()];
    let places = [behind_7(), behind_other_numbers(), behind_lines(), before_8(), before_13()];
    zeros.into_iter().chain(refused).chain(places).flatten().collect()
}

/// Sheets that are refused, those of 17 among them, for the programs.
pub fn sheets() -> Vec<(Vec<u8>, Number)> {
    let refused = |case: Case| match case.expect {
        Refused(number) => Some((case.sheet, number)),
        _ => None,
    };
    let lists = [rounded_to_zero(), refused_sheets(), behind_7(), behind_lines(), before_8()];
    lists.into_iter().flatten().filter_map(refused).collect()
}

/// The label program's folders: what "one-sided steps" come to after three sweeps, and those sheets without a state,
/// whose 13 comes later.
pub fn folders() -> Table {
    let folder = |drive: Vec<u8>, state: Option<&str>, text: String| {
        let state = state.map(|state| state.as_bytes().to_vec());
        (Folder { drive: Some(drive), state, target: None }, text)
    };
    let answer = |state: &str, text: &str| folder(one_sided().sheet(), Some(state), text.to_string());
    let mut table = vec![
        // −18 is 2 from −20, and 17 is 3 from 20.
        answer("0000000A\n", "00000000 00000003 00000002\nFFFFFFEE 00000003 00000002\n00000000 00000000 00000002\n"),
        answer("FFFFFFF6\n", "00000011 00000003 00000003\n00000000 00000003 00000003\n00000000 00000000 00000003\n"),
    ];
    table.extend(sheets().into_iter().map(|(drive, number)| folder(drive, None, format!("refused {number:02}\n"))));
    table
}

/// Limits that miss zero by a count.
const ABOVE: (i64, i64) = (1, 20);
const BELOW: (i64, i64) = (-20, -1);
const WIDE: (i64, i64) = (-20, 20);

/// S with other limits.
fn within(limits: (i64, i64)) -> Draft {
    with_steps(1, &[limits])
}

/// A sweep makes z into half of z, rounded, less h, held; e is 1, 2, 3, or w.
fn zero_at_limits() -> Vec<Case> {
    // h = −10: 10, 5 + 10, 7 + 10 for 7.5. h = 10: −10, −5 − 10, −8 − 10 for −7.5.
    let upward: [&[i64]; 3] = [&[10, 1], &[15, 2], &[17, 3]];
    let downward: [&[i64]; 3] = [&[-10, 1], &[-15, 2], &[-18, 3]];
    let held: [&[i64]; 3] = [&[0, 1], &[0, 2], &[0, 3]];
    let list: [(&str, (i64, i64), i64, [&[i64]; 3]); 8] = [
        ("zero at the low limit", (0, 20), -10, upward),
        ("held to zero at the low limit", (0, 20), 10, held),
        ("zero at the high limit", (-20, 0), 10, downward),
        ("held to zero at the high limit", (-20, 0), -10, held),
        ("zero at both limits", (0, 0), 10, [&[0, 0]; 3]),
        ("zero at both limits, upward", (0, 0), -10, [&[0, 0]; 3]),
        ("limits 0 and 1", (0, 1), -10, [&[1, 1]; 3]),
        ("limits -1 and 0", (-1, 0), 10, [&[-1, 1]; 3]),
    ];
    let run = |(name, limits, state, rows): (&str, _, i64, [&[i64]; 3])| runs(name, &within(limits), &[state], &rows);
    let mut table: Vec<Case> = list.into_iter().flat_map(run).collect();
    let rows: [&[i64]; 3] = [&[0, -10, 0, 1, 1, 0], &[0, -15, 0, 2, 2, 0], &[0, -18, 0, 3, 3, 0]];
    table.extend(with_distances(runs("one-sided steps", &one_sided(), &[10], &rows), &[10, 5, 2]));
    let rows: [&[i64]; 3] = [&[10, 0, 0, 1, 1, 0], &[15, 0, 0, 2, 2, 0], &[17, 0, 0, 3, 3, 0]];
    table.extend(with_distances(runs("one-sided steps, upward", &one_sided(), &[-10], &rows), &[10, 5, 3]));
    let rows: [&[i64]; 3] = [&[0, -10, 1, 1], &[0, -15, 2, 2], &[0, -18, 3, 3]];
    table.extend(runs("one-sided motors", &with_steps(2, &[(0, 20), (-20, 0)]), &[10], &rows));
    let rows: [&[i64]; 3] =
        [&[-10, 0, -10, 0, 1, 1, 1, 0], &[-15, 0, -15, 0, 2, 2, 2, 0], &[-18, 0, -18, 0, 3, 3, 3, 0]];
    let four = with_steps(2, &[WIDE, (0, 20), (-20, 0), (0, 0)]);
    table.extend(runs("one-sided motors and steps", &four, &[10], &rows));
    table.extend(headroom_at_zero());
    table
}

/// A is 10, as in S, and where Y is 0 it is 0.
fn headroom_at_zero() -> [Case; 5] {
    let headroom = |limits, state_limit: i64, expect| {
        let name = format!("limits {limits:?}, state limit {state_limit}");
        case(&name, &within(limits).with(STATE_LIMIT, &[state_limit]), &[10], expect)
    };
    [
        headroom((0, 20), 117, Accepted),
        headroom((0, 20), 118, Refused(12)),
        headroom((-20, 0), 117, Accepted),
        headroom((-20, 0), 118, Refused(12)),
        headroom((0, 0), 127, Accepted),
    ]
}

/// Zero is a start wherever the image is accepted, and others are tested as before.
fn starts_at_zero() -> Vec<Case> {
    let of = |name: &str, limits, start: i64, expect: Expect| {
        case(name, &within(limits).iterations(1), &[10], expect).start(&[start])
    };
    vec![
        // 20 / 2 − 10, 0 / 2 − 10, held, and −20 / 2 − 10.
        of("a start at the far limit", (0, 20), 20, Answer(vec![0, 1])),
        of("a start at the low limit of zero", (0, 20), 0, Answer(vec![0, 1])),
        of("a start at the high limit of zero", (-20, 0), 0, Answer(vec![-10, 1])),
        of("a start at the far low limit", (-20, 0), -20, Answer(vec![-20, 1])),
        of("the one start", (0, 0), 0, Answer(vec![0, 0])),
        of("a start below the low limit of zero", (0, 20), -1, Refused(14)),
        of("a start above the high limit of zero", (-20, 0), 1, Refused(14)),
        of("a start above the one", (0, 0), 1, Refused(14)),
        of("a start below the one", (0, 0), -1, Refused(14)),
    ]
}

const HALF: f64 = 0.03125;
/// The first subnormal.
const TINY: f64 = f64::from_bits(1);

/// Lows are rounded up and highs down, so that a limit on the wrong side of zero is a count away from it at least.
fn rounded_to_zero() -> Vec<Case> {
    let of = |low: f64, high: f64, expect| {
        with_doubles(&format!("limits {low:e} and {high:e}"), &sample(), &[(LOW, low), (HIGH, high)], expect)
    };
    // Behind the low comes the high. A high of 1.25 is 20.
    let words = |low: f64, high: f64, words: [i64; 2]| of(low, high, Words(LOW, words.to_vec()));
    vec![
        words(-HALF, 1.25, [0, 20]),
        words(-1.25, HALF, [-20, 0]),
        words(-HALF, HALF, [0, 0]),
        words(-TINY, TINY, [0, 0]),
        words(0.0, 0.0, [0, 0]),
        words(-0.0, -0.0, [0, 0]),
        words(0.0, -0.0, [0, 0]),
        words(-0.0, 1.25, [0, 20]),
        words(-1.25, -0.0, [-20, 0]),
        words(-2.0 * HALF, 2.0 * HALF, [-1, 1]),
        // −18 is held to 0.
        of(-HALF, 1.25, Answer(vec![0, 3])),
        of(-TINY, HALF, Answer(vec![0, 0])),
        of(HALF, 1.25, Refused(17)),
        of(TINY, 1.25, Refused(17)),
        of(2.0 * HALF, 1.25, Refused(17)),
        of(1.25, 1.25, Refused(17)),
        of(TINY, 2.0 * HALF, Refused(17)),
        of(-1.25, -HALF, Refused(17)),
        of(-1.25, -TINY, Refused(17)),
        of(-1.25, -2.0 * HALF, Refused(17)),
        of(-1.25, -1.25, Refused(17)),
        of(-2.0 * HALF, -TINY, Refused(17)),
        // 1 and 0, and 0 and −1.
        of(TINY, TINY, Refused(7)),
        of(-HALF, -HALF, Refused(7)),
        of(-TINY, -TINY, Refused(7)),
        of(0.0, -TINY, Refused(7)),
        of(TINY, 0.0, Refused(7)),
    ]
}

/// With a start that the limits hold, and with zero.
fn refused_limits() -> Vec<Case> {
    let small = [ABOVE, (1, 1), (2, 20), (16, 20), (20, 20), (127, 127), BELOW, (-1, -1), (-20, -2), (-20, -16)];
    let more = [(-20, -20), (-127, -127), (1, 127), (-127, -1)];
    // 2^32 and more, which 32 bits do not hold.
    let power = 1 << 16;
    let large = [(power, power), (power, 2 * power), (-power, -power), (TOP, TOP), (-TOP, -TOP), (1, TOP), (-TOP, -1)];
    let in_32_bits = |limits| resized(within(limits), 4, 32);
    let drafts = small.into_iter().chain(more).map(within).chain(large.map(in_32_bits));
    let either = |draft: Draft| {
        let (low, high) = (draft.clone().section(LOW)[0], draft.clone().section(HIGH)[0]);
        let refused = || case(&format!("limits {low} and {high}"), &draft, &[10], Refused(17));
        [refused().start(&[low]), refused().start(&[high]), refused()]
    };
    let mut table: Vec<Case> = drafts.flat_map(either).collect();
    // The square of 46341 is beyond 2^31.
    table.extend([
        case("a small count", &resized(within((1, 20)), 20, 32), &[10], Refused(17)),
        case("limits -46341 and 46341", &in_32_bits((-46341, 46341)), &[10], Accepted),
        case("limits -65536 and 65536", &in_32_bits((-power, power)), &[10], Accepted),
    ]);
    table
}

/// One command alone of four and of sixteen, whichever motor and step it belongs to.
fn refused_commands() -> Vec<Case> {
    let refused = |motors: usize, limits: &[(i64, i64)]| {
        let starts: Vec<i64> = limits.iter().map(|&(low, high)| 0.min(high).max(low)).collect();
        case(&format!("{motors} motors, limits {limits:?}"), &with_steps(motors, limits), &[10], Refused(17))
            .start(&starts)
    };
    let at = |limits: &[(i64, i64)], command: usize, other: (i64, i64)| {
        let mut limits = limits.to_vec();
        limits[command] = other;
        limits
    };
    let mut table = Vec::new();
    for (motors, command) in [1, 2, 4].into_iter().flat_map(|motors| (0..4).map(move |command| (motors, command))) {
        table.extend([ABOVE, BELOW].map(|other| refused(motors, &at(&FOUR, command, other))));
    }
    for command in 0..16 {
        let (one, other) = if command % 2 == 0 { (ABOVE, BELOW) } else { (BELOW, ABOVE) };
        table.push(refused(4, &at(&[WIDE; 16], command, one)));
        table.push(refused(1, &at(&[(0, 20); 16], command, other)));
    }
    let several: [&[(i64, i64)]; 6] =
        [&[ABOVE; 2], &[BELOW; 2], &[ABOVE, BELOW], &[BELOW, ABOVE], &[ABOVE, WIDE, BELOW], &[(0, 0), (1, 1), (0, 0)]];
    table.extend(several.map(|limits| refused(1, limits)));
    table
}

/// Half a count and the first subnormal at the second of three steps.
fn refused_sheets() -> Vec<Case> {
    let with = |name: &str, old: &str, new: &str| {
        let page = PAGE_OF_THREE_STEPS.replace(old, new);
        Case { expect: Refused(17), ..page_case(name, "0101030104080000030000", &page) }
    };
    let (low, high) = ("04 0001 BFB8000000000000", "05 0001 3FF4000000000000");
    vec![
        with("half a count as the second low", low, "04 0001 3FA0000000000000"),
        with("the first subnormal as the second low", low, "04 0001 0000000000000001"),
        with("half a count below zero as the second high", high, "05 0001 BFA0000000000000"),
        with("the first subnormal below zero as the second high", high, "05 0001 8000000000000001"),
    ]
}

/// Limits that cross can't both be on their side of zero: 7 and 17 are due together.
fn behind_7() -> Vec<Case> {
    let lists: [&[(i64, i64)]; 13] = [
        &[(1, 0)],
        &[(0, -1)],
        &[(1, -1)],
        &[(20, -20)],
        &[(20, 1)],
        &[(-1, -20)],
        &[(127, -127)],
        &[ABOVE, (6, 5)],
        &[(6, 5), ABOVE],
        &[BELOW, (-5, -6)],
        &[(-5, -6), BELOW],
        &[ABOVE, BELOW, (0, -1)],
        &[(1, 0), WIDE, ABOVE],
    ];
    lists.map(|limits| case(&format!("limits {limits:?}"), &with_steps(1, limits), &[10], Refused(7))).into()
}

/// 5, 3 and 6 for images, and the first two for sheets.
fn behind_other_numbers() -> Vec<Case> {
    let stiff = || within(ABOVE);
    let image = stiff().image();
    let length = |length: usize| {
        let mut image = image.clone();
        image.resize(length, 0);
        Case { image: Some(image), ..case(&format!("17 and {length} bytes"), &sample(), &[10], Refused(6)) }
    };
    let steps = |name: &str, limits: &[(i64, i64)]| case(name, &with_steps(1, limits), &[10], Refused(5));
    let target = with_target().with(LOW, &[1]).with(TARGET_LIMIT, &[-1]);
    vec![
        case("17 and a state limit below 0", &stiff().with(STATE_LIMIT, &[-1]), &[10], Refused(5)),
        case("17 and a target limit below 0", &target, &[10], Refused(5)),
        case("17 and a gain beyond the word", &stiff().with(GAIN, &[128]), &[10], Refused(5)),
        steps("17 and a later high beyond the word", &[ABOVE, (-20, 128)]),
        steps("17 and an earlier low beyond the word", &[(-128, 20), BELOW]),
        steps("a low beyond the word", &[(128, 20)]),
        steps("a high below the word", &[(-20, -128)]),
        case("17 and sweeps 0", &stiff().iterations(0), &[10], Refused(3)),
        case("17 and sweeps 401", &stiff().iterations(401), &[10], Refused(3)),
        length(image.len() - 4),
        length(image.len() + 4),
        length(image.len() + 1),
    ]
}

/// 1, 2, 4 and 5 in the lines behind a limit on the wrong side of zero.
fn behind_lines() -> Vec<Case> {
    let low = ("040000BFF4", "0400003FB0");
    let high = ("0500003FF4", "050000BFB0");
    let with = |(limit, other): (&str, &str), old: &str, new: &str, number: Number| {
        let text = SAMPLE.replace(limit, other).replace(old, new).into_bytes();
        sheet_case(&format!("{other}, then {new}"), &sample(), text, Refused(number))
    };
    let cut = |(limit, other): (&str, &str), bytes: usize, number: Number| {
        let text = SAMPLE.replace(limit, other).as_bytes()[..7 * LINE - bytes].to_vec();
        sheet_case(&format!("{other}, {bytes} bytes missing"), &sample(), text, Refused(number))
    };
    let (beta, last) = ("0600000000000000000000", "0700003FE4000000000000\n");
    let mut table = vec![
        with(low, "0500003FF4", "0500007FF0", 5),
        with(low, "0500003FF4", "0500013FF4", 2),
        with(low, "0500003FF4", "050000bFF4", 1),
        cut(low, 3 * LINE, 4),
    ];
    for limit in [low, high] {
        table.extend([
            with(limit, beta, "060000FFF8000000000000", 5),
            with(limit, last, "070000BFE4000000000000\n", 5),
            with(limit, last, "0700013FE4000000000000\n", 2),
            with(limit, last, "0700003FE400000000000G\n", 1),
            with(limit, last, "0700003FE4000000000000\n\n", 4),
            cut(limit, LINE, 4),
            cut(limit, 1, 1),
        ]);
    }
    table
}

/// The numbers from 8 to 12, alone where zero is at a limit, and with 17.
fn before_8() -> Vec<Case> {
    let drafts = [
        (8, two_steps(8, 0).with(COST, &[8, 1, 0, 8])),
        (9, two_steps(8, 8)),
        (10, two_steps(9, 8)),
        (11, two_steps(8, 7).with(MOMENTUM, &[9])),
        (11, two_steps(8, 0).with(MOMENTUM, &[-1])),
        (12, two_steps(8, 0).with(STATE_LIMIT, &[118])),
        // Not symmetric, a margin of −9, a total of 25, β beyond its range, and B 127.
        (8, two_steps(8, 0).with(COST, &[8, 17, 0, 8]).with(MOMENTUM, &[16]).with(STATE_LIMIT, &[127])),
    ];
    let of = |(number, draft): (Number, Draft)| {
        let limits = [([0, -20], [20, 0], number), ([1, -20], [20, 20], 17), ([-20, -20], [20, -1], 17)];
        limits.map(|(lows, highs, expect)| {
            let draft = draft.clone().with(LOW, &lows).with(HIGH, &highs);
            case(&format!("{number} with lows {lows:?} and highs {highs:?}"), &draft, &[10], Refused(expect))
        })
    };
    drafts.into_iter().flat_map(of).collect()
}

/// 17 before what is lent to a solve: 13, 16, 14 and 15, each alone and all together.
fn before_13() -> Vec<Case> {
    let of = |limits: (i64, i64)| {
        let draft = with_target().with(LOW, &[limits.0]).with(HIGH, &[limits.1]);
        let with = |state: i64, target: i64, start: i64, spare: isize| {
            let name = format!("17 with state {state}, target {target}, start {start}, {spare} bytes too many");
            case(&name, &draft, &[state], Refused(17)).target(&[target]).start(&[start]).spare(spare)
        };
        let (good, other) = (limits.0, limits.1 + 1);
        [
            with(10, 7, good, 0),
            with(11, 7, good, 0),
            with(10, 8, good, 0),
            with(10, 7, other, 0),
            with(10, 7, good, 1),
            with(11, 8, other, 1),
            case("17 without state, target and start", &draft, &[], Refused(17)).start(&[]),
        ]
    };
    [ABOVE, BELOW].into_iter().flat_map(of).collect()
}
