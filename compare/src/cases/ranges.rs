//! The cases of request 12. As in S a count is 1/16, M is 8 and h the state, unless the case says otherwise: a sweep makes
//! each end of z into half of it, rounded down, less the other end of h.

use super::Expect::{self, *};
use super::sums::{all_coupled, resized};
use super::{Case, coupled, motors_and_steps, one_sided, sample, two_motors, two_steps, uncoupled};
use super::{with_target, with_targets};
use crate::draft::Draft;
use crate::drive::{Call, Kind};
use crate::harness::Harness;
use crate::image::{
    COST, GAIN, HIGH, LOW, MOMENTUM, Number, STATE_LIMIT, Sizes, TARGET_GAIN, TARGET_LIMIT, bytes, words,
};
use crate::ranges::answer_len;
use crate::solve;

/// A range solve.
#[derive(Clone)]
pub struct RangeCase {
    name: String,
    image: Vec<u8>,
    ranges: Vec<u8>,
    target: Vec<u8>,
    start: Vec<u8>,
    out_len: usize,
    /// An answer has the lowest commands, then the highest.
    expect: Expect,
}

impl RangeCase {
    fn target(self, target: &[i64]) -> RangeCase {
        RangeCase { target: bytes(target), ..self }
    }

    fn start(self, start: &[i64]) -> RangeCase {
        RangeCase { start: bytes(start), ..self }
    }

    fn length(self, out_len: usize) -> RangeCase {
        RangeCase { out_len, ..self }
    }

    fn lent(self, ranges: &[u8]) -> RangeCase {
        RangeCase { ranges: ranges.to_vec(), ..self }
    }
}

/// A low and a high for each value.
type Range = (i64, i64);

/// The lows, then the highs.
fn lent_ranges(ranges: &[Range]) -> Vec<u8> {
    let (lows, highs): (Vec<i64>, Vec<i64>) = ranges.iter().copied().unzip();
    bytes(&[lows, highs].concat())
}

/// From zeros, with a target of zeros.
fn case(name: &str, draft: &Draft, ranges: &[Range], expect: Expect) -> RangeCase {
    let n = draft.sizes.commands();
    RangeCase {
        name: name.to_string(),
        image: draft.image(),
        ranges: lent_ranges(ranges),
        target: vec![0; 4 * draft.sizes.targets],
        start: vec![0; 4 * n],
        out_len: answer_len(n),
        expect,
    }
}

/// One case for each count of sweeps from 1.
fn runs(name: &str, draft: &Draft, ranges: &[Range], rows: &[&[i64]]) -> Vec<RangeCase> {
    let run = |(i, row): (usize, &&[i64])| {
        let name = format!("{name}, ranges {ranges:?}, sweeps {}", i + 1);
        case(&name, &draft.clone().iterations(i + 1), ranges, Answer(row.to_vec()))
    };
    rows.iter().enumerate().map(run).collect()
}

/// The same from a start.
fn runs_from(name: &str, draft: &Draft, start: &[i64], ranges: &[Range], rows: &[&[i64]]) -> Vec<RangeCase> {
    let name = format!("{name}, start {start:?}");
    runs(&name, draft, ranges, rows).into_iter().map(|case| case.start(start)).collect()
}

pub fn table() -> Vec<RangeCase> {
    let answered = [of_one_command(), of_halves(), to_targets(), of_pairs(), held_ends(), at_one_value(), at_rest()];
    let many = [movers(), long_rows(), long_inputs(), wide_words()];
    let refused = [lengths(), crossing(), beyond(), orders(), answers(), images()];
    answered.into_iter().chain(many).chain(refused).flatten().collect()
}

/// S with another H, Φ, β and limits.
fn s(cost: i64, gain: i64, momentum: i64, (low, high): Range) -> Draft {
    sample().with(COST, &[cost]).with(GAIN, &[gain]).with(MOMENTUM, &[momentum]).with(LOW, &[low]).with(HIGH, &[high])
}

const WIDE: Range = (-20, 20);

fn of_one_command() -> Vec<RangeCase> {
    let s_with = |gain, momentum| s(8, gain, momentum, WIDE);
    // h is 4 to 10. −5 − 10 and −2 − 4; −8 − 10 for −7.5 and −3 − 4; −9 − 10 and −4 − 4 for −3.5; −10 − 10 for −9.5.
    let rows: [&[i64]; 6] = [&[-10, -4], &[-15, -6], &[-18, -7], &[-19, -8], &[-20, -8], &[-20, -8]];
    let mut table = runs("S", &sample(), &[(4, 10)], &rows);
    // 5 + 10; 7 + 10 for 7.5; 8 + 10 for 8.5; 9 + 10, and again for 9.5.
    let rows: [&[i64]; 6] = [&[-10, 10], &[-15, 15], &[-18, 17], &[-19, 18], &[-20, 19], &[-20, 19]];
    table.extend(runs("S", &sample(), &[(-10, 10)], &rows));
    // y: −15, −6; −27 + 2 by the old −4, −11 + 5 by the old −10; −30 + 4 for −3.5, −11 + 9; the same, −8 + 10; −30 + 3
    // for −2.5, −5 + 10; −30 + 2, −3 + 10. Their halves: −8, −3; −13, −3; −13, −1; −13, 1; −14, 2; −14, 3.
    let rows: [&[i64]; 7] = [&[-10, -4], &[-18, -7], &[-20, -7], &[-20, -5], &[-20, -3], &[-20, -2], &[-20, -1]];
    table.extend(runs("S with β 8", &s_with(16, 8), &[(4, 10)], &rows));
    // 31 / 16 of z: −20 for −19.375, −8 for −7.75; −39 + 4 for −38.75 and −3.75, −16 + 10; −39 + 8, −14 + 19.
    let rows: [&[i64]; 4] = [&[-10, -4], &[-20, -8], &[-20, -7], &[-20, -2]];
    table.extend(runs("S with β 15", &s_with(16, 15), &[(4, 10)], &rows));
    // h is −10 to −4: what is taken off is the other end of the state.
    let rows: [&[i64]; 4] = [&[4, 10], &[6, 15], &[7, 17], &[7, 18]];
    table.extend(runs("Φ -16", &s_with(-16, 0), &[(4, 10)], &rows));
    // y: 6, 15; 10 − 5, 25 − 2; 9 − 8, 30 − 3: 3 + 4, 7 + 10; 2 + 4, 11 + 10; 0 + 4, 13 + 10.
    let rows: [&[i64]; 4] = [&[4, 10], &[7, 17], &[6, 20], &[4, 20]];
    table.extend(runs("Φ -16, β 8", &s_with(-16, 8), &[(4, 10)], &rows));
    // From −20: −10 − 10, −10 − 4. y: −30 + 10, −21 + 10. −10 − 10, −6 − 4; y: −30 + 7, −15 + 10; −12 − 10, −3 − 4.
    let rows: [&[i64]; 3] = [&[-20, -14], &[-20, -10], &[-20, -7]];
    table.extend(runs_from("S with β 8", &s_with(16, 8), &[-20], &[(4, 10)], &rows));
    // From 20: 10 − 10, 10 − 4. y: 0 − 10, 9 − 10. −5 − 10, −1 − 4; y: −23 − 3, −8 − 0; −13 − 10, −4 − 4.
    let rows: [&[i64]; 3] = [&[0, 6], &[-15, -5], &[-20, -8]];
    table.extend(runs_from("S with β 8", &s_with(16, 8), &[20], &[(4, 10)], &rows));
    // M is 0: t is minus h.
    let rows: [&[i64]; 2] = [&[-10, 3], &[-10, 3]];
    table.extend(runs("H 16", &s(16, 16, 15, WIDE), &[(-3, 10)], &rows));
    // Nothing of the state gets in.
    let rows: [&[i64]; 3] = [&[2, 2], &[0, 0], &[0, 0]];
    table.extend(runs_from("Φ 0", &s(13, 0, 0, WIDE), &[15], &[(-7, 6)], &rows));
    table
}

/// Both ends of a sum are rounded down, and once.
fn of_halves() -> Vec<RangeCase> {
    let half = |gain: i64| s(8, gain, 0, WIDE);
    // h is −1 to 0 for −0.5 and 0.5; 0, and 0 + 1 for 0.5.
    let rows: [&[i64]; 3] = [&[0, 1], &[0, 1], &[0, 1]];
    let mut table = runs("a half", &half(8), &[(-1, 1)], &rows);
    // h is −2 to −1 for −1.5 and −0.5; 0 + 1 for 0.5, 1 + 2; 0 + 1, 1 + 2 for 1.5.
    let rows: [&[i64]; 3] = [&[1, 2], &[1, 3], &[1, 3]];
    table.extend(runs("minus a half", &half(-8), &[(1, 3)], &rows));
    // h is 0 to 1 for 0.5 and 1.5: −1, 0; −1 − 1 for −0.5.
    let rows: [&[i64]; 3] = [&[-1, 0], &[-2, 0], &[-2, 0]];
    table.extend(runs("a half", &half(8), &[(1, 3)], &rows));
    // A half each, of either sign: h is (8 × 1 − 8 × 2) / 16 = −0.5, which is −1, to (8 × 4 − 8 × 1) / 16 = 1.5, which
    // is 1. By themselves they would be 0 − 1 and 2 − 1.
    let two = uncoupled(Sizes { states: 2, ..sample().sizes }).with(GAIN, &[8, -8]);
    let rows: [&[i64]; 3] = [&[-1, 1], &[-2, 1], &[-2, 1]];
    table.extend(runs("two halves", &two, &[(1, 4), (1, 2)], &rows));
    // Three inputs of either sign and a part of a count: −16 × 3 + 3 × 2 − 5 × 4 = −62, −3.875; −16 × 1 + 3 × 9 + 5 =
    // 16. h is −4 to 1, z −1 to 4.
    let three = uncoupled(Sizes { states: 3, ..sample().sizes }).with(GAIN, &[-16, 3, -5]);
    let rows: [&[i64]; 2] = [&[-1, 4], &[-2, 6]];
    table.extend(runs("three signs", &three, &[(1, 3), (2, 9), (-1, 4)], &rows));
    table
}

/// A target is one value.
fn to_targets() -> Vec<RangeCase> {
    let with = |rows: &[&[i64]], target: i64| {
        let cases = runs(&format!("target {target}"), &with_target(), &[(4, 10)], rows);
        cases.into_iter().map(move |case| case.target(&[target]))
    };
    // h: (64 − 56) / 16 is 0, (160 − 56) / 16 is 6. −6; −3 − 6; −5 − 6 for −4.5.
    let rows: [&[i64]; 3] = [&[-6, 0], &[-9, 0], &[-11, 0]];
    let mut table: Vec<RangeCase> = with(&rows, 7).collect();
    // (64 + 56) / 16 is 7, (160 + 56) / 16 is 13. −13, −7; −7 − 13, −4 − 7; −6 − 7 for −5.5.
    let rows: [&[i64]; 3] = [&[-13, -7], &[-20, -11], &[-20, -13]];
    table.extend(with(&rows, -7));
    // Four targets: 16 × 5 + 8 × 4 − 8 × 3 + 4 × 2 = 96, 6 counts, at both ends. h is 4 + 6 to 10 + 6.
    let four = with_targets(&[16, 8, -8, 4], &[5, 4, 3, 2]);
    let rows: [&[i64]; 3] = [&[-16, -10], &[-20, -15], &[-20, -18]];
    let cases = runs("four targets", &four, &[(4, 10)], &rows);
    table.extend(cases.into_iter().map(|case| case.target(&[5, 4, 3, 2])));
    // A state of one value, and a target that is not zero.
    let rows: [&[i64]; 3] = [&[-6, -6], &[-9, -9], &[-11, -11]];
    let cases = runs("a target and a point", &with_target(), &[(10, 10)], &rows);
    table.extend(cases.into_iter().map(|case| case.target(&[7])));
    table
}

/// H (8,4),(4,8) has the M (8,−4),(−4,8), and H (8,−4),(−4,8) the M (8,4),(4,8). β is 8.
fn of_pairs() -> Vec<RangeCase> {
    let negative = || coupled([WIDE; 2]);
    let positive = || negative().with(COST, &[8, -4, -4, 8]);
    // y: −15, −6. (8 × −15 − 4 × −6) / 16 = −6, −6 − 10; (8 × −6 + 4 × 15) / 16 = 0.75, 0 − 4. y: −24 + 2, −6 + 5.
    // (8 × −22 + 4) / 16 is −11, −11 − 10; (−8 + 88) / 16 = 5, 5 − 4. y: −30 + 2, 1 + 8. (−224 − 36) / 16 is −17;
    // (72 + 112) / 16 is 11, 11 − 4.
    let rows: [&[i64]; 4] = [&[-10, -10, -4, -4], &[-16, -16, -4, -4], &[-20, -20, 1, 1], &[-20, -20, 7, 7]];
    let mut table = runs("M negative beside the diagonal", &negative(), &[(4, 10)], &rows);
    // 12 × −15 / 16 is −12, −12 − 10; 12 × −6 / 16 is −5, −5 − 4. y: −30 + 2, −14 + 5. 12 × −9 / 16 is −7, −7 − 4.
    // y: −30 + 5, −17 + 10. 12 × −7 / 16 is −6, −6 − 4.
    let rows: [&[i64]; 4] = [&[-10, -10, -4, -4], &[-20, -20, -9, -9], &[-20, -20, -11, -11], &[-20, -20, -10, -10]];
    table.extend(runs("M positive beside the diagonal", &positive(), &[(4, 10)], &rows));
    // h is 4 to 10, and −10 to −4. y: −15 and 6 to −6 and 15. (−120 − 60) / 16 is −12; (−48 − 24) / 16 is −5; (48 + 24)
    // / 16 is 4; (120 + 60) / 16 is 11.
    let signs = || negative().with(GAIN, &[16, -16]);
    let rows: [&[i64]; 4] = [&[-10, 4, -4, 10], &[-20, 8, -9, 20], &[-20, 9, -11, 20], &[-20, 7, -9, 20]];
    table.extend(runs("M negative, Φ of either sign", &signs(), &[(4, 10)], &rows));
    // h: (16 − 40) / 16 is −2 and (48 + 16) / 16 is 4; (8 − 32) / 16 is −2 and (24 + 80) / 16 is 6.
    let two = uncoupled(Sizes { steps: 2, states: 2, ..sample().sizes }).with(GAIN, &[16, -8, 8, 16]);
    let two = two.with(COST, &[8, 4, 4, 8]).with(MOMENTUM, &[8]);
    let rows: [&[i64]; 4] = [&[-4, -6, 2, 2], &[-8, -12, 5, 5], &[-13, -18, 11, 10], &[-20, -20, 19, 18]];
    table.extend(runs("two states of either sign", &two, &[(1, 3), (-2, 5)], &rows));
    table.extend(steps_apart());
    table
}

/// Steps and motors with limits of their own.
fn steps_apart() -> Vec<RangeCase> {
    // The limits are (−20, 20), (−4, 2), (−2, 3), (−20, 1), and each command is as in S.
    let rows: [&[i64]; 3] =
        [&[-10, -4, -2, -10, 10, 2, 3, 1], &[-15, -4, -2, -15, 15, 2, 3, 1], &[-18, -4, -2, -18, 17, 2, 3, 1]];
    let mut table = runs("two motors, two steps", &motors_and_steps(), &[(-10, 10)], &rows);
    let rows: [&[i64]; 2] = [&[-5, -4, -2, -5, -4, -4, -2, -4], &[-8, -4, -2, -8, -6, -4, -2, -6]];
    table.extend(runs("two motors, two steps", &motors_and_steps(), &[(4, 5)], &rows));
    // Limits 0 and 20, −20 and 0, 0 and 0.
    let rows: [&[i64]; 2] = [&[0, -10, 0, 10, 0, 0], &[0, -15, 0, 15, 0, 0]];
    table.extend(runs("zero at a limit", &one_sided(), &[(-10, 10)], &rows));
    let (draft, wide) = (two_motors(), [(-50, 50), (-12, 12)]);
    table.push(case("two motors and two states", &draft, &wide, Accepted).start(&[-40, 25]));
    table.push(case("two motors and two states", &draft, &[(-3, 20), (1, 7)], Accepted).start(&[30, -7]));
    table
}

/// A limit holds an end, the other, both, or neither.
fn held_ends() -> Vec<RangeCase> {
    let of =
        |name: &str, limits: Range, ranges: Range, rows: &[&[i64]]| runs(name, &s(8, 16, 0, limits), &[ranges], rows);
    let mut table = of("the lowest held", (-12, 20), (4, 10), &[&[-10, -4], &[-12, -6], &[-12, -7], &[-12, -8]]);
    // −3, −3; −2 − 3 for −1.5, 2 + 10 for 2.5; −3 − 3 for −2.5.
    table.extend(of("the highest held", (-20, 5), (-10, 3), &[&[-3, 5], &[-5, 5], &[-6, 5]]));
    table.extend(of("each at its limit", (-5, 5), (-10, 10), &[&[-5, 5][..]; 3]));
    table.extend(of("both at the low limit", (-3, 2), (8, 10), &[&[-3, -3][..]; 3]));
    table.extend(of("both at the high limit", (-3, 2), (-10, -8), &[&[2, 2][..]; 3]));
    table.extend(of("a point", (0, 0), (-10, 10), &[&[0, 0][..]; 2]));
    table.extend(of("zero as the low limit", (0, 20), (-4, 10), &[&[0, 4], &[0, 6], &[0, 7]]));
    table.extend(of("zero as the high limit", (-20, 0), (-4, 10), &[&[-10, 0], &[-15, 0], &[-18, 0]]));
    // y is −8 to 7, then −7.5 − 2.5 as −8 − 2, and 7 + 3: z stays at both limits.
    let both = s(8, 16, 8, (-5, 5));
    table.extend(runs("each at its limit, β 8", &both, &[(-10, 10)], &[&[-5, 5][..]; 4]));
    // h is 6 to 21. y comes from what is held: −30, −9; −30 + 3, −17 + 10 for −16.5.
    let steep = s(8, 35, 8, WIDE);
    let rows: [&[i64]; 3] = [&[-20, -6], &[-20, -11], &[-20, -10]];
    table.extend(runs("a step beyond the limit, β 8", &steep, &[(3, 10)], &rows));
    table
}

/// Ranges of one value: the solve's commands twice, those of document 01 among them.
fn at_one_value() -> Vec<RangeCase> {
    let rows: [&[i64]; 5] = [&[-10, -10], &[-15, -15], &[-18, -18], &[-19, -19], &[-20, -20]];
    let mut table = runs("S", &sample(), &[(10, 10)], &rows);
    let rows: [&[i64]; 4] = [&[-10, -10], &[-18, -18], &[-20, -20], &[-20, -20]];
    table.extend(runs("S with β 8", &s(8, 16, 8, WIDE), &[(10, 10)], &rows));
    let rows: [&[i64]; 3] = [&[10, 10], &[15, 15], &[17, 17]];
    table.extend(runs("S", &sample(), &[(-10, -10)], &rows));
    let rows: [&[i64]; 2] = [&[0, 0], &[0, 0]];
    table.extend(runs("S", &sample(), &[(0, 0)], &rows));
    let rows: [&[i64]; 4] = [&[-10, -2, -10, -2], &[-17, -2, -17, -2], &[-20, -2, -20, -2], &[-20, -2, -20, -2]];
    table.extend(runs("coupled steps", &coupled([WIDE, (-2, 5)]), &[(10, 10)], &rows));
    // One value for one, and another range beside it.
    let two = uncoupled(Sizes { states: 2, ..sample().sizes }).with(GAIN, &[16, 16]);
    table.extend(runs("a point and a range", &two, &[(5, 5), (-1, 1)], &[&[-6, -4], &[-9, -6]]));
    table.extend(runs("a range and a point", &two, &[(-1, 1), (5, 5)], &[&[-6, -4], &[-9, -6]]));
    table
}

/// The ends come to rest at sweeps of their own, and what is still at a sweep may move again. After the last row nothing
/// moves any more.
fn at_rest() -> Vec<RangeCase> {
    let mut table = Vec::new();
    let mut of = |name: &str, draft: Draft, start: i64, range: Range, rows: &[&[i64]]| {
        table.extend(runs_from(name, &draft, &[start], &[range], rows));
        let (last, name) = (rows[rows.len() - 1], format!("{name}, at last"));
        for sweeps in [rows.len() + 1, 37, 400] {
            let draft = draft.clone().iterations(sweeps);
            table.push(case(&name, &draft, &[range], Answer(last.to_vec())).start(&[start]));
        }
    };
    // h is 0 to 1, for 13 / 16 and 26 / 16. 5 × −1 / 16 is −1, −1 − 1.
    of("the highest rests first", s(11, 13, 0, WIDE), 0, (1, 2), &[&[-1, 0], &[-2, 0], &[-2, 0]]);
    // h is −16 to 0. 4 + 16.
    of("the lowest rests first", s(12, 32, 0, WIDE), 0, (-8, 0), &[&[0, 16], &[0, 20], &[0, 20]]);
    // y of the highest: 5 − 0, then 5 + 1 by the old −9. 3 × 5 / 16 is 0, and 3 × 6 / 16 is 1.
    of("z still, y not", s(13, 16, 1, (-9, 9)), 0, (-5, 9), &[&[-9, 5], &[-9, 5], &[-9, 6], &[-9, 6]]);
    // The same by the lowest: −3 − 0, then −4 − 0. 5 × −4 / 16 is −2.
    of("z still, the lowest y not", s(11, -16, 1, (-19, 6)), -1, (-2, 9), &[&[-3, 6], &[-3, 6], &[-4, 6], &[-4, 6]]);
    // y: −2 by the old −2, −3 by the old 0, −4 by the old 1.
    of("the lowest still", s(9, 16, 1, (-10, 20)), -2, (-1, 1), &[&[-2, 0], &[-2, 1], &[-3, 1], &[-3, 1]]);
    of("the highest still", s(3, 16, 1, (-4, 20)), 4, (-1, 5), &[&[-2, 4], &[-4, 4], &[-4, 5], &[-4, 5]]);
    // y is 13 to 23 twice, from 13 − 0 and 23 − 0, and from 18 − 5 and 26 − 3.
    let rows: [&[i64]; 5] = [&[10, 18], &[14, 20], &[14, 20], &[13, 20], &[13, 20]];
    of("y still, z not", s(11, 32, 5, WIDE), 0, (-9, -5), &rows);
    // M is 4. y: 0 − 2, 1 − 2; 0, 0; 0, 1: −1 − 1, −1 + 1; 0 − 1, 0 + 1.
    of("both at a limit, then off", s(12, 16, 12, (0, 3)), 3, (-1, 1), &[&[0, 1], &[0, 0], &[0, 1], &[0, 1]]);
    table
}

/// All ends rest at once, but for one end of one command.
fn mover(motors: usize, steps: usize, k: usize, range: Range, rows: &[[i64; 2]]) -> Vec<RangeCase> {
    let n = motors * steps;
    let mut draft = uncoupled(Sizes { motors, steps, ..sample().sizes });
    draft.section(GAIN).fill(0);
    draft.section(GAIN)[k] = 16;
    let row = |ends: &[i64; 2]| {
        let mut row = vec![0; 2 * n];
        (row[k], row[n + k]) = (ends[0], ends[1]);
        row
    };
    let rows: Vec<Vec<i64>> = rows.iter().map(row).collect();
    let rows: Vec<&[i64]> = rows.iter().map(Vec::as_slice).collect();
    runs(&format!("{motors} by {steps}, command {k} alone"), &draft, &[range], &rows)
}

fn movers() -> Vec<RangeCase> {
    let lowest = [[-10, 0], [-15, 0], [-18, 0], [-19, 0], [-20, 0]];
    let highest = [[0, 10], [0, 15], [0, 17], [0, 18], [0, 19]];
    let mut table = Vec::new();
    for (motors, steps) in [(2, 1), (1, 3), (1, 5), (1, 13), (3, 5), (4, 4)] {
        let n = motors * steps;
        for k in [0, n / 2, n - 1] {
            table.extend(mover(motors, steps, k, (0, 10), &lowest));
            table.extend(mover(motors, steps, k, (-10, 0), &highest));
        }
    }
    table
}

/// Rows of M y of every length, with signs of either kind and each command at another value.
fn long_rows() -> Vec<RangeCase> {
    let start = [20, -20, 7, -13, 16, -5, 19, 11, -18, 3, -9, 14, -20, 20, -1, 12];
    let of = |steps: usize| {
        let (plain, n) = (all_coupled(steps), steps);
        let mut signs = plain.clone();
        let other = |i: usize| (i / n + i % n) % 3 == 1 && i % (n + 1) > 0;
        signs.section(COST).iter_mut().enumerate().filter(|(i, _)| other(*i)).for_each(|(_, entry)| *entry = -*entry);
        [plain, signs].into_iter().flat_map(move |draft| {
            [1, 2, 4].map(|sweeps| {
                let name = format!("{steps} coupled, sweeps {sweeps}");
                case(&name, &draft.clone().iterations(sweeps), &[(-2, 7)], Accepted).start(&start[..steps])
            })
        })
    };
    (1..=16).flat_map(of).collect()
}

/// Rows of h of every length: each state counts 1 to 3, plus or minus, and each target minus or plus 2.
fn long_inputs() -> Vec<RangeCase> {
    let of = |states: usize, targets: usize| {
        let sizes = Sizes { states, targets, iterations: 1, ..sample().sizes };
        let sign = |i: usize| if i.is_multiple_of(2) { 16 } else { -16 };
        let gains: Vec<i64> = (0..states).map(sign).collect();
        let target_gains: Vec<i64> = (0..targets).map(|i| -sign(i)).collect();
        let draft = uncoupled(sizes).with(GAIN, &gains).with(STATE_LIMIT, &vec![5; states]);
        let draft = draft.with(TARGET_GAIN, &target_gains).with(TARGET_LIMIT, &vec![5; targets]);
        let draft = draft.with(LOW, &[-60]).with(HIGH, &[60]);
        let (plus, minus) = (states.div_ceil(2) as i64, (states / 2) as i64);
        let target = if targets.is_multiple_of(2) { 0 } else { -2 };
        let row = vec![-(3 * plus - minus + target), -(plus - 3 * minus + target)];
        let name = format!("{states} states and {targets} targets");
        case(&name, &draft, &vec![(1, 3); states], Answer(row)).target(&vec![2; targets])
    };
    let without = (1..=12).map(|states| of(states, 0));
    without.chain((1..=4).flat_map(|targets| [of(3, targets), of(12, targets)])).collect()
}

const FAR: i64 = 1 << 30;

/// Words of 32 bits: sums of 62 bits, and ends far apart.
fn wide_words() -> Vec<RangeCase> {
    let far = |bits, limit| resized(s(8, 16, 0, (-FAR, FAR)), bits, 32).with(STATE_LIMIT, &[limit]);
    let half = FAR / 2;
    let rows: [&[i64]; 2] = [&[-half, half], &[-half - half / 2, half + half / 2]];
    let mut table = runs("half the word", &far(4, half), &[(-half, half)], &rows);
    // Half of what is left each time; upward rounding keeps the last count from z.
    for (sweeps, left) in [(9, [1 << 21; 2]), (20, [1 << 10; 2]), (30, [1; 2]), (31, [0, 1]), (400, [0, 1])] {
        let row = vec![left[0] - FAR, FAR - left[1]];
        table.push(case("halves", &far(4, half).iterations(sweeps), &[(-half, half)], Answer(row)));
    }
    // M is 2^20 − 8: y − y / 2^17, less h = 2^-16 of the state, each rounded down.
    let fine = far(20, half).iterations(1);
    table.push(case("b 20", &fine, &[(-half, half)], Answer(vec![-8192, 8192])));
    table.push(case("b 20", &fine, &[(-half, 1)], Answer(vec![0, 8192])));
    table.push(case("b 20", &fine, &[(-1, half)], Answer(vec![-8192, 1])));
    table
}

fn refused(name: &str, ranges: &[Range], number: Number) -> RangeCase {
    case(name, &sample(), ranges, Refused(number))
}

/// Three states with limits 10, 3 and 7, and gains of either sign.
fn three_states() -> Draft {
    let draft = uncoupled(Sizes { states: 3, ..sample().sizes }).with(GAIN, &[16, -8, 4]);
    draft.with(STATE_LIMIT, &[10, 3, 7])
}

/// 13 by the length.
fn lengths() -> Vec<RangeCase> {
    let mut table = Vec::new();
    for draft in [sample(), three_states()] {
        let states = draft.sizes.states;
        let zeros = vec![(0, 0); states];
        for length in [0, 1, 4, 4 * states, 8 * states - 4, 8 * states - 1, 8 * states + 1, 8 * states + 4, 12 * states]
            .into_iter()
            .chain([16 * states, 8 * states + 8, 8 * (states - 1), 16])
            .filter(|&length| length != 8 * states)
        {
            let name = format!("{length} bytes for {states} ranges");
            table.push(case(&name, &draft, &zeros, Refused(13)).lent(&vec![0; length]));
        }
        table.push(case("zeros", &draft, &zeros, Accepted));
    }
    // Those of a state and of its target behind it.
    table.push(case("a target behind", &with_target(), &[(4, 10)], Refused(13)).lent(&bytes(&[4, 10, 7])));
    table.push(case("a target's range behind", &with_target(), &[(0, 0)], Refused(13)).lent(&bytes(&[4, 7, 10, 7])));
    table
}

/// 13 by a low above its high, be it the first, the last or one between.
fn crossing() -> Vec<RangeCase> {
    let mut table = vec![
        refused("crossing by 1", &[(1, 0)], 13),
        refused("crossing by 1 below zero", &[(-9, -10)], 13),
        refused("crossing at the high limit", &[(10, 9)], 13),
        refused("crossing at both limits", &[(10, -10)], 13),
        refused("crossing about zero", &[(1, -1)], 13),
        case("an edge from crossing", &sample(), &[(9, 10)], Answer(vec![-18, -16])),
    ];
    let three = three_states();
    for k in 0..3 {
        for (low, high) in [(1, 0), (3, -3), (-2, -3), (3, 2)] {
            let mut ranges = [(-1, 2), (0, 3), (-3, -1)];
            ranges[k] = (low, high);
            table.push(case(&format!("{ranges:?}"), &three, &ranges, Refused(13)));
            // The same, but not crossing.
            ranges[k] = (high, low);
            table.push(case(&format!("{ranges:?}"), &three, &ranges, Accepted));
            ranges[k] = (low, low);
            table.push(case(&format!("{ranges:?}"), &three, &ranges, Accepted));
        }
    }
    // Read in turn, or the highs first, these would cross, and the next would not.
    table.push(case("lows, then highs", &three, &[(-3, 2), (-2, 3), (-1, 4)], Accepted));
    table.push(case("in turn", &three, &[(0, 0); 3], Refused(13)).lent(&bytes(&[-3, 2, -2, 3, -1, 4])));
    table.push(case("highs, then lows", &three, &[(0, 0); 3], Refused(13)).lent(&bytes(&[2, 3, 4, -3, -2, -1])));
    table
}

/// 13 by an end beyond the limit, on either side.
fn beyond() -> Vec<RangeCase> {
    let accepted = |range: Range, row: [i64; 2]| case(&format!("{range:?}"), &sample(), &[range], Answer(row.to_vec()));
    let (most, least) = (i32::MAX as i64, i32::MIN as i64);
    let mut table =
        vec![accepted((-10, 10), [-18, 17]), accepted((-10, -10), [17, 17]), accepted((10, 10), [-18, -18])];
    for range in [
        (-11, 10),
        (-11, -11),
        (-11, -10),
        (-11, 0),
        (-10, 11),
        (11, 11),
        (10, 11),
        (0, 11),
        (11, 10),
        (11, -11),
        (-10, -11),
        (-11, 11),
        (least, 10),
        (least, least),
        (least, most),
        (-10, most),
        (most, most),
        (-10, least),
        (most, 10),
        // In 16 or 8 bits they are within it.
        (-10, 65536),
        (-65536, 10),
        (0, 256),
        (-256, 0),
    ] {
        table.push(refused(&format!("{range:?}"), &[range], 13));
    }
    // The limits are 10, 3 and 7: each is the value's own.
    let three = three_states();
    let within = [(-10, 10), (-3, 3), (-7, 7)];
    table.push(case("the whole limits", &three, &within, Accepted));
    for k in 0..3 {
        let (low, high) = within[k];
        for range in [(low - 1, high), (low, high + 1), (low - 1, low), (high, high + 1), (high + 1, high + 1)] {
            let mut ranges = within;
            ranges[k] = range;
            table.push(case(&format!("{ranges:?}"), &three, &ranges, Refused(13)));
        }
        for range in [(low, low), (high, high), (low, 0), (0, high), (0, 0)] {
            let mut ranges = [(0, 0); 3];
            ranges[k] = range;
            table.push(case(&format!("{ranges:?}"), &three, &ranges, Accepted));
        }
    }
    // A limit of zero.
    let zero = sample().with(STATE_LIMIT, &[0]);
    table.push(case("limit 0", &zero, &[(0, 0)], Answer(vec![0, 0])));
    table.push(case("limit 0", &zero, &[(-1, 0)], Refused(13)));
    table.push(case("limit 0", &zero, &[(0, 1)], Refused(13)));
    table
}

/// 13 behind 12, and before 16, 14 and 15.
fn orders() -> Vec<RangeCase> {
    let s = with_target();
    let bad: [(&str, RangeCase); 4] = [
        ("a length", case("", &s, &[(4, 10)], Refused(13)).lent(&bytes(&[4]))),
        ("crossing", case("", &s, &[(10, 4)], Refused(13))),
        ("a low beyond", case("", &s, &[(-11, 4)], Refused(13))),
        ("a high beyond", case("", &s, &[(4, 11)], Refused(13))),
    ];
    let mut table = Vec::new();
    for (name, bad) in &bad {
        let of = |other: &str, case: RangeCase| RangeCase { name: format!("{name} before {other}"), ..case };
        table.push(of("16", bad.clone().target(&[8])));
        table.push(of("16 by its length", bad.clone().target(&[])));
        table.push(of("14", bad.clone().start(&[21])));
        table.push(of("14 by its length", bad.clone().start(&[])));
        table.push(of("15", bad.clone().length(16)));
        table.push(of("all others", bad.clone().target(&[8]).start(&[21]).length(0)));
        let headroom = s.clone().with(STATE_LIMIT, &[117]).image();
        table.push(RangeCase {
            image: headroom,
            expect: Refused(12),
            name: format!("12 before {name}"),
            ..bad.clone()
        });
    }
    let good = |name: &str, number| case(name, &s, &[(4, 10)], Refused(number));
    table.extend([
        good("target 8", 16).target(&[8]),
        good("target -8", 16).target(&[-8]),
        good("no target", 16).target(&[]),
        good("a target's range", 16).target(&[3, 7]),
        case("a target in S", &sample(), &[(4, 10)], Refused(16)).target(&[0]),
        good("16 before 14", 16).target(&[8]).start(&[21]),
        good("16 before 15", 16).target(&[8]).length(16),
        good("start 21", 14).start(&[21]),
        good("start -21", 14).start(&[-21]),
        good("no start", 14).start(&[]),
        good("a start's range", 14).start(&[0, 0]),
        good("14 before 15", 14).start(&[21]).length(16),
    ]);
    table
}

/// 15: the answer is 8n bytes, without bounds and D.
fn answers() -> Vec<RangeCase> {
    let mut table = Vec::new();
    for draft in [sample(), motors_and_steps(), uncoupled(Sizes { steps: 16, ..sample().sizes })] {
        let n = draft.sizes.commands();
        let lengths = [0, 1, 4 * n, 8 * n - 4, 8 * n - 1, 8 * n + 1, 8 * n + 4, solve::answer_len(n), 12 * n, 16 * n];
        for length in lengths.into_iter().chain([16 * n + 8, 8 * (n - 1)]) {
            let name = format!("{length} bytes for {n} commands");
            table.push(case(&name, &draft, &[(4, 10)], Refused(15)).length(length));
        }
    }
    table
}

/// An image's number goes before 13, and what is no number of the image comes behind.
fn images() -> Vec<RangeCase> {
    let skew = two_steps(8, 0).with(COST, &[8, 1, 0, 8]);
    let list = [
        (3, sample().iterations(0)),
        (3, sample().iterations(401)),
        (5, sample().with(STATE_LIMIT, &[-1])),
        (5, sample().with(GAIN, &[128])),
        (7, sample().with(LOW, &[5]).with(HIGH, &[4])),
        (17, sample().with(LOW, &[1])),
        (8, skew),
        (9, two_steps(8, 8)),
        (10, two_steps(9, 8)),
        (11, two_steps(8, 7).with(MOMENTUM, &[9])),
        (12, sample().with(STATE_LIMIT, &[118])),
    ];
    let mut table = Vec::new();
    for (number, draft) in list {
        table.push(case(&format!("an image that is {number}"), &draft, &[(0, 0)], Refused(number)));
        table.push(case(&format!("{number} before 13"), &draft, &[(1, 0)], Refused(number)));
        table.push(case(&format!("{number} before 13 by the length"), &draft, &[], Refused(number)));
    }
    let image = sample().image();
    for length in [0, 31, 32, image.len() - 4, image.len() + 4] {
        let mut other = image.clone();
        other.resize(length, 0);
        let cut = case(&format!("an image of {length} bytes"), &sample(), &[(1, 0)], Refused(6));
        table.push(RangeCase { image: other, ..cut });
    }
    table
}

/// Every solve once more with its state as ranges of one value: its number, or its commands twice.
pub fn of_solves(cases: &[Case]) -> Vec<RangeCase> {
    cases.iter().filter_map(of_solve).collect()
}

fn of_solve(case: &Case) -> Option<RangeCase> {
    let image = case.image.clone()?;
    let n = words(&image)[..2].iter().product::<i64>() as usize;
    let expect = match &case.expect {
        Answer(row) => Answer([&row[..n], &row[..n]].concat()),
        expect => expect.clone(),
    };
    Some(RangeCase {
        name: format!("{}, as ranges", case.name),
        image,
        ranges: case.state.repeat(2),
        target: case.target.clone(),
        start: case.start.clone().unwrap_or(vec![0; 4 * n]),
        out_len: answer_len(n).saturating_add_signed(case.spare),
        expect,
    })
}

/// Runs one case, and holds the outcome to the table's own figures.
pub fn run_range(harness: &mut Harness, case: &RangeCase) {
    let lent: [&[u8]; 4] = [&case.image, &case.ranges, &case.target, &case.start];
    let outcome = harness.compare(&Call::on_buffers(Kind::RangeSolve, &lent, case.out_len));
    let holds = match &case.expect {
        Refused(number) => outcome.number == *number,
        Answer(row) => outcome.written.as_ref() == Some(&bytes(row)),
        _ => outcome.number == 0,
    };
    let found = || outcome.written.as_ref().map(|answer| words(answer)).ok_or(outcome.number);
    harness.check(holds, || format!("  the table's ranges: {}: {:?}", case.name, found()));
}
