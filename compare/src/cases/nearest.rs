//! The cases of request 7: ties, what lies beside them by the last bit, the ends of the word, the kinds that are rounded
//! as before, and the numbers that the rounding of a table decides. As in S a count is 1/16 and top 127, unless the case
//! says otherwise.

use super::Expect::{self, *};
use super::sums::{TOP, resized};
use super::{
    Case, PAGE_OF_SAMPLE, PAGE_OF_TWO_MOTORS, SAMPLE, coupled, label, page_case, page_with, sample, sheet_case,
    two_steps, uncoupled, with_limits, with_target, with_target_text, with_targets,
};
use crate::double::of_count;
use crate::draft::{Draft, text};
use crate::image::{COST, GAIN, HIGH, LOW, MOMENTUM, Number, STATE_LIMIT, Sizes, TARGET_GAIN, TARGET_LIMIT};
use crate::process::{Folder, Table};
use crate::sheet::LINE;

pub fn table() -> Vec<Case> {
    let words = [of_the_request(), at_ties(), in_cost(), tiny_numbers(), ends_of_the_word(), other_words()];
    let decided = [as_before(), symmetric(), margins(), totals(), momenta(), headrooms(), target_headrooms()];
    let others = [answers(), behind_lines(), behind_target_lines(), pages()];
    words.into_iter().chain(decided).chain(others).flatten().collect()
}

fn join<const N: usize>(lists: [Vec<Case>; N]) -> Vec<Case> {
    lists.into_iter().flatten().collect()
}

/// Sheets that are refused, for the programs.
pub fn sheets() -> Vec<(Vec<u8>, Number)> {
    let refused = |case: Case| match case.expect {
        Refused(number) => Some((case.sheet, number)),
        _ => None,
    };
    join([symmetric(), totals(), behind_lines(), behind_target_lines()]).into_iter().filter_map(refused).collect()
}

/// The label program's folders: the answers below, and those sheets without a state, whose 13 comes later.
pub fn folders() -> Table {
    let solved = answers().into_iter().map(|case| label(&case));
    let refused = sheets().into_iter().map(|(drive, number)| {
        (Folder { drive: Some(drive), state: None, target: None }, format!("refused {number:02}\n"))
    });
    solved.chain(refused).collect()
}

/// A kind, an index within it, and the number given there.
type Given = (u8, usize, f64);

/// A draft's sheet with other doubles.
fn given(name: &str, draft: &Draft, doubles: &[Given], expect: Expect) -> Case {
    let mut values: Vec<u64> = draft.body.iter().map(|&word| of_count(word, draft.sizes.bits)).collect();
    for &(kind, index, double) in doubles {
        values[draft.sizes.extent(kind).0 + index] = double.to_bits();
    }
    sheet_case(name, draft, text(&draft.frames(|i| values[i])), expect)
}

/// The same in counts.
fn counted(name: &str, draft: &Draft, counts: &[Given], expect: Expect) -> Case {
    let one = draft.sizes.one() as f64;
    let doubles: Vec<Given> = counts.iter().map(|&(kind, index, count)| (kind, index, count / one)).collect();
    given(name, draft, &doubles, expect)
}

/// S with a target, and a sheet of it with ties in its tables.
pub fn with_ties() -> (Draft, Vec<u8>) {
    let ties = [(COST, 0, 7.5), (GAIN, 0, 16.5), (TARGET_GAIN, 0, -8.5)];
    let case = counted("", &with_target(), &ties, Accepted);
    (with_target(), case.sheet)
}

/// What becomes of a number: its word, or the number that the sheet is refused with.
type Due = Result<i64, Number>;

/// One sheet for each count, which is the first number of a kind.
fn each(draft: &Draft, kind: u8, rows: &[(f64, Due)]) -> Vec<Case> {
    let case = |&(count, due): &(f64, Due)| {
        let expect = due.map_or_else(Refused, |word| Words(kind, vec![word]));
        counted(&format!("{count} counts in 0{kind}"), draft, &[(kind, 0, count)], expect)
    };
    rows.iter().map(case).collect()
}

/// The last bit nearer zero.
fn nearer(double: f64) -> f64 {
    f64::from_bits(double.to_bits() - 1)
}

/// The last bit further from zero.
fn further(double: f64) -> f64 {
    f64::from_bits(double.to_bits() + 1)
}

/// H is (8, x), (x, 8) beside a β that check 11 lets pass up to an x of 7.
fn pair() -> Draft {
    two_steps(8, 0).with(MOMENTUM, &[10])
}

/// Half a count below zero, which goes to 0, and one and a half counts, which go to 2.
fn of_the_request() -> Vec<Case> {
    let (below, above) = (-0.03125, 0.09375);
    let (s, target) = (sample(), with_target());
    let one = |draft: &Draft, kind: u8, double: f64, word: i64| {
        given(&format!("{double} in 0{kind}"), draft, &[(kind, 0, double)], Words(kind, vec![word]))
    };
    let beside = |double: f64, other: f64, word: i64| {
        let doubles = [(COST, 1, double), (COST, 2, other)];
        given(&format!("{double} and {other} beside H's diagonal"), &pair(), &doubles, square(8, word))
    };
    vec![
        one(&s, GAIN, below, 0),
        one(&s, GAIN, above, 2),
        one(&s, COST, above, 2),
        one(&target, GAIN, below, 0),
        one(&target, TARGET_GAIN, below, 0),
        one(&target, TARGET_GAIN, above, 2),
        beside(below, below, 0),
        beside(below, 0.0, 0),
        beside(0.0, below, 0),
        beside(above, above, 2),
        beside(-above, -above, -2),
    ]
}

/// The words of H for two steps.
fn square(diagonal: i64, beside: i64) -> Expect {
    Words(COST, vec![diagonal, beside, beside, diagonal])
}

const TIES: [f64; 8] = [0.5, 1.5, 2.5, 3.5, 4.5, 5.5, 6.5, 7.5];

/// What becomes of the ties, and of what lies beside them.
const ABOUT: [(&str, fn(f64) -> f64, [i64; 8]); 3] = [
    ("the last bit short of ties", nearer, [0, 1, 2, 3, 4, 5, 6, 7]),
    ("ties", |tie| tie, [0, 2, 2, 4, 4, 6, 6, 8]),
    ("the last bit beyond ties", further, [1, 2, 3, 4, 5, 6, 7, 8]),
];

/// In Φ, a row of eight states, and in the target table, two rows of four targets; above zero and below it.
fn at_ties() -> Vec<Case> {
    let states = uncoupled(Sizes { states: 8, ..sample().sizes });
    let targets = with_targets(&[0; 8], &[7; 4]);
    let mut table = Vec::new();
    for (name, about, words) in ABOUT {
        for sign in [1, -1] {
            for (draft, kind) in [(&states, GAIN), (&targets, TARGET_GAIN)] {
                let number = |i: usize| (kind, i, f64::from(sign) * about(TIES[i]));
                let numbers: Vec<Given> = (0..8).map(number).collect();
                let words = words.map(|word| i64::from(sign) * word).to_vec();
                table.push(counted(&format!("{name} in 0{kind}, sign {sign}"), draft, &numbers, Words(kind, words)));
            }
        }
    }
    table
}

/// In H, beside its diagonal with both signs, and on it. With β 15 check 11 lets a margin of 1 pass beside a total of 8:
/// 31² is above 8.
fn in_cost() -> Vec<Case> {
    let mut table = Vec::new();
    for (name, about, words) in ABOUT {
        for i in 0..5 {
            for sign in [1, -1] {
                let count = f64::from(sign) * about(TIES[i]);
                let expect = square(8, i64::from(sign) * words[i]);
                let name = format!("{name}: {count} beside H's diagonal");
                table.push(counted(&name, &pair(), &[(COST, 1, count), (COST, 2, count)], expect));
            }
        }
        let seven = uncoupled(Sizes { steps: 7, ..sample().sizes }).with(MOMENTUM, &[15]);
        let numbers: Vec<Given> = (0..7).map(|i| (COST, 8 * i, about(TIES[i + 1]))).collect();
        let mut cost = vec![0; 49];
        (0..7).for_each(|i| cost[8 * i] = words[i + 1]);
        table.push(counted(&format!("{name} on H's diagonal"), &seven, &numbers, Words(COST, cost)));
    }
    table
}

/// 2^-power.
fn small(power: u32) -> f64 {
    f64::from_bits(if power < 1023 { u64::from(1023 - power) << 52 } else { 1 << (1074 - power) })
}

/// Far below half a count of 2^-4, the last subnormal double and the first among them: 0 with either sign, in Φ, in the
/// target table and beside H's diagonal. Taken for a shift of the mantissa these are 63 to 65, 99 to 101 and 127 to 129
/// places, and the most there are.
fn tiny_numbers() -> Vec<Case> {
    let mut tiny: Vec<f64> = [15, 16, 17, 51, 52, 53, 79, 80, 81, 1022, 1074].map(small).to_vec();
    tiny.push(f64::from_bits((1 << 52) - 1));
    let states = uncoupled(Sizes { states: 12, ..sample().sizes });
    let (targets, steps) = (with_targets(&[0; 12], &[7; 4]), uncoupled(Sizes { steps: 4, ..sample().sizes }));
    let diagonal = vec![8, 0, 0, 0, 0, 8, 0, 0, 0, 0, 8, 0, 0, 0, 0, 8];
    let beside: Vec<usize> = (0..16).filter(|i| i % 5 != 0).collect();
    let mut table = Vec::new();
    for sign in [1.0, -1.0] {
        let at = |kind: u8, place: &dyn Fn(usize) -> usize| -> Vec<Given> {
            tiny.iter().enumerate().map(|(i, tiny)| (kind, place(i), sign * tiny)).collect()
        };
        let name = format!("tiny numbers, sign {sign}");
        table.extend([
            given(&name, &states, &at(GAIN, &|i| i), Words(GAIN, vec![0; 12])),
            given(&name, &targets, &at(TARGET_GAIN, &|i| i), Words(TARGET_GAIN, vec![0; 12])),
            given(&name, &steps, &at(COST, &|i| beside[i]), Words(COST, diagonal.clone())),
        ]);
    }
    table
}

/// From −top − 0.5 to top + 0.5, without these two: they are ties, and the even count is the one outside the word. Of H
/// a diagonal of 127 is 10, and one of −127 is 9.
fn ends_of_the_word() -> Vec<Case> {
    let rows: [(f64, Due); 11] = [
        (125.5, Ok(126)),
        (nearer(126.5), Ok(126)),
        (126.5, Ok(126)),
        (further(126.5), Ok(127)),
        (127.25, Ok(127)),
        (nearer(127.5), Ok(127)),
        (127.5, Err(5)),
        (further(127.5), Err(5)),
        (127.75, Err(5)),
        (128.0, Err(5)),
        (f64::MAX, Err(5)),
    ];
    let below = rows.map(|(count, due)| (-count, due.map(|word| -word)));
    let mut table = Vec::new();
    for (draft, kind) in [(sample(), GAIN), (with_target(), TARGET_GAIN)] {
        table.extend(each(&draft, kind, &rows));
        table.extend(each(&draft, kind, &below));
    }
    let refused = |number: Number| move |(count, due): (f64, Due)| (count, due.and(Err(number)));
    table.extend(each(&sample(), COST, &rows.map(refused(10))));
    table.extend(each(&sample(), COST, &below.map(refused(9))));
    let beside = |count: f64, number: Number| {
        let name = format!("{count} counts beside H's diagonal");
        counted(&name, &pair(), &[(COST, 1, count), (COST, 2, count)], Refused(number))
    };
    table.extend([beside(127.25, 9), beside(-127.25, 9), beside(127.5, 5), beside(-127.5, 5)]);
    // Each of the two on its own.
    table.extend(
        [1, 2].map(|at| counted("half a count beyond the word in H", &pair(), &[(COST, at, -127.5)], Refused(5))),
    );
    table
}

/// Other b and W. The state limit is 0, so that Φ takes no headroom.
fn other_words() -> Vec<Case> {
    let mut table = Vec::new();
    for (bits, width, top) in [(4, 32, TOP), (20, 32, TOP), (6, 8, 127), (5, 9, 255)] {
        let draft = resized(sample().with(STATE_LIMIT, &[0]), bits, width);
        let end = top as f64;
        for sign in [1, -1] {
            let row = |count: f64, due: Due| (f64::from(sign) * count, due.map(|word| i64::from(sign) * word));
            let rows = [
                row(further(0.5), Ok(1)),
                row(1.5, Ok(2)),
                row(end - 0.5, Ok(top - 1)),
                row(nearer(end + 0.5), Ok(top)),
                row(end + 0.5, Err(5)),
            ];
            table.extend(each(&draft, GAIN, &rows));
        }
    }
    table
}

/// Lows, β, state and target limits up, highs down.
fn as_before() -> Vec<Case> {
    let s = sample();
    let small: [(f64, Due); 7] =
        [(0.25, Ok(0)), (0.5, Ok(0)), (0.75, Ok(0)), (1.5, Ok(1)), (2.5, Ok(2)), (2.75, Ok(2)), (3.5, Ok(3))];
    let ends: [(f64, Due); 5] =
        [(126.5, Ok(126)), (127.25, Ok(127)), (127.5, Ok(127)), (127.75, Ok(127)), (128.0, Err(5))];
    // On the other side of zero: 1 is 17, and 127, or −127, crosses the other limit.
    let wrong: [(f64, Due); 4] = [(-0.25, Err(17)), (-0.5, Err(17)), (-126.5, Err(7)), (-127.25, Err(5))];
    let highs = [&small[..], &ends, &wrong].concat();
    let lows: Vec<(f64, Due)> = highs.iter().map(|&(count, due)| (-count, due.map(|word| -word))).collect();
    let up: [(f64, Due); 8] = [
        (0.25, Ok(1)),
        (0.5, Ok(1)),
        (1.5, Ok(2)),
        (2.25, Ok(3)),
        (2.5, Ok(3)),
        (-0.25, Ok(0)),
        (-0.5, Ok(0)),
        (-0.75, Ok(0)),
    ];
    // A β of 16, or of −1, is 11.
    let betas: [(f64, Due); 8] = [
        (14.5, Ok(15)),
        (15.25, Err(11)),
        (15.5, Err(11)),
        (-1.5, Err(11)),
        (-127.75, Err(11)),
        (126.5, Err(11)),
        (127.25, Err(5)),
        (127.5, Err(5)),
    ];
    let limits: [(f64, Due); 6] =
        [(126.25, Ok(127)), (126.5, Ok(127)), (127.25, Err(5)), (127.5, Err(5)), (-1.0, Err(5)), (-1.5, Err(5))];
    let limits = [&up[..], &limits].concat();
    join([
        each(&s, LOW, &lows),
        each(&s, HIGH, &highs),
        each(&s, MOMENTUM, &[&up[..], &betas].concat()),
        each(&sample().with(GAIN, &[0]), STATE_LIMIT, &limits),
        each(&with_target(), TARGET_LIMIT, &limits),
    ])
}

/// H is symmetric by its words: the two entries beside its diagonal.
fn symmetric() -> Vec<Case> {
    let of = |one: f64, other: f64, expect| {
        let name = format!("{one} and {other} beside H's diagonal");
        counted(&name, &pair(), &[(COST, 1, one), (COST, 2, other)], expect)
    };
    let alike = |one: f64, other: f64, word: i64| [of(one, other, square(8, word)), of(other, one, square(8, word))];
    let apart = |one: f64, other: f64| [of(one, other, Refused(8)), of(other, one, Refused(8))];
    let tiny = [(COST, 1, f64::from_bits(1)), (COST, 2, -f64::from_bits(1))];
    let tiny = given("the first subnormals beside H's diagonal", &pair(), &tiny, square(8, 0));
    let equal = [
        alike(0.5, -0.5, 0),
        alike(0.25, -0.25, 0),
        alike(-0.5, 0.0, 0),
        alike(1.5, 2.5, 2),
        alike(1.75, 2.25, 2),
        alike(-1.5, -2.5, -2),
        alike(-1.75, -2.0, -2),
        alike(3.5, nearer(4.5), 4),
    ];
    let unequal = [
        apart(0.5, further(0.5)),
        apart(-0.5, -1.0),
        apart(1.0, 1.5),
        apart(1.5, nearer(1.5)),
        apart(2.5, 3.5),
        apart(-2.5, further(-2.5)),
        apart(-1.5, 1.5),
    ];
    equal.into_iter().chain(unequal).flatten().chain([tiny]).collect()
}

/// Two steps with β: the numbers on H's diagonal, those beside it, and the words or the number of a refusal.
fn two(momentum: i64, rows: &[(f64, f64, Result<[i64; 2], Number>)]) -> Vec<Case> {
    let draft = two_steps(8, 0).with(MOMENTUM, &[momentum]);
    let case = |&(diagonal, beside, due): &(f64, f64, Result<[i64; 2], Number>)| {
        let numbers = [(COST, 0, diagonal), (COST, 1, beside), (COST, 2, beside), (COST, 3, diagonal)];
        let expect = due.map_or_else(Refused, |[diagonal, beside]| square(diagonal, beside));
        counted(&format!("H {diagonal} and {beside}, β {momentum}"), &draft, &numbers, expect)
    };
    rows.iter().map(case).collect()
}

/// Check 9: what is left of a row is 1 count at least.
fn margins() -> Vec<Case> {
    let alone: [(f64, Due); 8] = [
        (0.25, Err(9)),
        (nearer(0.5), Err(9)),
        (0.5, Err(9)),
        (further(0.5), Ok(1)),
        (0.75, Ok(1)),
        (-0.5, Err(9)),
        (-0.25, Err(9)),
        (1.5, Ok(2)),
    ];
    let rows = [
        (7.5, 7.0, Ok([8, 7])),
        (nearer(7.5), 7.0, Err(9)),
        (8.0, nearer(7.5), Ok([8, 7])),
        (8.0, 7.5, Err(9)),
        (8.0, -7.5, Err(9)),
        (8.0, 6.5, Ok([8, 6])),
        (8.0, -6.5, Ok([8, -6])),
        (8.5, 7.5, Err(9)),
        (7.5, 7.5, Err(9)),
        (6.5, 6.0, Err(9)),
        (6.5, 5.0, Ok([6, 5])),
    ];
    join([each(&sample(), COST, &alone), two(10, &rows)])
}

/// Check 10: a row comes to 16 counts at most.
fn totals() -> Vec<Case> {
    let alone: [(f64, Due); 6] =
        [(15.5, Ok(16)), (16.25, Ok(16)), (16.5, Ok(16)), (further(16.5), Err(10)), (16.75, Err(10)), (17.5, Err(10))];
    let rows = [
        (8.5, 7.0, Ok([8, 7])),
        (further(8.5), 7.0, Ok([9, 7])),
        (9.5, 7.0, Err(10)),
        (nearer(9.5), 7.0, Ok([9, 7])),
        (9.0, 6.5, Ok([9, 6])),
        (9.0, 7.5, Err(10)),
        (9.0, -7.5, Err(10)),
        (9.0, -nearer(7.5), Ok([9, -7])),
        (10.5, 6.0, Ok([10, 6])),
        (10.5, -6.5, Ok([10, -6])),
        (further(8.5), 8.0, Err(10)),
    ];
    join([each(&sample(), COST, &alone), two(10, &rows)])
}

/// Check 11 with β 9: 25² = 625 times the margin beside 7² = 49 times the total.
fn momenta() -> Vec<Case> {
    let rows = [
        // 1250 and 686; with 7 on the diagonal 625 and 637.
        (7.5, 6.0, Ok([8, 6])),
        (nearer(7.5), 6.0, Err(11)),
        (8.0, 6.5, Ok([8, 6])),
        (8.0, -6.5, Ok([8, -6])),
        // 625 and 735.
        (8.0, further(6.5), Err(11)),
        (8.0, further(-6.5), Err(11)),
        (7.5, 7.0, Err(11)),
        // 625 and 637, 1250 and 588, 625 and 539.
        (7.0, 5.5, Err(11)),
        (7.0, -5.5, Err(11)),
        (7.0, nearer(5.5), Ok([7, 5])),
        (6.5, 5.0, Ok([6, 5])),
    ];
    two(9, &rows)
}

/// Check 12. With H 8 A is 10, which leaves 117 for B: with a state limit of 117 a Φ of 16 passes, and with 118 it does
/// not, but 15 does (110.625 is 111). H 6 has A 12.5, 7 has 11.25, 9 has 8.75.
fn headrooms() -> Vec<Case> {
    let (last, beyond) = (sample().with(STATE_LIMIT, &[117]), sample().with(STATE_LIMIT, &[118]));
    let gains: [(f64, Due); 4] = [(15.5, Ok(16)), (16.25, Ok(16)), (16.5, Ok(16)), (further(16.5), Err(12))];
    let less: [(f64, Due); 3] = [(14.5, Ok(14)), (nearer(15.5), Ok(15)), (15.5, Err(12))];
    let both = |rows: &[(f64, Due)]| {
        let below = rows.iter().map(|&(count, due)| (-count, due.map(|word| -word)));
        rows.iter().copied().chain(below).collect::<Vec<_>>()
    };
    let costs: [(f64, Due); 6] =
        [(6.5, Err(12)), (nearer(7.5), Err(12)), (7.5, Ok(8)), (8.5, Ok(8)), (further(8.5), Ok(9)), (9.5, Ok(10))];
    join([each(&last, GAIN, &both(&gains)), each(&beyond, GAIN, &both(&less)), each(&last, COST, &costs)])
}

/// B is 100 and the target's part, for which 17 is left: 8 × 34 / 16. With 35 it is 17.5, and 7 × 35 / 16 is 15.3125.
fn target_headrooms() -> Vec<Case> {
    let last: [(f64, Due); 7] = [
        (7.5, Ok(8)),
        (8.5, Ok(8)),
        (further(8.5), Err(12)),
        (-7.5, Ok(-8)),
        (-8.5, Ok(-8)),
        (-8.25, Ok(-8)),
        (further(-8.5), Err(12)),
    ];
    let beyond: [(f64, Due); 4] = [(nearer(7.5), Ok(7)), (7.5, Err(12)), (nearer(-7.5), Ok(-7)), (-7.5, Err(12))];
    join([each(&with_limits(100, 34), TARGET_GAIN, &last), each(&with_limits(100, 35), TARGET_GAIN, &beyond)])
}

/// Three sweeps for state 10. The bounds are 1, 2, 3 where M is 8, as in S.
fn answers() -> Vec<Case> {
    let s = |kind: u8, count: f64, command: i64, distance: u64| {
        let name = format!("the answer with {count} counts in 0{kind}");
        counted(&name, &sample(), &[(kind, 0, count)], Answer(vec![command, 3])).distance(distance)
    };
    let to = |count: f64, command: i64, distance: u64| {
        let name = format!("the answer with a target table of {count} counts");
        counted(&name, &with_target(), &[(TARGET_GAIN, 0, count)], Answer(vec![command, 3]))
            .target(&[7])
            .distance(distance)
    };
    let steps = coupled([(-20, 20), (-2, 5)]);
    vec![
        s(GAIN, -0.5, 0, 0),
        s(GAIN, 0.5, 0, 0),
        // h = −1.25, which is −2: 2, 1 + 2, 1 + 2 for 1.5. h = 1: −1, −1 − 1 for −0.5, −1 − 1. The optimum is half a
        // count away, at 20 / 8 and −20 / 8.
        s(GAIN, -1.5, 3, 1),
        s(GAIN, 1.5, -2, 1),
        // S itself, and h = 11.25, which is 11: −11, −6 − 11 for −5.5, −9 − 11 for −8.5. The step is held.
        s(GAIN, 15.5, -18, 2),
        s(GAIN, 16.5, -18, 2),
        s(GAIN, 17.5, -20, 0),
        s(COST, 7.5, -18, 2),
        s(COST, 8.5, -18, 2),
        // M is 6: −10, −4 − 10 for −3.75, −6 − 10 for −5.25, the optimum. e: 12 / 16 is 1, 1 + 1; 18 / 16 is 2, 2 + 1.
        s(COST, 9.5, -16, 0),
        s(COST, 10.5, -16, 0),
        // The case "S with a target", and h = (160 − 70) / 16 = 5.625, which is 5: −5, −3 − 5 for −2.5, −4 − 5. The
        // optimum is −90 / 8 = −11.25.
        to(-7.5, -11, 2),
        to(-8.5, -11, 2),
        to(-9.5, -9, 3),
        to(-10.5, -9, 3),
        // The case "coupled steps".
        counted("coupled steps by ties", &steps, &[(COST, 1, 3.5), (COST, 2, 4.5)], Answer(vec![-20, -2, 7, 7]))
            .distance(2),
    ]
}

/// 127.5 counts, which is 5 at its own line, and 127.25, which is not.
const BEYOND: &str = "401FE00000000000";
const WITHIN: &str = "401FD00000000000";

/// The two in H's line, or in that of Φ, with another part of the sheet changed, and the numbers that are due.
fn behind_lines() -> Vec<Case> {
    let (h, phi) = ("0200003FE0000000000000", "0300003FF0000000000000");
    let with = |line: &str, [old, new]: [&str; 2], [beyond, within]: [Number; 2]| {
        [(BEYOND, beyond), (WITHIN, within)].map(|(double, number)| {
            let text = SAMPLE.replace(line, &format!("{}{double}", &line[..6])).replacen(old, new, 1);
            let name = format!("{double} in {}, {new} for {old}", &line[..2]);
            sheet_case(&name, &sample(), text.into_bytes(), Refused(number))
        })
    };
    let cut = |line: &str, bytes: usize, numbers: [Number; 2]| {
        with(line, ["", ""], numbers).map(|case| {
            let sheet = case.sheet[..7 * LINE - bytes].to_vec();
            Case { name: format!("{}, {bytes} bytes missing", case.name), sheet, ..case }
        })
    };
    [
        with(h, ["", ""], [5, 10]),
        with(h, ["020000401F", "020000401f"], [1, 1]),
        with(h, ["020000", "020001"], [2, 2]),
        with(h, ["0408000003", "0408000000"], [3, 3]),
        with(h, ["0300003FF", "0300003fF"], [5, 1]),
        with(h, ["0300003FF", "0300013FF"], [5, 2]),
        with(h, ["0300003FF0", "0300007FF0"], [5, 5]),
        with(phi, ["020000", "020001"], [2, 2]),
        with(phi, ["0500003FF4", "0500013FF4"], [5, 2]),
        with(phi, ["0500003FF4", "050000BFF8"], [5, 7]),
        with(phi, ["040000BFF4", "0400003FB0"], [5, 17]),
        with(phi, ["0200003FE0", "0200000000"], [5, 9]),
        with(phi, ["0200003FE0", "0200003FF8"], [5, 10]),
        with(phi, ["060000000", "060000BFF"], [5, 11]),
        with(phi, ["0700003FE4", "0700004000"], [5, 12]),
        cut(h, 5 * LINE, [5, 4]),
        cut(h, 5 * LINE + 1, [1, 1]),
        cut(phi, 1, [5, 1]),
    ]
    .into_iter()
    .flatten()
    .collect()
}

/// The same in the target table, which has one line behind it.
fn behind_target_lines() -> Vec<Case> {
    let lines = String::from_utf8(with_target_text()).unwrap();
    let with = |old: &str, new: &str, [beyond, within]: [Number; 2]| {
        [(BEYOND, beyond), (WITHIN, within)].map(|(double, number)| {
            let text = lines.replace("080000BFE0000000000000", &format!("080000{double}")).replacen(old, new, 1);
            sheet_case(&format!("{double} in 08, {new:?}"), &with_target(), text.into_bytes(), Refused(number))
        })
    };
    let (last, state) = ("0900003FDC000000000000\n", "0700003FE4000000000000\n");
    [
        with(last, "", [5, 4]),
        with(last, "0900013FDC000000000000\n", [5, 2]),
        with(last, "090000BFDC000000000000\n", [5, 5]),
        with(last, "0900003FDC00000000000\n", [5, 1]),
        with(last, "0900003FDC000000000000\n\n", [5, 4]),
        with(state, "070000BFE4000000000000\n", [5, 5]),
        with(state, "0700013FE4000000000000\n", [2, 2]),
        with("0500003FF4", "050000BFF8", [5, 7]),
        with("040000BFF4", "0400003FB0", [5, 17]),
        // A target limit of 116: B is 10 and 127 × 116 / 16.
        with("0900003FDC", "090000401D", [5, 12]),
    ]
    .into_iter()
    .flatten()
    .collect()
}

/// A count is 3FB0000000000000.
pub fn pages() -> Vec<Case> {
    let s = |name: &str, line: &str| page_case(name, &SAMPLE[..LINE - 1], &page_with(PAGE_OF_SAMPLE, &[line]));
    let mut table = vec![
        // 7.5, 8.5, 9.5, 1.5, 2.5, 3.5 and 0.5 counts.
        s("a tie of H up", "02 0000 3FDE000000000000 3FE0000000000000 M"),
        s("a tie of H down", "02 0000 3FE1000000000000 3FE0000000000000 M"),
        s("a tie of H up to 10", "02 0000 3FE3000000000000 3FE4000000000000 M"),
        s("a tie up", "03 0000 3FB8000000000000 3FC0000000000000 M"),
        s("a tie down", "03 0000 3FC4000000000000 3FC0000000000000 M"),
        s("a tie up to 4", "03 0000 3FCC000000000000 3FD0000000000000 M"),
        s("a tie to zero", "03 0000 3FA0000000000000 0000000000000000 M"),
        s("a tie down, below zero", "03 0000 BFB8000000000000 BFC0000000000000 M"),
        s("a tie up, below zero", "03 0000 BFC4000000000000 BFC0000000000000 M"),
        // The last bit from 7.5, 8.5, 0.5 and 1.5 counts.
        s("beside a tie of H, down", "02 0000 3FDDFFFFFFFFFFFF 3FDC000000000000 M"),
        s("beside a tie of H, up", "02 0000 3FE1000000000001 3FE2000000000000 M"),
        s("beside a tie, to zero", "03 0000 3F9FFFFFFFFFFFFF 0000000000000000 M"),
        s("beside a tie, up", "03 0000 3FA0000000000001 3FB0000000000000 M"),
        s("beside a tie, to zero from below", "03 0000 BF9FFFFFFFFFFFFF 0000000000000000 M"),
        s("beside a tie, down", "03 0000 BFA0000000000001 BFB0000000000000 M"),
        s("beside a tie, down to 1", "03 0000 3FB7FFFFFFFFFFFF 3FB0000000000000 M"),
        s("beside a tie, up to 2", "03 0000 3FB8000000000001 3FC0000000000000 M"),
        // 126.5, 127.25 and the last bit from 127.5 counts.
        s("a tie below top", "03 0000 401FA00000000000 401F800000000000 M"),
        s("up to top", "03 0000 401FA00000000001 401FC00000000000 M"),
        s("a quarter above top", "03 0000 401FD00000000000 401FC00000000000 M"),
        s("a quarter below minus top", "03 0000 C01FD00000000000 C01FC00000000000 M"),
        s("almost half above top", "03 0000 401FDFFFFFFFFFFF 401FC00000000000 M"),
        s("almost half below minus top", "03 0000 C01FDFFFFFFFFFFF C01FC00000000000 M"),
        s("the last subnormal below zero", "03 0000 800FFFFFFFFFFFFF 0000000000000000 M"),
        s("the last bit below a count", "03 0000 3FAFFFFFFFFFFFFF 3FB0000000000000 M"),
    ];
    table.extend(pages_with_targets());
    table.extend(pages_of_two_motors());
    table
}

/// S with a target. One and a half counts in every line, two and a half, and lines of 08 alone.
fn pages_with_targets() -> Vec<Case> {
    let target = "08 0000 BFE0000000000000 BFE0000000000000 K\n09 0000 3FDC000000000000 3FDC000000000000 K\n";
    let page = PAGE_OF_SAMPLE.to_string() + target;
    let of = |name: &str, lines: &[&str]| page_case(name, "0101010104080100030000", &page_with(&page, lines));
    vec![
        of(
            "one and a half counts in every line",
            &[
                "02 0000 3FB8000000000000 3FC0000000000000 M",
                "03 0000 3FB8000000000000 3FC0000000000000 M",
                "04 0000 BFB8000000000000 BFB0000000000000 M",
                "05 0000 3FB8000000000000 3FB0000000000000 M",
                "06 0000 3FB8000000000000 3FC0000000000000 M",
                "07 0000 3FB8000000000000 3FC0000000000000 M",
                "08 0000 BFB8000000000000 BFC0000000000000 M",
                "09 0000 3FB8000000000000 3FC0000000000000 M",
            ],
        ),
        of(
            "two and a half counts in every line",
            &[
                "02 0000 3FC4000000000000 3FC0000000000000 M",
                "03 0000 BFC4000000000000 BFC0000000000000 M",
                "04 0000 BFC4000000000000 BFC0000000000000 M",
                "05 0000 3FC4000000000000 3FC0000000000000 M",
                "06 0000 3FC4000000000000 3FC8000000000000 M",
                "07 0000 3FC4000000000000 3FC8000000000000 M",
                "08 0000 3FC4000000000000 3FC0000000000000 M",
                "09 0000 3FC4000000000000 3FC8000000000000 M",
            ],
        ),
        of("a target's tie to zero", &["08 0000 BFA0000000000000 0000000000000000 M"]),
        of("a target's tie up", &["08 0000 3FB8000000000000 3FC0000000000000 M"]),
        of("a target's minus zero", &["08 0000 8000000000000000 0000000000000000 K"]),
        of("the first subnormal below zero of a target", &["08 0000 8000000000000001 0000000000000000 M"]),
        of("the last bit beyond a target's tie", &["08 0000 BFA0000000000001 BFB0000000000000 M"]),
        of("a target a quarter below minus top", &["08 0000 C01FD00000000000 C01FC00000000000 M"]),
    ]
}

/// H is symmetric by its words, 2 and −2, though its doubles differ. β is 10.
fn pages_of_two_motors() -> [Case; 2] {
    let beta = "06 0000 3FE4000000000000 3FE4000000000000 K";
    let of = |name: &str, lines: [&str; 2]| {
        page_case(name, "0102010104080000030000", &page_with(PAGE_OF_TWO_MOTORS, &[lines[0], lines[1], beta]))
    };
    [
        of(
            "ties that make H symmetric",
            ["02 0001 3FB8000000000000 3FC0000000000000 M", "02 0100 3FC4000000000000 3FC0000000000000 M"],
        ),
        of(
            "ties below zero that make H symmetric",
            ["02 0001 BFC4000000000000 BFC0000000000000 M", "02 0100 BFB8000000000000 BFC0000000000000 M"],
        ),
    ]
}
