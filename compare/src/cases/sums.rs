//! The cases of requests 4 and 5: sums that are rounded once, the headroom of sums, and rows of many lengths.

use super::Expect::{self, *};
use super::{Case, case, coupled, runs, runs_to, sample, uncoupled, with_distances};
use crate::draft::Draft;
use crate::image::{COST, GAIN, HIGH, LOW, MOMENTUM, STATE_LIMIT, Sizes, TARGET_GAIN, TARGET_LIMIT};

pub fn table() -> Vec<Case> {
    let solved = [rounded_inputs(), rounded_commands(), small_c(), long_sums(), long_rows()];
    let tested = [headroom_once(), headroom_twice(), beyond_64_bits(), within_64_bits()];
    solved.into_iter().chain(tested).flatten().collect()
}

/// The gain and the limit of a state or a target.
type Input = (i64, i64);

/// S with these states and targets.
fn with_inputs(states: &[Input], targets: &[Input]) -> Draft {
    let list = |inputs: &[Input]| -> (Vec<i64>, Vec<i64>) { inputs.iter().copied().unzip() };
    let ((gains, limits), (target_gains, target_limits)) = (list(states), list(targets));
    uncoupled(Sizes { states: states.len(), targets: targets.len(), ..sample().sizes })
        .with(GAIN, &gains)
        .with(STATE_LIMIT, &limits)
        .with(TARGET_GAIN, &target_gains)
        .with(TARGET_LIMIT, &target_limits)
}

/// H is 2^b, so that M and A are 0.
fn without_a(draft: Draft) -> Draft {
    let one = draft.sizes.one();
    draft.with(COST, &[one])
}

pub fn resized(draft: Draft, bits: u32, width: u32) -> Draft {
    Draft { sizes: Sizes { bits, width, ..draft.sizes }, ..draft }
}

/// Steps at b 5, each with a part in all others: M is 16 and beside it 1. With sixteen the rows come to 31 / 32, and 11
/// is met from β 23 on.
pub fn all_coupled(steps: usize) -> Draft {
    let sizes = Sizes { steps, bits: 5, ..sample().sizes };
    let cost: Vec<i64> = (0..steps * steps).map(|i| if i % (steps + 1) == 0 { 16 } else { -1 }).collect();
    uncoupled(sizes).with(COST, &cost).with(MOMENTUM, &[24])
}

fn runs_from(name: &str, draft: &Draft, start: &[i64], rows: &[&[i64]]) -> Vec<Case> {
    let state = vec![0; draft.sizes.states];
    runs(name, draft, &state, rows).into_iter().map(|case| case.start(start)).collect()
}

/// h. With h = 1 z is −1, then −0.5, which is −1, less 1; with −1 it is 1, then 0.5, which is 0, plus 1. e is as in S.
/// D is the distance from −G / 8, rounded up: G counts sixteenths, and a half is 8 of them.
fn rounded_inputs() -> Vec<Case> {
    let (above, none, below): ([&[i64]; 3], [&[i64]; 3], [&[i64]; 3]) =
        ([&[-1, 1], &[-2, 2], &[-2, 3]], [&[0, 1], &[0, 2], &[0, 3]], [&[1, 1], &[1, 2], &[1, 3]]);
    // A half each: by themselves they would be 0 and 0, or −1 and −1.
    let two = with_inputs(&[(8, 10), (8, 10)], &[]);
    let mut table = with_distances(runs("two halves of states", &two, &[1, 1], &above), &[1, 0, 0]);
    table.extend(with_distances(runs("two halves of states below zero", &two, &[-1, -1], &below), &[1; 3]));
    let both = with_inputs(&[(8, 10)], &[(8, 7)]);
    let mut halves = |name: &str, state: i64, target: i64, rows: &[&[i64]], distances: &[u64]| {
        table.extend(with_distances(runs_to(name, &both, &[state], &[target], rows), distances));
    };
    halves("a half of a state, a half of a target", 1, 1, &above, &[1, 0, 0]);
    halves("two halves below zero", -1, -1, &below, &[1; 3]);
    halves("a half above zero and one below", 1, -1, &none, &[0; 3]);
    // Sixteenths: 16, −16, 12 − 4 = 8 and −12 + 4 = −8 of them. By themselves they would be 0 or −1 each, and the parts
    // of state and target 0, −1 and −1, 0 and −1, −1 and 0.
    let many = with_inputs(&[(1, 1); 12], &[(1, 1); 4]);
    let mut sixteenths = |state: i64, target: i64, rows: &[&[i64]], distances: &[u64]| {
        let name = format!("sixteenths, twelve {state} and four {target}");
        table.extend(with_distances(runs_to(&name, &many, &[state; 12], &[target; 4], rows), distances));
    };
    sixteenths(1, 1, &above, &[1, 0, 0]);
    sixteenths(-1, -1, &below, &[1; 3]);
    sixteenths(1, -1, &none, &[1; 3]);
    sixteenths(-1, 1, &below, &[0; 3]);
    // t = 0 − 0, and 0 + 1: h is rounded before it is taken off, so that t is not −0.5 or 0.5, rounded.
    let half = with_inputs(&[(8, 10)], &[]);
    table.extend(with_distances(runs("half a count to take off", &half, &[1], &none), &[1; 3]));
    table.extend(with_distances(runs("half a count to add", &half, &[-1], &below), &[0; 3]));
    table
}

/// M y, and the y step, whose products are rounded by themselves. h is 0.
fn rounded_commands() -> Vec<Case> {
    let wide = coupled([(-20, 20); 2]);
    // M is (8,−4),(−4,8). −8 − 8 is −1 (by themselves −0.5 and −0.5 would be −2), 4 + 16 is 1 (1.25). y = (−2 + 1, 1 −
    // 1) for −1.5, −0.5, 1.5 and 1: −8 + 0 is −1, 4 + 0 is 0. e is that of the coupled steps.
    let rows: [&[i64]; 2] = [&[-1, 1, 1, 1], &[-1, 0, 4, 4]];
    let mut table = runs_from("two halves of commands below zero", &wide, &[-1, 2], &rows);
    // 8 + 8 is 1 (by themselves 0), −4 − 16 is −2 (−1.25). y = (1 − 0, −3 + 1), the start again.
    let rows: [&[i64]; 2] = [&[1, -2, 1, 1], &[1, -2, 4, 4]];
    table.extend(runs_from("two halves of commands", &wide, &[1, -2], &rows));
    // −16 − 15 over 32 is −1; by themselves −0.5 and fifteen times −1 / 32 would be −16. y = −2 + 1 for −1.75 and
    // −0.75. q = 1 + 1 + 1 (0.75), 31 × 3 / 32 is 3, 3 + 1.
    let (minus, ones, fours) = ([-1; 16], [1; 16], [4; 16]);
    let rows: [&[i64]; 2] = [&[minus, ones].concat(), &[minus, fours].concat()];
    table.extend(runs_from("sixteen commands", &all_coupled(16), &minus, &rows));
    // 0.5 is 0. y = 0 − 0, for 0 and 0.5, and not −0.5, which would be −1. e is that of S with β 8.
    let rows: [&[i64]; 3] = [&[0, 1], &[0, 3], &[0, 4]];
    table.extend(runs_from("two roundings of y", &sample().with(MOMENTUM, &[8]), &[1], &rows));
    table
}

/// c is 1 with every n and every nx + nr: S, with more of what has no part in it.
fn small_c() -> Vec<Case> {
    let inputs = with_inputs(&[&[(16, 10)], &[(0, 0); 11][..]].concat(), &[(0, 0); 4]);
    let state = [&[10], &[0; 11][..]].concat();
    let rows: [&[i64]; 5] = [&[-10, 1], &[-15, 2], &[-18, 3], &[-19, 3], &[-20, 3]];
    let mut table = runs_to("S with sixteen inputs", &inputs, &state, &[0; 4], &rows);
    let steps = uncoupled(Sizes { steps: 16, ..sample().sizes });
    let rows = rows.map(|row| row.iter().flat_map(|&word| [word; 16]).collect::<Vec<i64>>());
    table.extend(runs("S with sixteen steps", &steps, &[10], &rows.each_ref().map(Vec::as_slice)));
    table
}

pub const TOP: i64 = (1 << 31) - 1;

/// The widest word at b 20: sums of up to 51 bits.
fn long_sums() -> Vec<Case> {
    let one = 1 << 20;
    let wide = |draft: Draft| resized(draft, 20, 32).with(LOW, &[-TOP]).with(HIGH, &[TOP]).iterations(1);
    // M is 0, and h = top × 2^20 / 2^20.
    let inputs = without_a(wide(with_inputs(&[(one, TOP)], &[])));
    // M is 2^20 − 1: (2^20 − 1) × (2^31 − 1) = 2^51 − 2^31 − 2^20 + 1, which is 2^31 − 2^11 − 1 and a millionth counts.
    let commands = wide(with_inputs(&[(0, 0)], &[])).with(COST, &[1]);
    // D is the distance from −h, and from 0.
    let solve = |name: &str, draft: &Draft, state: i64, command: i64, distance: u64| {
        case(name, draft, &[state], Answer(vec![command, 1])).distance(distance)
    };
    vec![
        solve("the largest sum of h", &inputs, TOP, -TOP, 0),
        solve("the least sum of h", &inputs, -TOP, TOP, 0),
        solve("the largest sum of M y", &commands, 0, 2147481599, 2147481599).start(&[TOP]),
        solve("the least sum of M y", &commands, 0, -2147481600, 2147481600).start(&[-TOP]),
    ]
}

/// Request 5: rows of five to eight terms, which are a group of four with every rest, and two groups. The terms are
/// powers of two in counts, so that one that is missed or repeated shows.
fn long_rows() -> Vec<Case> {
    let powers = |unit: i64, count: usize| (0..count).map(|j| unit << j).collect::<Vec<i64>>();
    // z = −h, which is 1 + 2 + 4 + 8 + 16, then 32, 64 and 128 more. The optimum is −2 h.
    let h = |h: i64, count: usize| {
        let state = powers(1, count);
        let inputs: Vec<Input> = state.iter().map(|&limit| (16, limit)).collect();
        let draft = resized(with_inputs(&inputs, &[]), 4, 16).with(LOW, &[-999]).with(HIGH, &[999]);
        let name = format!("h of {count} states");
        case(&name, &draft.iterations(1), &state, Answer(vec![-h, 1])).distance(h as u64)
    };
    // M is 16 and beside it 1, over 32: a start of 32 × 2^j is 2^j counts in each row, and 15 × 2^j more in its own.
    // R is 17 times the last command less the sum of all: 3987 / 12, 7908 / 11, 15685 / 10 and 31110 / 9.
    let m_y = |commands: &[i64], distance: u64| {
        let n = commands.len();
        let draft = resized(all_coupled(n), 5, 16).with(LOW, &vec![-4096; n]).with(HIGH, &vec![4096; n]);
        let row = [commands, &vec![1; n]].concat();
        let case = case(&format!("M y of {n} commands"), &draft.iterations(1), &[0], Answer(row));
        case.start(&powers(32, n)).distance(distance)
    };
    vec![
        h(31, 5),
        h(63, 6),
        h(127, 7),
        h(255, 8),
        // 31, 63, 127 and 255, and 15, 30, 60, 120, 240, 480, 960 and 1920.
        m_y(&[46, 61, 91, 151, 271], 333),
        m_y(&[78, 93, 123, 183, 303, 543], 719),
        m_y(&[142, 157, 187, 247, 367, 607, 1087], 1569),
        m_y(&[270, 285, 315, 375, 495, 735, 1215, 2175], 3457),
    ]
}

/// A draft that is accepted, or refused 12.
fn headroom(name: &str, draft: &Draft, expect: Expect) -> Case {
    let zeros = |length: usize| vec![0; length];
    case(name, draft, &zeros(draft.sizes.states), expect).target(&zeros(draft.sizes.targets))
}

/// B is 116 and twice 0.5.
pub fn two_halves_of_b() -> Draft {
    with_inputs(&[(16, 116), (8, 1), (8, 1)], &[])
}

/// A and B, each rounded up once. Top is 127.
fn headroom_once() -> Vec<Case> {
    // A is 10, as in S, which leaves 117 × 16 = 1872 for B.
    let b = |name: &str, states: &[Input], targets: &[Input], expect| {
        headroom(&format!("B, {name}"), &with_inputs(states, targets), expect)
    };
    let eleven = [&[(16, 116)], &[(1, 1); 11][..]].concat();
    // M is (8,−4),(−4,8) and Y (2 + 1, 1 + 1), 1 for 0.5, or the reverse: A is 8 × 3 + 4 × 2 = 32, 2 counts, in one row,
    // and 4 × 3 + 8 × 2 = 28 in the other, which has no B.
    let a = |limits, gains: [i64; 2], limit: i64, expect| {
        let draft = coupled(limits).with(GAIN, &gains).with(STATE_LIMIT, &[limit]);
        headroom(&format!("A of two, state limit {limit}"), &draft, expect)
    };
    // Y is 1 + 1, 1 for 0.75, and A 31 × 2 / 32, which is 2; each of its terms would be 1.
    let all = |limit: i64, expect| {
        let draft = all_coupled(16).with(LOW, &[0; 16]).with(HIGH, &[1; 16]).with(GAIN, &[32; 16]);
        headroom(&format!("A of sixteen, state limit {limit}"), &draft.with(STATE_LIMIT, &[limit]), expect)
    };
    vec![
        headroom("B, two halves", &two_halves_of_b(), Accepted),
        b("two halves and a sixteenth", &[(16, 116), (8, 1), (-9, 1)], &[], Refused(12)),
        b("a half of each part", &[(16, 116), (-8, 1)], &[(8, 1)], Accepted),
        b("a half of each part and a sixteenth", &[(16, 116), (8, 1)], &[(9, 1)], Refused(12)),
        b("sixteen sixteenths", &eleven, &[(1, 1), (1, 1), (-1, 1), (1, 2)], Accepted),
        b("seventeen sixteenths", &eleven, &[(1, 1), (1, 1), (-1, 1), (1, 3)], Refused(12)),
        a([(0, 2), (0, 1)], [16, 0], 125, Accepted),
        a([(0, 2), (0, 1)], [16, 0], 126, Refused(12)),
        a([(-1, 0), (-2, 0)], [0, 16], 125, Accepted),
        a([(-1, 0), (-2, 0)], [0, 16], 126, Refused(12)),
        all(125, Accepted),
        all(126, Refused(12)),
    ]
}

/// A and B are rounded up apart, and Y before A.
fn headroom_twice() -> Vec<Case> {
    // A is 8 × 1 / 16 and so 1, which leaves 126 × 16 = 2016 for B; in one sum with A it would be 2032 − 8 = 2024.
    let half = |name: &str, states: &[Input], targets: &[Input], expect| {
        headroom(&format!("A is 0.5, {name}"), &with_inputs(states, targets).with(LOW, &[0]).with(HIGH, &[1]), expect)
    };
    // A is 0, which leaves 127 × 16 = 2032.
    let none = |name: &str, states: &[Input], targets: &[Input], expect| {
        headroom(&format!("A is 0, {name}"), &without_a(with_inputs(states, targets)), expect)
    };
    // M is 15 and Y 9 + 4.5, rounded up: A is 15 × 14 / 16 = 13.125 and so 14. With Y 13.5 it would be 13.
    let y = |limit: i64, expect| {
        let draft = with_inputs(&[(16, limit)], &[]).with(COST, &[1]).with(MOMENTUM, &[8]);
        headroom(&format!("Y is 13.5, state limit {limit}"), &draft.with(LOW, &[0]).with(HIGH, &[9]), expect)
    };
    vec![
        half("B 65 × 31", &[(65, 31)], &[], Accepted),
        half("B 96 × 21", &[(96, 21)], &[], Accepted),
        half("B 96 × 21 and 1", &[(96, 21), (1, 1)], &[], Refused(12)),
        half("B 96 × 21 and 1 of a target", &[(96, 21)], &[(1, 1)], Refused(12)),
        half("B 88 × 23", &[(88, 23)], &[], Refused(12)),
        none("B 2032", &[(16, 127)], &[], Accepted),
        none("B 2033", &[(16, 127), (1, 1)], &[], Refused(12)),
        none("B 2032 of three", &[(16, 126), (15, 1), (1, 1)], &[], Accepted),
        none("B 2032 with targets", &[(16, 126)], &[(15, 1), (1, 1)], Accepted),
        none("B 2033 with targets", &[(16, 126)], &[(15, 1), (2, 1)], Refused(12)),
        y(113, Accepted),
        y(114, Refused(12)),
    ]
}

/// The widest word at b 20, and no A.
fn wide(states: &[Input], targets: &[Input]) -> Draft {
    without_a(resized(with_inputs(states, targets), 20, 32))
}

/// Products of 2^62 − 2^32 + 1, of 2^60 and of 2^34.
const FULL: Input = (TOP, TOP);
const POWER: Input = (1 << 30, 1 << 30);
const REST: Input = (1 << 17, 1 << 17);

pub fn sixteen_at_top() -> Draft {
    wide(&[FULL; 12], &[FULL; 4])
}

/// Sums of B that 64 bits do not hold.
fn beyond_64_bits() -> Vec<Case> {
    let refused = |name: &str, draft: Draft| headroom(name, &draft, Refused(12));
    let narrow = ((1 << 30) - 1, (1 << 30) - 1);
    // A is about 2^30.
    let beside_a = wide(&[FULL; 4], &[]).with(COST, &[1]).with(LOW, &[-1 << 30]).with(HIGH, &[1 << 30]);
    let second_row = resized(uncoupled(Sizes { steps: 2, states: 5, ..sample().sizes }), 20, 32)
        .with(COST, &[1 << 20, 0, 0, 1 << 20])
        .with(GAIN, &[0, 0, 0, 0, 0, TOP, -TOP, TOP, -TOP, 1 << 17])
        .with(STATE_LIMIT, &[TOP, TOP, TOP, TOP, 1 << 17]);
    vec![
        // 2^66 − 2^36 + 16, which in 64 bits is −2^36 + 16, and 2^64 − 2^35 + 16.
        refused("sixteen at top", sixteen_at_top()),
        refused("sixteen at minus top", wide(&[(-TOP, TOP); 12], &[(-TOP, TOP); 4])),
        refused("sixteen at top, b 4", without_a(resized(with_inputs(&[FULL; 12], &[FULL; 4]), 4, 32))),
        refused("sixteen at top, W 31", without_a(resized(with_inputs(&[narrow; 12], &[narrow; 4]), 20, 31))),
        // 2^63 + 2^62 − 3 × 2^32 + 3, and 2^64 − 2^34 + 4: below zero as a signed word.
        refused("three at top", wide(&[FULL; 3], &[])),
        refused("two at top and a target", wide(&[FULL; 2], &[FULL])),
        refused("four at top", wide(&[FULL; 4], &[])),
        refused("four targets at top", wide(&[(0, 0)], &[FULL; 4])),
        refused("four at top beside A", beside_a),
        // 2^64 + 4, which is 4.
        refused("four at top and 2^34", wide(&[FULL, FULL, FULL, FULL, REST], &[])),
        refused("2^34 and four targets at top", wide(&[REST], &[FULL; 4])),
        refused("four at top and 2^34 in the second row", second_row),
        // 2^63, 2^64 and 2^64 + 2^40, which are −2^63, 0 and 2^40.
        refused("eight of 2^60", wide(&[POWER; 8], &[])),
        refused("sixteen of 2^60", wide(&[POWER; 12], &[POWER; 4])),
        refused(
            "sixteen of 2^60 and 2^40",
            wide(&[POWER; 12], &[POWER, POWER, POWER, (1 << 30, (1 << 30) + (1 << 10))]),
        ),
    ]
}

/// Sums at the widest word that 64 bits hold.
fn within_64_bits() -> Vec<Case> {
    let of = |name: &str, states: &[Input], targets: &[Input], expect| headroom(name, &wide(states, targets), expect);
    let top = (1 << 20, TOP);
    vec![
        // 2^63 − 2^33 + 2, and 2^52, which is 2^32 counts.
        of("two at top", &[FULL; 2], &[], Refused(12)),
        of("2^32 counts", &[(1 << 30, 1 << 22)], &[], Refused(12)),
        // top × 2^20, and 1 more.
        of("top counts", &[top], &[], Accepted),
        of("top counts and 0", &[top, (1, 0)], &[(0, 1)], Accepted),
        of("top counts and a millionth", &[top, (1, 1)], &[], Refused(12)),
        of("top counts and a millionth of a target", &[top], &[(-1, 1)], Refused(12)),
    ]
}
