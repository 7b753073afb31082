//! Document 01's cases at the edges as one table, the starred ones among them, and a few of our own behind them: edges
//! that it implies, and those of requests 1 to 12. The figures of ours are worked out by hand from the papers. Solves
//! that come to rest are a table of their own, and so are the scripts of requests 9 to 11 and the ranges of request 12.

mod distance;
mod heads;
mod made;
mod nearest;
mod ranges;
mod rest;
mod script;
mod shares;
mod stop;
mod sums;

pub use nearest::with_ties;
pub use ranges::{RangeCase, of_solves, run_range, table as ranges};
pub use rest::{Rest, rests, table as at_rest};
pub use script::{Answers, Script, answers, run_script};

use crate::double::of_count;
use crate::draft::{Draft, keep_former, text};
use crate::drive::{Call, Kind, Outcome};
use crate::harness::Harness;
use crate::image::{
    COST, GAIN, HEADER_WORDS, HIGH, LOW, MOMENTUM, Number, STATE_LIMIT, Sizes, TARGET_GAIN, TARGET_LIMIT, bytes, words,
};
use crate::page::{self, PAGE_LINE};
use crate::process::{Folder, Table};
use crate::sheet::{LINE, hex};
use crate::solve::answer_len;

/// S, as document 01 prints it.
pub const SAMPLE: &str = "\
0101010104080000030000
0200003FE0000000000000
0300003FF0000000000000
040000BFF4000000000000
0500003FF4000000000000
0600000000000000000000
0700003FE4000000000000
";

/// Its page: 8, 16, −20, 20, 0 and 10 counts, all of them whole.
const PAGE_OF_SAMPLE: &str = "\
02 0000 3FE0000000000000 3FE0000000000000 K
03 0000 3FF0000000000000 3FF0000000000000 K
04 0000 BFF4000000000000 BFF4000000000000 K
05 0000 3FF4000000000000 3FF4000000000000 K
06 0000 0000000000000000 0000000000000000 K
07 0000 3FE4000000000000 3FE4000000000000 K
";

/// The line that request 2 prints: half a count.
const PRINTED: &str = "05 0000 3FA0000000000000 0000000000000000 M";

#[derive(Clone)]
enum Expect {
    Refused(Number),
    Accepted,
    /// Commands, then bounds; D is apart.
    Answer(Vec<i64>),
    /// The first words of a section of the sheet's image.
    Words(u8, Vec<i64>),
    /// The sheet's image in words.
    Image(Vec<i64>),
    /// The sheet's page.
    Page(String),
    /// Lengths of a page's buffer that are all 15.
    NoPage(Vec<usize>),
}
use Expect::*;

pub struct Case {
    name: String,
    sheet: Vec<u8>,
    image_len: usize,
    /// Absent where only the sheet is tried.
    image: Option<Vec<u8>>,
    state: Vec<u8>,
    target: Vec<u8>,
    /// The cold start, all zeros, where absent.
    start: Option<Vec<u8>>,
    /// The bytes that the answer's buffer has too many, or too few.
    spare: isize,
    expect: Expect,
    /// D of the answer, where it is worked out.
    distance: Option<u64>,
}

impl Case {
    fn target(self, target: &[i64]) -> Case {
        Case { target: bytes(target), ..self }
    }

    fn target_bytes(self, target: &[u8]) -> Case {
        Case { target: target.to_vec(), ..self }
    }

    fn start(self, start: &[i64]) -> Case {
        Case { start: Some(bytes(start)), ..self }
    }

    fn spare(self, spare: isize) -> Case {
        Case { spare, ..self }
    }

    pub fn has_image(&self) -> bool {
        self.image.is_some()
    }

    fn distance(self, distance: u64) -> Case {
        Case { distance: Some(distance), ..self }
    }
}

fn case(name: &str, draft: &Draft, state: &[i64], expect: Expect) -> Case {
    let case = sheet_case(name, draft, draft.sheet(), expect);
    Case { image: Some(draft.image()), state: bytes(state), target: Vec::new(), ..case }
}

/// A sheet of about the draft's shape, solved for state 10 and target 0 if it is accepted.
fn sheet_case(name: &str, draft: &Draft, sheet: Vec<u8>, expect: Expect) -> Case {
    let (name, image_len) = (name.to_string(), draft.image().len());
    let (state, target) = (bytes(&[10]), vec![0; 4 * draft.sizes.targets]);
    Case { name, sheet, image_len, image: None, state, target, start: None, spare: 0, expect, distance: None }
}

/// One case for each count of sweeps from 1; each row has the commands, then the bounds.
fn runs(name: &str, draft: &Draft, state: &[i64], rows: &[&[i64]]) -> Vec<Case> {
    let run = |(i, row): (usize, &&[i64])| {
        let name = format!("{name}, sweeps {}", i + 1);
        case(&name, &draft.clone().iterations(i + 1), state, Answer(row.to_vec()))
    };
    rows.iter().enumerate().map(run).collect()
}

/// The same cases with the D of each.
fn with_distances(cases: Vec<Case>, distances: &[u64]) -> Vec<Case> {
    assert_eq!(cases.len(), distances.len());
    cases.into_iter().zip(distances).map(|(case, &distance)| case.distance(distance)).collect()
}

/// The same, each with this target.
fn runs_to(name: &str, draft: &Draft, state: &[i64], target: &[i64], rows: &[&[i64]]) -> Vec<Case> {
    runs(name, draft, state, rows).into_iter().map(|case| case.target(target)).collect()
}

/// The draft with other doubles in the first line of some kinds.
fn with_doubles(name: &str, draft: &Draft, doubles: &[(u8, f64)], expect: Expect) -> Case {
    let mut frames = draft.frames(|i| of_count(draft.body[i], draft.sizes.bits));
    for (kind, double) in doubles {
        let frame = frames.iter_mut().find(|frame| frame[0] == *kind).unwrap();
        frame[3..].copy_from_slice(&double.to_be_bytes());
    }
    sheet_case(name, draft, text(&frames), expect)
}

/// S in words.
pub fn sample() -> Draft {
    let sizes = Sizes { motors: 1, steps: 1, states: 1, bits: 4, width: 8, iterations: 3, targets: 0 };
    let draft = Draft::new(sizes).with(COST, &[8]).with(GAIN, &[16]).with(STATE_LIMIT, &[10]);
    draft.with(LOW, &[-20]).with(HIGH, &[20])
}

/// S with two steps and the rows (a, b), (b, a) for H.
fn two_steps(a: i64, b: i64) -> Draft {
    uncoupled(Sizes { steps: 2, ..sample().sizes }).with(COST, &[a, b, b, a])
}

/// S with other sizes. The commands have no part in each other.
fn uncoupled(sizes: Sizes) -> Draft {
    let (mut draft, n) = (Draft::new(sizes), sizes.commands());
    draft.section(COST).iter_mut().step_by(n + 1).for_each(|diagonal| *diagonal = 8);
    for (kind, word) in [(GAIN, 16), (LOW, -20), (HIGH, 20), (STATE_LIMIT, 10)] {
        draft.section(kind).fill(word);
    }
    draft
}

/// A small problem with two motors and two states that is not in the table.
pub fn two_motors() -> Draft {
    let sizes = Sizes { motors: 2, states: 2, bits: 5, width: 9, ..sample().sizes };
    let draft = Draft::new(sizes).with(COST, &[14, -3, -3, 20]).with(GAIN, &[9, -30, 2, 16]);
    let draft = draft.with(LOW, &[-40, -7]).with(HIGH, &[30, 25]);
    draft.with(MOMENTUM, &[9]).with(STATE_LIMIT, &[50, 12])
}

pub fn table() -> Vec<Case> {
    let mut table = of_document_01();
    table.extend(our_own());
    table.extend(followed_targets());
    table.extend(refused_targets());
    table.extend(target_lines());
    table.extend(held_by_steps());
    table.extend(refused_steps());
    table.extend(headroom_of_steps());
    table.extend(step_lines());
    table.extend(sums::table());
    table.extend(stop::table());
    table.extend(nearest::table());
    table.extend(distance::table());
    table.extend(pages_of_s());
    table.extend(other_pages());
    table.extend(no_pages());
    table
}

/// Those of requests 9 to 11, each once more with the heads in other places, and those of requests 9 and 10 also on
/// drives of four heads.
pub fn scripts() -> Vec<Script> {
    let former = || made::scripts().into_iter().chain(heads::scripts());
    let all = || former().chain(shares::scripts());
    all().chain(all().filter_map(Script::turned)).chain(former().filter_map(Script::of_four)).collect()
}

fn of_document_01() -> Vec<Case> {
    let s = sample;
    let mut table = Vec::new();
    let rows: [&[i64]; 5] = [&[-10, 1], &[-15, 2], &[-18, 3], &[-19, 3], &[-20, 3]];
    // D is the distance from −20, since the one command has R = |8 z + 160| and m = 8.
    table.extend(with_distances(runs("* S", &s(), &[10], &rows), &[10, 5, 2, 1, 0]));
    let rows: [&[i64]; 4] = [&[-10, 1], &[-18, 3], &[-20, 4], &[-20, 6]];
    let fast = runs("* S with β 8", &s().with(MOMENTUM, &[8]), &[10], &rows);
    table.extend(with_distances(fast, &[10, 2, 0, 0]));
    let narrow = s().with(LOW, &[-1]).with(HIGH, &[1]);
    let rows: [&[i64]; 3] = [&[-1, 1], &[-1, 2], &[-1, 2]];
    // 8 − 160 leads beyond the limit, where z is.
    table.extend(with_distances(runs("* S with limits -1 and 1", &narrow, &[10], &rows), &[0, 0, 0]));
    let half = 0.03125;
    table.extend([
        case("* state limit 117", &s().with(STATE_LIMIT, &[117]), &[10], Accepted),
        case("* state limit 118", &s().with(STATE_LIMIT, &[118]), &[10], Refused(12)),
        case("* H (8,8),(8,8)", &two_steps(8, 8), &[10], Refused(9)),
        case("* H (9,8),(8,9)", &two_steps(9, 8), &[10], Refused(10)),
        case("* H (8,7),(7,8), β 9", &two_steps(8, 7).with(MOMENTUM, &[9]), &[10], Refused(11)),
        case("* H (8,7),(7,8), β 10", &two_steps(8, 7).with(MOMENTUM, &[10]), &[10], Accepted),
        // As a low it is 1 count, so S is 17; were it 2, it would be 7 beside a high of 1.
        with_doubles("* low limit 0.03125", &s(), &[(LOW, half)], Refused(17)),
        with_doubles("low limit 0.03125, high 0.0625", &s(), &[(LOW, half), (HIGH, 2.0 * half)], Refused(17)),
        with_doubles("* high limit 0.03125", &s(), &[(HIGH, half)], Words(HIGH, vec![0])),
        with_doubles("both limits 0.03125", &s(), &[(LOW, half), (HIGH, half)], Refused(7)),
        with_doubles("* -0.03125 in Φ", &s(), &[(GAIN, -half)], Words(GAIN, vec![0])),
        case("* state 10", &s(), &[10], Answer(vec![-18, 3])).distance(2),
        case("state 11", &s(), &[11], Refused(13)),
        case("sweeps 0", &s().iterations(0), &[10], Refused(3)),
        case("sweeps 401", &s().iterations(401), &[10], Refused(3)),
        case("sweeps 400", &s().iterations(400), &[10], Answer(vec![-20, 3])).distance(0),
    ]);
    table
}

/// Edges that document 01 implies and does not list.
fn our_own() -> Vec<Case> {
    // t passes the low limit while the optimum is inside: a momentum taken from the unheld t comes back too late.
    let overshoot = sample().with(MOMENTUM, &[15]);
    let rows: [&[i64]; 5] = [&[-9, 1], &[-18, 3], &[-20, 5], &[-20, 8], &[-19, 12]];
    // The optimum is −18.
    let mut table = with_distances(runs("S with β 15, state 9", &overshoot, &[9], &rows), &[9, 0, 2, 2, 1]);
    let stiff = sample().with(LOW, &[100]).with(HIGH, &[100]).with(MOMENTUM, &[8]);
    let two_steps = two_steps(17, 8);
    let even = Draft { sizes: Sizes { bits: 5, ..two_steps.sizes }, ..two_steps };
    let wide = Draft { sizes: Sizes { width: 32, iterations: 400, ..sample().sizes }, ..sample() };
    let wide = wide.with(COST, &[1]).with(MOMENTUM, &[4]).with(LOW, &[-1 << 30]).with(HIGH, &[1 << 30]);
    table.extend([
        case("a bound of 2^31", &wide, &[0], Answer(vec![0, 1 << 31])).distance(0),
        // 12 until request 6. With zero within the limits Y is not below P.
        case("P alone above top", &stiff, &[10], Refused(17)),
        case("11 met with equality", &even.clone().with(MOMENTUM, &[8]), &[10], Accepted),
        case("11 missed by one count", &even.with(MOMENTUM, &[7]), &[10], Refused(11)),
    ]);
    table
}

/// S with targets, and with a step for each row of the table.
fn with_targets(table: &[i64], limits: &[i64]) -> Draft {
    let (steps, targets) = (table.len() / limits.len(), limits.len());
    uncoupled(Sizes { steps, targets, ..sample().sizes }).with(TARGET_GAIN, table).with(TARGET_LIMIT, limits)
}

/// S with a target: its table −8 counts, its limit 7.
pub fn with_target() -> Draft {
    with_targets(&[-8], &[7])
}

/// Its text: S with 01 for nr in line 01, and behind it −0.5 and 0.4375.
pub fn with_target_text() -> Vec<u8> {
    let lines = SAMPLE.replace("0101010104080000030000", "0101010104080100030000");
    (lines + "080000BFE0000000000000\n0900003FDC000000000000\n").into_bytes()
}

fn with_limits(state: i64, target: i64) -> Draft {
    with_target().with(STATE_LIMIT, &[state]).with(TARGET_LIMIT, &[target])
}

/// A target table that differs from row to row and from column to column.
pub fn two_targets() -> Draft {
    with_targets(&[16, 32, -16, 8], &[3, 3])
}

/// Request 1, accepted. M is 8 where H is 8, so that with β 0 a sweep makes z into half of z, rounded, less h, and e
/// into half of e + 1, rounded up, plus c = 1: as in S, e is 1, 2, 3, 3, 3, whatever n, nx and nr.
fn followed_targets() -> Vec<Case> {
    let one = with_target;
    // (160 − 8 × 7) / 16 = 6.5, so h = 6: −3 − 6, then −4.5 is −5, −5 − 6, then −5.5 is −6, −6 − 6. Exactly −6.5,
    // −9.75, −11.375.
    let rows: [&[i64]; 5] = [&[-6, 1], &[-9, 2], &[-11, 3], &[-12, 3], &[-12, 3]];
    // The optimum is −104 / 8 = −13.
    let mut table = with_distances(runs_to("S with a target", &one(), &[10], &[7], &rows), &[7, 4, 2, 1, 1]);
    // h = 6. y: 24 × −6 / 16 = −9; −16.5 is −17, less −3: −14; −19.5 is −20, less −5.5, which is −6: −14.
    // z: −4.5 is −5, −5 − 6; −7 − 6; −7 − 6. q: 1 + 1 + 1 = 3 (0.5), 3 + 2 + 1 = 6, 4 + 4 + 1 = 9 (3.5); e: half of q,
    // rounded up, plus 1, as in S with β 8.
    let rows: [&[i64]; 4] = [&[-6, 1], &[-11, 3], &[-13, 4], &[-13, 6]];
    let fast = runs_to("S with a target, β 8", &one().with(MOMENTUM, &[8]), &[10], &[7], &rows);
    table.extend(with_distances(fast, &[7, 2, 0, 0]));
    // 160 + 80 + 32 − 24 + 8 = 256, so h = 16, be −24 / 16 and 8 / 16 what they may: −8 − 16 is held.
    let four = with_targets(&[16, 8, -8, 4], &[5, 4, 3, 2]);
    let rows: [&[i64]; 3] = [&[-16, 1], &[-20, 2], &[-20, 3]];
    // 128 − 256 leads from −16 beyond −20: R is 16 × 4.
    table.extend(with_distances(runs_to("four targets", &four, &[10], &[5, 4, 3, 2], &rows), &[8, 0, 0]));
    // h = (1 + 4, −1 + 1); by columns it would be (1 − 2, 2 + 1). −2.5 is −3, −3 − 5; −4 − 5.
    let rows: [&[i64]; 3] = [&[-5, 0, 1, 1], &[-8, 0, 2, 2], &[-9, 0, 3, 3]];
    // The optimum is (−10, 0).
    table.extend(with_distances(runs_to("two steps, two targets", &two_targets(), &[0], &[1, 2], &rows), &[5, 2, 1]));
    // h = (1, 0, 0): −0.5 is −1, −1 − 1.
    let rows: [&[i64]; 2] = [&[-1, 0, 0, 1, 1, 1], &[-2, 0, 0, 2, 2, 2]];
    let three = runs_to("three steps, one target", &with_targets(&[16, 0, 0], &[1]), &[0], &[1], &rows);
    table.extend(with_distances(three, &[1, 0]));
    // (160 + 8 × 7) / 16 = 13.5, so h = 13: −13, −6.5 is −7, −7 − 13 = −20, then held.
    table.push(case("target -7", &one(), &[10], Answer(vec![-20, 3])).target(&[-7]).distance(0));
    table
}

/// Request 1: 5, 12, 16 and their place among the numbers.
fn refused_targets() -> Vec<Case> {
    let s = with_target();
    // A is 8 × 20 / 16 = 10 and top 127, which leaves 117 for B: the state limit plus half of the target's, rounded up.
    let headroom = |state, target, expect| {
        case(&format!("state limit {state}, target limit {target}"), &with_limits(state, target), &[10], expect)
            .target(&[0])
    };
    let refused = |name: &str, number| case(name, &s, &[10], Refused(number));
    let state = |name: &str, state: &[i64]| case(name, &s, state, Refused(13));
    vec![
        headroom(100, 34, Accepted),
        headroom(100, 35, Refused(12)),
        headroom(117, 0, Accepted),
        headroom(117, 1, Refused(12)),
        headroom(10, -1, Refused(5)),
        refused("target 8", 16).target(&[8]),
        refused("target -8", 16).target(&[-8]),
        refused("no target", 16),
        refused("two targets for one", 16).target(&[7, 0]),
        refused("a target cut", 16).target_bytes(&[0, 0, 0]),
        refused("a target and a byte", 16).target_bytes(&[0, 0, 0, 7, 0]),
        case("a target in S", &sample(), &[10], Refused(16)).target(&[0]),
        case("a byte of a target in S", &sample(), &[10], Refused(16)).target_bytes(&[0]),
        state("13 before 16", &[11]).target(&[8]),
        state("a state with the target behind it", &[10, 7]),
        state("a target with the state before it", &[]).target(&[10, 7]),
        refused("16 before 14", 16).target(&[8]).start(&[21]),
        refused("16 before 15", 16).target(&[8]).spare(1),
        refused("14 with a good target", 14).target(&[7]).start(&[21]),
        refused("15 with a good target", 15).target(&[7]).spare(1),
    ]
}

/// Request 1's lines: their rounding, their order, and line 01.
fn target_lines() -> Vec<Case> {
    let s = with_target();
    let doubles = |name: &str, kind, double, expect| with_doubles(name, &s, &[(kind, double)], expect);
    let (half, almost) = (0.03125, 7.96875);
    let lines = with_target_text();
    let line = |i: usize| &lines[i * LINE..(i + 1) * LINE];
    let without = |count: usize| &lines[..lines.len() - count * LINE];
    let sheet = |name: &str, parts: &[&[u8]], number| sheet_case(name, &s, parts.concat(), Refused(number));
    let first = |name: &str, first: &[u8], number| sheet(name, &[first, b"\n", &lines[LINE..]], number);
    let many = with_targets(&[0; 5], &[0; 5]);
    vec![
        doubles("target limit 0.03125", TARGET_LIMIT, half, Words(TARGET_LIMIT, vec![1])),
        doubles("target limit -0.03125", TARGET_LIMIT, -half, Words(TARGET_LIMIT, vec![0])),
        doubles("target limit -0.0625", TARGET_LIMIT, -2.0 * half, Refused(5)),
        doubles("-0.03125 in the target table", TARGET_GAIN, -half, Words(TARGET_GAIN, vec![0])),
        // 127.5 counts: 128 both as a limit and, since request 7, in the table.
        doubles("7.96875 in the target table", TARGET_GAIN, almost, Refused(5)),
        doubles("target limit 7.96875", TARGET_LIMIT, almost, Refused(5)),
        doubles("NaN in the target table", TARGET_GAIN, f64::NAN, Refused(5)),
        case("five targets", &many, &[0], Refused(3)),
        first("nr 5", b"0101010104080500030000", 3),
        first("nr 255", b"010101010408FF00030000", 3),
        first("nr 5, and a byte that is not 0", b"0101010104080500030100", 2),
        first("nr 1, and a byte that is not 0", b"0101010104080100030001", 2),
        first("nr 0 and lines of targets", b"0101010104080000030000", 4),
        sheet("no line of targets", &[without(2)], 4),
        sheet("no target limit", &[without(1)], 4),
        sheet("no target table", &[without(2), line(8)], 2),
        sheet("two lines of the target table", &[without(1), line(7), line(8)], 2),
        sheet("two target limits", &[&lines, line(8)], 4),
        sheet("the target limit before its table", &[without(2), line(8), line(7)], 2),
        sheet("the targets before the state limit", &[without(3), line(7), line(8), line(6)], 2),
    ]
}

/// S with a motor, or more, and the limits of each command.
fn with_steps(motors: usize, limits: &[(i64, i64)]) -> Draft {
    let (lows, highs): (Vec<i64>, Vec<i64>) = limits.iter().copied().unzip();
    uncoupled(Sizes { motors, steps: limits.len() / motors, ..sample().sizes }).with(LOW, &lows).with(HIGH, &highs)
}

/// The limits of four commands.
const FOUR: [(i64, i64); 4] = [(-20, 20), (-4, 2), (-2, 3), (-20, 1)];

/// Two motors and two steps: the first step's limits, then the second's.
pub fn motors_and_steps() -> Draft {
    with_steps(2, &FOUR)
}

/// Three steps, with zero at the low limit, at the high one and at both.
pub fn one_sided() -> Draft {
    with_steps(1, &[(0, 20), (-20, 0), (0, 0)])
}

/// H (8,4),(4,8) and β 8: the steps have a part in each other.
pub fn coupled(limits: [(i64, i64); 2]) -> Draft {
    with_steps(1, &limits).with(COST, &[8, 4, 4, 8]).with(MOMENTUM, &[8])
}

/// Request 3, accepted. Where nothing else is said a sweep makes z into half of z, rounded, less h = 10, and e is 1, 2,
/// 3, as above.
fn held_by_steps() -> Vec<Case> {
    // −10; −5 − 10; −7.5 is −8, −8 − 10. At step 1 −10, −2.5 is −3, −3 − 10, and the same again, all held.
    let rows: [&[i64]; 3] = [&[-10, -5, 1, 1], &[-15, -5, 2, 2], &[-18, -5, 3, 3]];
    let eased = runs("the second step eases off", &with_steps(1, &[(-20, 20), (-5, 5)]), &[10], &rows);
    let mut table = with_distances(eased, &[10, 5, 2]);
    let rows: [&[i64]; 3] = [&[-5, -10, 1, 1], &[-5, -15, 2, 2], &[-5, -18, 3, 3]];
    let held = runs("the first step is held", &with_steps(1, &[(-5, 5), (-20, 20)]), &[10], &rows);
    table.extend(with_distances(held, &[10, 5, 2]));
    // w is 1 at step 1.
    let rows: [&[i64]; 3] = [&[-10, -1, 1, 1], &[-15, -1, 2, 1], &[-18, -1, 3, 1]];
    table.extend(runs("w holds the second step", &with_steps(1, &[(-20, 20), (-1, 0)]), &[10], &rows));
    // w is 2 at step 0. h = −10: 10; 5 + 10; 7.5 is 7, 7 + 10.
    let rows: [&[i64]; 3] = [&[2, 10, 1, 1], &[2, 15, 2, 2], &[2, 17, 2, 3]];
    table.extend(runs("w holds the first step", &with_steps(1, &[(0, 2), (-20, 20)]), &[-10], &rows));
    // The last w is 2. At step 1 −4 − 10 is held.
    let rows: [&[i64]; 3] = [&[-10, -8, -1, 1, 1, 1], &[-15, -8, -1, 2, 2, 2], &[-18, -8, -1, 3, 3, 2]];
    let narrowing = with_steps(1, &[(-20, 20), (-8, 8), (-1, 1)]);
    table.extend(runs("three steps, narrowing", &narrowing, &[10], &rows));
    let rows: [&[i64]; 3] = [&[-1, -8, -10, 1, 1, 1], &[-1, -8, -15, 2, 2, 2], &[-1, -8, -18, 2, 3, 3]];
    let widening = with_steps(1, &[(-1, 1), (-8, 8), (-20, 20)]);
    table.extend(runs("three steps, widening", &widening, &[10], &rows));
    // A point has w 0.
    let rows: [&[i64]; 3] = [&[-10, 0, -10, 1, 0, 1], &[-15, 0, -15, 2, 0, 2], &[-18, 0, -18, 3, 0, 3]];
    let point = with_steps(1, &[(-20, 20), (0, 0), (-20, 20)]);
    table.extend(runs("a point between two steps", &point, &[10], &rows));
    table.extend(motors_by_steps());
    table.extend(coupled_steps());
    let (eased, held) = (with_steps(1, &[(-20, 20), (-5, 5)]), with_steps(1, &[(-5, 5), (-20, 20)]));
    let apart = [(-20, 0), (0, 20)];
    table.extend([
        // Half of −20 is −10, −10 − 10.
        case("a start at its limits", &eased.iterations(1), &[10], Answer(vec![-20, -5, 1, 1])).start(&[-20, -5]),
        case("a start at its limits", &held.iterations(1), &[10], Answer(vec![-5, -20, 1, 1])).start(&[5, -20]),
        case("the second step above the first", &with_steps(1, &apart), &[10], Accepted),
        case("the second step below the first", &with_steps(1, &[apart[1], apart[0]]), &[10], Accepted),
    ]);
    table
}

/// Two motors and two steps.
fn motors_by_steps() -> Vec<Case> {
    let rows: [&[i64]; 3] =
        [&[-10, -4, -2, -10, 1, 1, 1, 1], &[-15, -4, -2, -15, 2, 2, 2, 2], &[-18, -4, -2, -18, 3, 3, 3, 3]];
    let mut table = with_distances(runs("two motors, two steps", &motors_and_steps(), &[10], &rows), &[10, 5, 2]);
    // Beside the held ones z and e are those of S with β 8, whose fifth e is 7: q = 6 + 5 + 1 = 12. w is 40, 6, 5, 21.
    let rows: [&[i64]; 5] = [
        &[-10, -4, -2, -10, 1, 1, 1, 1],
        &[-18, -4, -2, -18, 3, 3, 3, 3],
        &[-20, -4, -2, -20, 4, 4, 4, 4],
        &[-20, -4, -2, -20, 6, 6, 5, 6],
        &[-20, -4, -2, -20, 7, 6, 5, 7],
    ];
    table.extend(runs("two motors, two steps, β 8", &motors_and_steps().with(MOMENTUM, &[8]), &[10], &rows));
    let rows: [&[i64]; 3] = [&[10, 2, 3, 1, 1, 1, 1, 1], &[15, 2, 3, 1, 2, 2, 2, 2], &[17, 2, 3, 1, 3, 3, 3, 3]];
    let upward = runs("two motors, two steps, upward", &motors_and_steps(), &[-10], &rows);
    table.extend(with_distances(upward, &[10, 5, 3]));
    // Limits are those of the command, whichever motor and step it belongs to.
    let answer = || Answer(rows[2].to_vec());
    table.push(case("four steps of one motor", &with_steps(1, &FOUR), &[-10], answer()));
    table.push(case("one step of four motors", &with_steps(4, &FOUR), &[-10], answer()));
    table
}

/// M is (8,−4),(−4,8).
fn coupled_steps() -> Vec<Case> {
    // h = 10. y = (−15, −3): (−120 + 12) / 16 = −6.75 is −7, −7 − 10; (60 − 24) / 16 = 2.25, 2 − 10, held.
    // y = (−26 + 5, −3 + 1), −26 for −25.5: (−168 + 8) / 16 − 10; (84 − 16) / 16 = 4.25, 4 − 10, held.
    // y = (−30 + 9, −3 + 1), 9 for 8.5: the same. q: 1 + 1 + 1 (0.5), 4 + 3 + 1 (2.5), 7 + 6 + 1 (5.5).
    // e: 12 × 3 / 16 = 2.25 is 3, 3 + 1; 12 × 8 / 16 + 1; 12 × 14 / 16 = 10.5 is 11, 11 + 1, and at step 1 w = 7.
    let rows: [&[i64]; 4] = [&[-10, -2, 1, 1], &[-17, -2, 4, 4], &[-20, -2, 7, 7], &[-20, -2, 12, 7]];
    // At step 0 −(8 z + 4 × −2) − 160 is −72, −16 and 8; step 1 stays at its low. m = 4.
    let both = runs("coupled steps", &coupled([(-20, 20), (-2, 5)]), &[10], &rows);
    let mut table = with_distances(both, &[18, 4, 2, 2]);
    // h = 10. y = (−15, 0): −7.5 is −8, −8 − 10; 60 / 16 = 3.75, 3 − 10, held, as all that follow at step 1.
    // y = (−27 + 5, 0): −11 − 10, held. y = (−30 + 9, 0): −10.5 is −11, −11 − 10, held. w is 5 at step 1.
    // q: 3, 3; 8, 8; 14 and 5 + 5 + 1 (4.5). e: 4; 7, and at step 1 w; (112 + 44) / 16 = 9.75 is 10, 10 + 1, and w.
    let rows: [&[i64]; 4] = [&[-10, 0, 1, 1], &[-18, 0, 4, 4], &[-20, 0, 7, 5], &[-20, 0, 11, 5]];
    // −8 z − 160 is −80, −16 and 0.
    let second = runs("zero at the second step's low", &coupled([(-20, 20), (0, 5)]), &[10], &rows);
    table.extend(with_distances(second, &[20, 4, 0, 0]));
    let rows: [&[i64]; 4] = [&[0, -10, 1, 1], &[0, -18, 4, 4], &[0, -20, 5, 7], &[0, -20, 5, 11]];
    table.extend(runs("zero at the first step's low", &coupled([(0, 5), (-20, 20)]), &[10], &rows));
    // h = −10. y = (15, 0): 7 + 10, 7 for 7.5; −3.75 is −4, −4 + 10, held. y = (25 − 5, 0), 25 for 25.5: 10 + 10.
    // y = (30 − 8, 0), 8 for 8.5: 11 + 10, held. e is the same.
    let rows: [&[i64]; 4] = [&[10, 0, 1, 1], &[17, 0, 4, 4], &[20, 0, 7, 5], &[20, 0, 11, 5]];
    table.extend(runs("zero at the second step's high", &coupled([(-20, 20), (-5, 0)]), &[-10], &rows));
    // z of step 0 is as with a low of zero; w is 0 at step 1, whose q is 1. q of step 0: 3; 3 + 2 + 1; 5 + 4 + 1.
    // e: 28 / 16 = 1.75 is 2, 2 + 1; 52 / 16 = 3.25 is 4, 4 + 1; 84 / 16 = 5.25 is 6, 6 + 1.
    let rows: [&[i64]; 4] = [&[-10, 0, 1, 0], &[-18, 0, 3, 0], &[-20, 0, 5, 0], &[-20, 0, 7, 0]];
    table.extend(runs("zero at both of the second step's", &coupled([(-20, 20), (0, 0)]), &[10], &rows));
    table
}

/// Request 3: 5, 6, 7, 12 and 14 because of a single step.
fn refused_steps() -> Vec<Case> {
    let wide = (-20, 20);
    let of = |name: &str, limits: &[(i64, i64)], expect| case(name, &with_steps(1, limits), &[10], expect);
    let former = |name: &str, draft: Draft| {
        let image = Some(bytes(&draft.former_words()));
        Case { image, ..case(name, &draft, &[10], Refused(6)) }
    };
    vec![
        of("the second step's limits cross", &[wide, (6, 5)], Refused(7)),
        of("the first step's limits cross", &[(6, 5), wide], Refused(7)),
        of("the middle step's limits cross", &[wide, (6, 5), wide], Refused(7)),
        of("the last low beyond the word", &[wide, wide, (-128, 20)], Refused(5)),
        of("the last high beyond the word", &[wide, wide, (-20, 128)], Refused(5)),
        of("5 at the last step before 7 at the first", &[(6, 5), (-20, 128)], Refused(5)),
        of("a start within the first step's limits", &[wide, (-5, 5)], Refused(14)).start(&[0, -6]),
        of("a start within the last step's limits", &[(-5, 5), wide], Refused(14)).start(&[6, 0]),
        case("a start within the other motor's", &motors_and_steps(), &[10], Refused(14)).start(&[0, 0, -4, 0]),
        former("the former image of two steps", with_steps(1, &[wide, wide])),
        former("the former image of two motors and two steps", motors_and_steps()),
    ]
}

/// Request 3: the headroom of one step, be it the first or the last. β is 8.
fn headroom_of_steps() -> Vec<Case> {
    let wide = (-20, 20);
    let either = |name: &str, limits: (i64, i64), expect: Expect| {
        [[limits, wide], [wide, limits]].map(|limits| {
            let draft = with_steps(1, &limits).with(MOMENTUM, &[8]);
            case(name, &draft, &[10], expect.clone())
        })
    };
    // Y is 63 + 63 and 20 + 20. In the row of the other step A is (4 × 126 + 8 × 40) / 16 = 51.5, rounded up to 52,
    // which leaves 75 for B, of that row alone.
    let row = |limit: i64, expect: Expect| {
        [([(-63, 63), wide], [0, 16]), ([wide, (-63, 63)], [16, 0])].map(|(limits, gains)| {
            let draft = coupled(limits).with(GAIN, &gains).with(STATE_LIMIT, &[limit]);
            case(&format!("a row of the other step, state limit {limit}"), &draft, &[10], expect.clone())
        })
    };
    let cases = [
        // zb and w alike: P and Y are 84 + 42 = 126, and 85 + 43 = 128 (42.5).
        either("limits 0 and 84", (0, 84), Accepted),
        either("limits 0 and 85", (0, 85), Refused(12)),
        either("limits -84 and 0", (-84, 0), Accepted),
        either("limits -85 and 0", (-85, 0), Refused(12)),
        // w: Y = 64 + 8 × 126 / 16 = 127, and 64 + 63.5, rounded up. P is 96.
        either("limits -62 and 64", (-62, 64), Accepted),
        either("limits -63 and 64", (-63, 64), Refused(12)),
        row(75, Accepted),
        row(76, Refused(12)),
    ];
    cases.into_iter().flatten().collect()
}

/// The sheet of the page of motors and steps: line 01, 16 and 4 lines of tables, then four lows, four highs, β and the
/// state limit.
fn motors_and_steps_text() -> Vec<u8> {
    page_case("", FIRST_OF_MOTORS_AND_STEPS, PAGE_OF_MOTORS_AND_STEPS).sheet
}

/// The lines of its limits in another order, lows 0 to 3 and highs 4 to 7, and places exchanged for others.
fn other_limit_lines(order: &[usize], places: &[(&str, &str)]) -> Vec<u8> {
    let text = motors_and_steps_text();
    let line = |i: usize| str::from_utf8(&text[i * LINE..(i + 1) * LINE]).unwrap();
    let limit = |&i: &usize| {
        let place = &line(21 + i)[..6];
        let other = places.iter().find(|(old, _)| *old == place).map_or(place, |(_, new)| new);
        other.to_string() + &line(21 + i)[6..]
    };
    let limits: String = order.iter().map(limit).collect();
    [&text[..21 * LINE], limits.as_bytes(), &text[29 * LINE..]].concat()
}

/// Request 3's lines: their words, their rounding and their order.
fn step_lines() -> Vec<Case> {
    let draft = motors_and_steps();
    let page =
        |expect| Case { expect, ..page_case("motors and steps", FIRST_OF_MOTORS_AND_STEPS, PAGE_OF_MOTORS_AND_STEPS) };
    let tables = [8, 0, 0, 0, 0, 8, 0, 0, 0, 0, 8, 0, 0, 0, 0, 8, 16, 16, 16, 16];
    let image = [&[2, 2, 1, 4, 8, 3, 0, 0], &tables[..], &[-20, -4, -2, -20, 20, 2, 3, 1, 0, 10]].concat();
    let sheet = |name: &str, text: Vec<u8>, number| sheet_case(name, &draft, text, Refused(number));
    let order = |name: &str, order: &[usize]| sheet(name, other_limit_lines(order, &[]), 2);
    let in_order = [0, 1, 2, 3, 4, 5, 6, 7];
    let places = |name: &str, places: &[(&str, &str)]| sheet(name, other_limit_lines(&in_order, places), 2);
    let text = motors_and_steps_text();
    let until = |lines: usize| text[..lines * LINE].to_vec();
    let no_number = "0400017FF8000000000000\n";
    vec![
        page(Image(image)),
        Case { state: bytes(&[10]), ..page(Answer(vec![-18, -4, -2, -18, 3, 3, 3, 3])) },
        order("the former layout", &[0, 1, 4, 5]),
        order("motors outermost", &[0, 2, 1, 3, 4, 6, 5, 7]),
        order("lows with motors outermost", &[0, 2, 1, 3, 4, 5, 6, 7]),
        order("highs with motors outermost", &[0, 1, 2, 3, 4, 6, 5, 7]),
        order("a step's limits together", &[0, 1, 4, 5, 2, 3, 6, 7]),
        order("a command's limits together", &[0, 4, 1, 5, 2, 6, 3, 7]),
        order("a high before the last low", &[0, 1, 2, 4, 3, 5, 6, 7]),
        order("a low behind the highs", &[0, 1, 2, 4, 5, 6, 7, 3]),
        order("highs first", &[4, 5, 6, 7, 0, 1, 2, 3]),
        order("the last step first", &[2, 3, 0, 1, 6, 7, 4, 5]),
        order("no last low", &[0, 1, 2, 4, 5, 6, 7]),
        order("no last high", &[0, 1, 2, 3, 4, 5, 6]),
        order("the last low twice", &[0, 1, 2, 3, 3, 4, 5, 6, 7]),
        order("the last high twice", &[0, 1, 2, 3, 4, 5, 6, 7, 7]),
        places("the column left 0", &[("040001", "040000"), ("040101", "040100")]),
        places("the highs' column left 0", &[("050001", "050000"), ("050101", "050100")]),
        places("a step N", &[("040101", "040102")]),
        places("a high of step N", &[("050101", "050102")]),
        places("row and column exchanged", &[("040100", "040001"), ("040001", "040100")]),
        places("the highs' row and column exchanged", &[("050100", "050001"), ("050001", "050100")]),
        places("the command as row", &[("040001", "040200"), ("040101", "040300")]),
        sheet("no line behind the first step's lows", until(23), 4),
        sheet("no line behind the lows", until(25), 4),
        sheet("the last low cut", text[..25 * LINE - 1].to_vec(), 1),
        sheet("a late low that is no number, and no more", [&until(23), no_number.as_bytes()].concat(), 5),
        sheet(
            "a late low that is no number before a wrong line",
            [&until(23), no_number.as_bytes(), &until(1)].concat(),
            5,
        ),
        former_of("the former layout of two steps", &with_steps(1, &[(-20, 20); 2])),
        former_of("the former layout of sixteen steps", &with_steps(1, &[(-20, 20); 16])),
        former_of("the former layout of four motors, four steps", &with_steps(4, &[(-20, 20); 16])),
    ]
}

/// The draft's sheet before request 3.
fn former_of(name: &str, draft: &Draft) -> Case {
    let mut frames = draft.frames(|i| of_count(draft.body[i], draft.sizes.bits));
    keep_former(&mut frames);
    sheet_case(name, draft, text(&frames), Refused(2))
}

/// A sheet by its line 01 and its page, which says what was given.
fn page_case(name: &str, first_line: &str, page: &str) -> Case {
    let lines = |kind: &str| page.lines().filter(|line| line.starts_with(kind)).count();
    let zeros = |length: usize| vec![0; 4 * length];
    Case {
        name: name.to_string(),
        sheet: page::sheet_of(format!("{first_line}\n").as_bytes(), page.as_bytes(), page::GIVEN),
        image_len: 4 * (HEADER_WORDS + lines("")),
        image: None,
        state: zeros(lines("07")),
        target: zeros(lines("09")),
        start: None,
        spare: 0,
        expect: Page(page.to_string()),
        distance: None,
    }
}

/// A page with some other lines.
fn page_with(page: &str, lines: &[&str]) -> String {
    let line = |old: &str| lines.iter().find(|line| line[..7] == old[..7]).map_or(old, |line| line).to_string() + "\n";
    page.lines().map(line).collect()
}

/// Request 2. A count is 1/16, 3FB0000000000000, and top 127.
fn pages_of_s() -> Vec<Case> {
    let s = |name: &str, lines: &[&str]| page_case(name, &SAMPLE[..LINE - 1], &page_with(PAGE_OF_SAMPLE, lines));
    vec![
        s("the page of S", &[]),
        s("the line that request 2 prints", &[PRINTED]),
        // Rounded to zero, which has no sign.
        s("half a count below zero, to the even count", &["03 0000 BFA0000000000000 0000000000000000 M"]),
        s("half a count below zero, up", &["04 0000 BFA0000000000000 0000000000000000 M"]),
        s("a state limit rounded up to zero", &["07 0000 BFA0000000000000 0000000000000000 M"]),
        s("a count below zero", &["03 0000 BFB0000000000000 BFB0000000000000 K"]),
        // 8.5, 16.5, −20.5, 20.5, 0.5 and 9.5 counts.
        s(
            "half a count in every line",
            &[
                "02 0000 3FE1000000000000 3FE0000000000000 M",
                "03 0000 3FF0800000000000 3FF0000000000000 M",
                "04 0000 BFF4800000000000 BFF4000000000000 M",
                "05 0000 3FF4800000000000 3FF4000000000000 M",
                "06 0000 3FA0000000000000 3FB0000000000000 M",
                "07 0000 3FE3000000000000 3FE4000000000000 M",
            ],
        ),
        s("minus zero", &["03 0000 8000000000000000 0000000000000000 K"]),
        s(
            "minus zero in five lines",
            &[
                "03 0000 8000000000000000 0000000000000000 K",
                "04 0000 8000000000000000 0000000000000000 K",
                "05 0000 8000000000000000 0000000000000000 K",
                "06 0000 8000000000000000 0000000000000000 K",
                "07 0000 8000000000000000 0000000000000000 K",
            ],
        ),
        // The first and the last below the normal doubles.
        s(
            "subnormal doubles",
            &[
                "03 0000 0000000000000001 0000000000000000 M",
                "04 0000 8000000000000001 0000000000000000 M",
                "05 0000 000FFFFFFFFFFFFF 0000000000000000 M",
                "06 0000 0000000000000001 3FB0000000000000 M",
                "07 0000 8000000000000001 0000000000000000 M",
            ],
        ),
        s(
            "subnormal doubles on the other side",
            &[
                "03 0000 8000000000000001 0000000000000000 M",
                "06 0000 8000000000000001 0000000000000000 M",
                "07 0000 000FFFFFFFFFFFFF 3FB0000000000000 M",
            ],
        ),
        s("the last subnormal as low limit", &["04 0000 800FFFFFFFFFFFFF 0000000000000000 M"]),
        // The last bit of 8, 16, −20, 20 and 10 counts: back to 8 and 16, up to −20 and 11, down to 19.
        s(
            "moved by the last bit",
            &[
                "02 0000 3FE0000000000001 3FE0000000000000 M",
                "03 0000 3FF0000000000001 3FF0000000000000 M",
                "04 0000 BFF4000000000001 BFF4000000000000 M",
                "05 0000 3FF3FFFFFFFFFFFF 3FF3000000000000 M",
                "07 0000 3FE4000000000001 3FE6000000000000 M",
            ],
        ),
        // 127 counts; B is 79.375, or 80, beside A = 10.
        s("top", &["03 0000 401FC00000000000 401FC00000000000 K"]),
        s("minus top", &["03 0000 C01FC00000000000 C01FC00000000000 K"]),
        // 126.5 counts.
        s(
            "a limit moved to top",
            &["03 0000 0000000000000000 0000000000000000 K", "07 0000 401FA00000000000 401FC00000000000 M"],
        ),
    ]
}

/// Two motors: H is symmetric once it is rounded, and the limits are 20 and 5 counts.
const PAGE_OF_TWO_MOTORS: &str = "\
02 0000 3FE0000000000000 3FE0000000000000 K
02 0001 3FA0000000000000 0000000000000000 M
02 0100 8000000000000000 0000000000000000 K
02 0101 3FE1000000000000 3FE0000000000000 M
03 0000 3FF0000000000000 3FF0000000000000 K
03 0100 BFA0000000000000 0000000000000000 M
04 0000 BFF4000000000000 BFF4000000000000 K
04 0100 BFD6000000000000 BFD4000000000000 M
05 0000 3FF4000000000000 3FF4000000000000 K
05 0100 3FD6000000000000 3FD4000000000000 M
06 0000 0000000000000000 0000000000000000 K
07 0000 3FE4000000000000 3FE4000000000000 K
";

/// Two steps and two targets: of the table 32.5 and −16.5, of the limits 2.5 counts are moved.
const PAGE_OF_TWO_TARGETS: &str = "\
02 0000 3FE0000000000000 3FE0000000000000 K
02 0001 0000000000000000 0000000000000000 K
02 0100 0000000000000000 0000000000000000 K
02 0101 3FE0000000000000 3FE0000000000000 K
03 0000 3FF0000000000000 3FF0000000000000 K
03 0100 3FF0000000000000 3FF0000000000000 K
04 0000 BFF4000000000000 BFF4000000000000 K
04 0001 BFF4000000000000 BFF4000000000000 K
05 0000 3FF4000000000000 3FF4000000000000 K
05 0001 3FF4000000000000 3FF4000000000000 K
06 0000 0000000000000000 0000000000000000 K
07 0000 3FE4000000000000 3FE4000000000000 K
08 0000 3FF0000000000000 3FF0000000000000 K
08 0001 4000400000000000 4000000000000000 M
08 0100 BFF0800000000000 BFF0000000000000 M
08 0101 8000000000000000 0000000000000000 K
09 0000 3FC8000000000000 3FC8000000000000 K
09 0100 3FC4000000000000 3FC8000000000000 M
";

const FIRST_OF_MOTORS_AND_STEPS: &str = "0102020104080000030000";

/// Two motors and two steps: all limits but the first motor's first are moved by half a count, inward.
const PAGE_OF_MOTORS_AND_STEPS: &str = "\
02 0000 3FE0000000000000 3FE0000000000000 K
02 0001 0000000000000000 0000000000000000 K
02 0002 0000000000000000 0000000000000000 K
02 0003 0000000000000000 0000000000000000 K
02 0100 0000000000000000 0000000000000000 K
02 0101 3FE0000000000000 3FE0000000000000 K
02 0102 0000000000000000 0000000000000000 K
02 0103 0000000000000000 0000000000000000 K
02 0200 0000000000000000 0000000000000000 K
02 0201 0000000000000000 0000000000000000 K
02 0202 3FE0000000000000 3FE0000000000000 K
02 0203 0000000000000000 0000000000000000 K
02 0300 0000000000000000 0000000000000000 K
02 0301 0000000000000000 0000000000000000 K
02 0302 0000000000000000 0000000000000000 K
02 0303 3FE0000000000000 3FE0000000000000 K
03 0000 3FF0000000000000 3FF0000000000000 K
03 0100 3FF0000000000000 3FF0000000000000 K
03 0200 3FF0000000000000 3FF0000000000000 K
03 0300 3FF0000000000000 3FF0000000000000 K
04 0000 BFF4000000000000 BFF4000000000000 K
04 0100 BFD2000000000000 BFD0000000000000 M
04 0001 BFC4000000000000 BFC0000000000000 M
04 0101 BFF4800000000000 BFF4000000000000 M
05 0000 3FF4000000000000 3FF4000000000000 K
05 0100 3FC4000000000000 3FC0000000000000 M
05 0001 3FCC000000000000 3FC8000000000000 M
05 0101 3FB8000000000000 3FB0000000000000 M
06 0000 0000000000000000 0000000000000000 K
07 0000 3FE4000000000000 3FE4000000000000 K
";

/// Three steps: minus one and a half counts as low of the second, half a count as high of the third, which is zero at
/// both limits, minus zero as high of the first.
const PAGE_OF_THREE_STEPS: &str = "\
02 0000 3FE0000000000000 3FE0000000000000 K
02 0001 0000000000000000 0000000000000000 K
02 0002 0000000000000000 0000000000000000 K
02 0100 0000000000000000 0000000000000000 K
02 0101 3FE0000000000000 3FE0000000000000 K
02 0102 0000000000000000 0000000000000000 K
02 0200 0000000000000000 0000000000000000 K
02 0201 0000000000000000 0000000000000000 K
02 0202 3FE0000000000000 3FE0000000000000 K
03 0000 3FF0000000000000 3FF0000000000000 K
03 0100 3FF0000000000000 3FF0000000000000 K
03 0200 3FF0000000000000 3FF0000000000000 K
04 0000 BFF4000000000000 BFF4000000000000 K
04 0001 BFB8000000000000 BFB0000000000000 M
04 0002 BFA0000000000000 0000000000000000 M
05 0000 8000000000000000 0000000000000000 K
05 0001 3FF4000000000000 3FF4000000000000 K
05 0002 3FA0000000000000 0000000000000000 M
06 0000 0000000000000000 0000000000000000 K
07 0000 3FE4000000000000 3FE4000000000000 K
";

/// The widest word, b 20: just below 2 counts in Φ, and so 2, and limits that the last bit keeps from 2^31 counts.
const PAGE_OF_WIDE_WORD: &str = "\
02 0000 3FF0000000000000 3FF0000000000000 K
03 0000 3EBFFFFFFFFFFFFF 3EC0000000000000 M
04 0000 C09FFFFFFFFFFFFF C09FFFFFFFC00000 M
05 0000 409FFFFFFFFFFFFF 409FFFFFFFC00000 M
06 0000 0000000000000000 0000000000000000 K
07 0000 409FFFFFFFC00000 409FFFFFFFC00000 K
";

/// Sixteen commands, twelve states and four targets: H is 16 on the diagonal, all else is half a count or zero.
fn largest_page(motors: usize, steps: usize) -> String {
    let mut page = String::new();
    let mut table = |kind: &str, outer: usize, inner: usize, doubles: &str| {
        for (i, j) in (0..outer).flat_map(|i| (0..inner).map(move |j| (i, j))) {
            let one = kind == "02" && i == j;
            let doubles = if one { "3FF0000000000000 3FF0000000000000 K" } else { doubles };
            // Of limits the steps are outermost.
            let (row, column) = if matches!(kind, "04" | "05") { (j, i) } else { (i, j) };
            page += &format!("{kind} {row:02X}{column:02X} {doubles}\n");
        }
    };
    table("02", 16, 16, "8000000000000000 0000000000000000 K");
    table("03", 16, 12, "3FA0000000000000 0000000000000000 M");
    table("04", steps, motors, "BFA0000000000000 0000000000000000 M");
    table("05", steps, motors, "3FA0000000000000 0000000000000000 M");
    table("06", 1, 1, "0000000000000000 0000000000000000 K");
    table("07", 12, 1, "3FA0000000000000 3FB0000000000000 M");
    table("08", 16, 4, "BFA0000000000000 0000000000000000 M");
    table("09", 4, 1, "BFA0000000000000 0000000000000000 M");
    page
}

fn other_pages() -> Vec<Case> {
    vec![
        page_case("the page of two motors", "0102010104080000030000", PAGE_OF_TWO_MOTORS),
        page_case("the page of two targets", "0101020104080200030000", PAGE_OF_TWO_TARGETS),
        page_case("the page of the widest word", "0101010114200000030000", PAGE_OF_WIDE_WORD),
        page_case("the page of motors and steps", FIRST_OF_MOTORS_AND_STEPS, PAGE_OF_MOTORS_AND_STEPS),
        page_case("the page of three steps", "0101030104080000030000", PAGE_OF_THREE_STEPS),
        page_case("the largest page", "0104040C04080400030000", &largest_page(4, 4)),
        page_case("the largest page of one motor", "0101100C04080400030000", &largest_page(1, 16)),
    ]
}

/// Request 2: 15, and sheets that are refused otherwise than those above. Every case tries 15 behind its sheet's number.
fn no_pages() -> Vec<Case> {
    let s = sample();
    let refused = |name: &str, text: String, number| sheet_case(name, &s, text.into_bytes(), Refused(number));
    // Six lines of 44 bytes are right. Near misses; a line fewer or more; without byte 10; the sheet's and the image's.
    let lengths = vec![0, 1, 44, 6 * 44 - 1, 6 * 44 + 1, 12 * 44, 5 * 44, 7 * 44, 6 * 43, 7 * 23, 14 * 4];
    let skew = two_steps(8, 0).with(COST, &[8, 1, 0, 8]);
    vec![
        Case { expect: NoPage(lengths), ..page_case("lengths of a page", &SAMPLE[..LINE - 1], PAGE_OF_SAMPLE) },
        case("H (8,1),(0,8)", &skew, &[10], Refused(8)),
        refused("a lower-case digit", SAMPLE.replace('F', "f"), 1),
        refused("the last byte 10 missing", SAMPLE.trim_end().to_string(), 1),
        refused("no line", String::new(), 4),
    ]
}

/// Folders and what the page program prints for them.
pub fn page_table() -> Table {
    let folder = |drive: &[u8]| Folder { drive: Some(drive.to_vec()), state: None, target: None };
    let junk = Folder { state: Some(b"junk".to_vec()), target: Some(vec![0]), ..folder(SAMPLE.as_bytes()) };
    let missing = Folder { drive: None, ..junk.clone() };
    let mut table = vec![(junk, PAGE_OF_SAMPLE.to_string()), (missing, "refused 04\n".to_string())];
    for case in pages_of_s().iter().chain(&other_pages()).chain(&nearest::pages()) {
        if let Page(page) = &case.expect {
            table.push((folder(&case.sheet), page.clone()));
        }
    }
    let refused = refused_sheets().into_iter().chain(stop::sheets()).chain(nearest::sheets());
    table.extend(refused.map(|(drive, number)| (folder(&drive), format!("refused {number:02}\n"))));
    table
}

fn refused_sheets() -> Vec<(Vec<u8>, Number)> {
    let s = |old: &str, new: &str| SAMPLE.replacen(old, new, 1).into_bytes();
    vec![
        (vec![], 4),
        (b"\n".to_vec(), 1),
        ([SAMPLE, "\n"].concat().into_bytes(), 4),
        ([SAMPLE, "0"].concat().into_bytes(), 4),
        ([SAMPLE, SAMPLE].concat().into_bytes(), 4),
        (SAMPLE.trim_end().as_bytes().to_vec(), 1),
        (SAMPLE.to_lowercase().into_bytes(), 1),
        (SAMPLE.replace('\n', "\r\n").into_bytes(), 1),
        (PAGE_OF_SAMPLE.as_bytes().to_vec(), 1),
        (SAMPLE.as_bytes()[LINE..].to_vec(), 2),
        (s("0300003FF", "0300013FF"), 2),
        (other_limit_lines(&[0, 1, 4, 5], &[]), 2),
        (other_limit_lines(&[0, 2, 1, 3, 4, 6, 5, 7], &[]), 2),
        (other_limit_lines(&[0, 1, 4, 5, 2, 3, 6, 7], &[]), 2),
        (s("0408000003", "0408050003"), 3),
        (SAMPLE.as_bytes()[..6 * LINE].to_vec(), 4),
        (s("0300003FF", "0300007FF"), 5),
        (s("0700003FE", "070000BFE"), 5),
        (s("0500003FF4", "050000BFF8"), 7),
        (with_steps(1, &[(-20, 20), (6, 5)]).sheet(), 7),
        (two_steps(8, 0).with(COST, &[8, 1, 0, 8]).sheet(), 8),
        (two_steps(8, 8).sheet(), 9),
        (two_steps(9, 8).sheet(), 10),
        (two_steps(8, 7).with(MOMENTUM, &[9]).sheet(), 11),
        (sample().with(STATE_LIMIT, &[118]).sheet(), 12),
        (sums::sixteen_at_top().sheet(), 12),
    ]
}

/// Folders and what the label program prints for them.
pub fn label_table() -> Table {
    let text = |text: &str| Some(text.as_bytes().to_vec());
    let folder = |drive: &str, state, target: Option<&str>| Folder {
        drive: text(drive),
        state: text(state),
        target: target.and_then(text),
    };
    let s = |target| folder(SAMPLE, "0000000A\n", target);
    let with_target = String::from_utf8(with_target_text()).unwrap();
    let sheet = |draft: Draft| String::from_utf8(draft.sheet()).unwrap();
    let without_headroom = sheet(with_limits(117, 1));
    let both = |state, target| folder(&with_target, state, Some(target));
    let of = |target| both("0000000A\n", target);
    let motors_and_steps = String::from_utf8(motors_and_steps_text()).unwrap();
    let former = String::from_utf8(other_limit_lines(&[0, 1, 4, 5], &[])).unwrap();
    let (halves, beyond_64_bits) = (sheet(sums::two_halves_of_b()), sheet(sums::sixteen_at_top()));
    let (answer_of_s, refused) = ("FFFFFFEE 00000003 00000002\n", "refused 16\n");
    let table = [
        (s(None), answer_of_s),
        (s(Some("")), answer_of_s),
        (s(Some("00000007\n")), answer_of_s),
        (s(Some("junk\0")), answer_of_s),
        // The cases "S with a target, sweeps 3" and "target -7".
        (of("00000007\n"), "FFFFFFF5 00000003 00000002\n"),
        (of("FFFFFFF9\n"), "FFFFFFEC 00000003 00000000\n"),
        (of("00000008\n"), refused),
        (of("fffffff9\n"), refused),
        (of("00000007"), refused),
        (of("00000007\r\n"), refused),
        (of("00000007\n\n"), refused),
        (of("0000000700000000\n"), refused),
        (of("0000007\n"), refused),
        (of("\n"), refused),
        (of(""), refused),
        (folder(&with_target, "0000000A\n", None), refused),
        // The state decides first, by its form and by its value.
        (both("0000000B\n", "00000008\n"), "refused 13\n"),
        (both("0000000B\n", "junk"), "refused 13\n"),
        (both("0000000A", "00000008\n"), "refused 13\n"),
        (both("0000000A", ""), "refused 13\n"),
        (both("0000000A00000007\n", "\n"), "refused 13\n"),
        (folder("", "0000000A\n", Some("00000007\n")), "refused 04\n"),
        (folder(&without_headroom, "0000000B\n", None), "refused 12\n"),
        // The case "two motors, two steps, sweeps 3".
        (
            folder(&motors_and_steps, "0000000A\n", None),
            "FFFFFFEE 00000003 00000002\nFFFFFFFC 00000003 00000002\n\
             FFFFFFFE 00000003 00000002\nFFFFFFEE 00000003 00000002\n",
        ),
        (folder(&former, "0000000A\n", None), "refused 02\n"),
        (folder(&former, "", None), "refused 02\n"),
        // h = 9 + 0.5 + 0.5, as in S.
        (folder(&halves, "000000090000000100000001\n", None), answer_of_s),
        (folder(&beyond_64_bits, "", None), "refused 12\n"),
    ];
    let table = table.map(|(folder, text)| (folder, text.to_string())).into_iter();
    table.chain(stop::folders()).chain(nearest::folders()).chain(distance::folders()).collect()
}

/// The folder of a case that is solved from zeros, and the lines of its answer, whose D takes eight digits.
fn label(case: &Case) -> (Folder, String) {
    let (Answer(row), Some(distance)) = (&case.expect, case.distance) else {
        panic!("{}: the whole answer is worked out", case.name)
    };
    let words = |words: &[u8]| Some(format!("{}\n", hex(words)).into_bytes());
    let (commands, bounds) = row.split_at(row.len() / 2);
    let line = |(z, e): (&i64, &i64)| format!("{:08X} {e:08X} {distance:08X}\n", *z as u32);
    let folder = Folder { drive: Some(case.sheet.clone()), state: words(&case.state), target: words(&case.target) };
    (folder, commands.iter().zip(bounds).map(line).collect())
}

/// Runs one case through every call it reaches, and holds the outcome to the table's own figures.
pub fn run(harness: &mut Harness, case: &Case) {
    let intake = harness.compare(&Call::on_buffers(Kind::Intake, &[&case.sheet], case.image_len));
    let image = case.image.clone().or(intake.written.clone());
    let solve = image.map(|image| solve(harness, &image, case));
    let solve_number = solve.as_ref().map_or(intake.number, |solve| solve.number);
    let page_len = PAGE_LINE * (case.image_len / 4 - HEADER_WORDS);
    let page = page_of(harness, case, page_len);
    let page_numbers = (page.number, page_of(harness, case, page_len + 1).number);
    // The sheet's number, and 15 behind it.
    let page_holds = match intake.number {
        0 => page_numbers == (0, 15),
        number => page_numbers == (number, number),
    };
    let holds = match &case.expect {
        Refused(number @ (6 | 13..=16)) => (intake.number, solve_number) == (0, *number),
        Refused(number) => (intake.number, solve_number) == (*number, *number),
        Accepted => (intake.number, solve_number) == (0, 0),
        Answer(row) => solve.is_some_and(|solve| is_answer(&solve.written.unwrap_or_default(), row, case.distance)),
        Words(kind, row) => {
            let image = words(&intake.written.unwrap_or_default());
            let sizes = image.get(..HEADER_WORDS).and_then(Sizes::of_words);
            sizes.is_some_and(|sizes| image[HEADER_WORDS + sizes.extent(*kind).0..].starts_with(row))
        }
        Image(words) => intake.written.is_some_and(|image| image == bytes(words)),
        Page(text) => page.written.is_some_and(|page| page == text.as_bytes()),
        NoPage(lengths) => lengths.iter().all(|&length| page_of(harness, case, length).number == 15),
    };
    harness.check(holds && page_holds, || format!("  the table's case: {}", case.name));
}

/// Are these the bytes of commands and bounds, with D behind them?
fn is_answer(written: &[u8], row: &[i64], distance: Option<u64>) -> bool {
    let (row, d) = (bytes(row), written.split_last_chunk::<8>());
    d.is_some_and(|(start, d)| start == row && distance.is_none_or(|distance| *d == distance.to_be_bytes()))
}

/// The solve alone of a case that has its image.
pub fn run_solve(harness: &mut Harness, case: &Case) {
    let image = case.image.as_ref().expect("the case has its image");
    let commands = words(image)[..2].iter().product::<i64>() as usize;
    lent_solve(harness, image, case, commands);
}

fn solve(harness: &mut Harness, image: &[u8], case: &Case) -> Outcome {
    let commands = words(image)[..2].iter().product::<i64>() as usize;
    cold_start(harness, image, 4 * commands);
    lent_solve(harness, image, case, commands)
}

fn lent_solve(harness: &mut Harness, image: &[u8], case: &Case, commands: usize) -> Outcome {
    let start = case.start.clone().unwrap_or(vec![0; 4 * commands]);
    let lent: [&[u8]; 4] = [image, &case.state, &case.target, &start];
    let answer_len = answer_len(commands).saturating_add_signed(case.spare);
    harness.compare(&Call::on_buffers(Kind::Solve, &lent, answer_len))
}

/// All zeros, and 15 with a byte too many, or the image's number.
fn cold_start(harness: &mut Harness, image: &[u8], length: usize) {
    let [exact, longer] =
        [length, length + 1].map(|length| harness.compare(&Call::on_buffers(Kind::ColdStart, &[image], length)));
    let holds = match exact.number {
        0 => exact.written == Some(vec![0; length]) && longer.number == 15,
        number => longer.number == number,
    };
    harness.check(holds, || "  the table's cold start is another".to_string());
}

fn page_of(harness: &mut Harness, case: &Case, page_len: usize) -> Outcome {
    harness.compare(&Call::on_buffers(Kind::Page, &[&case.sheet], page_len))
}
