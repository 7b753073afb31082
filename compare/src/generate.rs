//! Random problems that every check accepts, and near misses of each number made from them on purpose.

mod ranges;

pub use ranges::{few_ranges, inside, lent, range_case, range_len, state_inside};

use crate::double::{Rounding, of_count};
use crate::draft::{Draft, keep_former, text};
use crate::edges;
use crate::image::{
    COST, GAIN, HIGH, LOW, MOMENTUM, Number, Problem, STATE_LIMIT, Sizes, TABLES, TARGET_GAIN, TARGET_LIMIT, bytes,
    momentum_fits, words,
};
use crate::page::PAGE_LINE;
use crate::process::Folder;
use crate::random::Random;
use crate::rules::Use;
use crate::sheet::{Frame, LINE, MOST_LINES, hex};
use crate::solve;

pub const INTAKE_NUMBERS: [Number; 13] = [1, 2, 3, 4, 5, 7, 17, 8, 9, 10, 11, 12, 15];
pub const PAGE_NUMBERS: [Number; 13] = INTAKE_NUMBERS;
pub const COLD_START_NUMBERS: [Number; 11] = [3, 5, 6, 7, 17, 8, 9, 10, 11, 12, 15];
pub const SOLVE_NUMBERS: [Number; 14] = [3, 5, 6, 7, 17, 8, 9, 10, 11, 12, 13, 16, 14, 15];
pub const RANGE_SOLVE_NUMBERS: [Number; 14] = SOLVE_NUMBERS;
pub const MAKE_NUMBERS: [Number; 11] = COLD_START_NUMBERS;
/// Those of the image and of the start where something else than the calls wrote to the drive.
pub const ASK_NUMBERS: [Number; 15] = [3, 5, 6, 7, 17, 8, 9, 10, 11, 12, 13, 16, 14, 15, 20];
pub const COMMIT_NUMBERS: [Number; 4] = [6, 3, 15, 18];
pub const NEW_IMAGE_NUMBERS: [Number; 12] = [3, 5, 6, 7, 17, 8, 9, 10, 11, 12, 15, 19];
/// 3 of a period where something else wrote the number of heads.
pub const PERIOD_NUMBERS: [Number; 2] = [15, 3];
pub const DONE_NUMBERS: [Number; 2] = [3, 15];
pub const LABEL_NUMBERS: [Number; 14] = [1, 2, 3, 4, 5, 7, 17, 8, 9, 10, 11, 12, 13, 16];
pub const PAGE_PROGRAM_NUMBERS: [Number; 12] = [1, 2, 3, 4, 5, 7, 17, 8, 9, 10, 11, 12];
/// Those of the tables.
pub const TABLE_NUMBERS: [Number; 7] = [7, 17, 8, 9, 10, 11, 12];

/// What is to be spoilt: the numbers to provoke, and whether bytes are damaged at random besides.
pub struct Plan {
    numbers: Vec<Number>,
    damage: bool,
}

impl Plan {
    /// In turn each number alone, nothing, several numbers together, and damage.
    pub fn new(random: &mut Random, index: u64, numbers: &[Number]) -> Plan {
        let turn = index as usize % (2 * numbers.len());
        let several = 2 + random.below(2);
        let (numbers, damage) = match turn.checked_sub(numbers.len()) {
            None => (vec![numbers[turn]], false),
            Some(0) => (vec![], true),
            Some(1..6) => ((0..several).map(|_| random.pick(numbers)).collect(), false),
            Some(_) => (vec![], false),
        };
        Plan { numbers, damage }
    }

    /// One of these at random.
    pub fn any(random: &mut Random, numbers: &[Number]) -> Plan {
        let turn = random.below(2 * numbers.len()) as u64;
        Plan::new(random, turn, numbers)
    }

    /// A plan that leaves an accepted problem as it is.
    pub fn nothing() -> Plan {
        Plan { numbers: vec![], damage: false }
    }

    pub fn only(number: Number) -> Plan {
        Plan { numbers: vec![number], damage: false }
    }

    /// In turn 17 beside each number, before it or behind it, and the plans above.
    pub fn with_stop(random: &mut Random, index: u64, numbers: &[Number]) -> Plan {
        let (turn, index) = (index % 2, index / 2);
        let number = numbers[index as usize % numbers.len()];
        match turn {
            0 => Plan { numbers: random.pick(&[[17, number], [number, 17]]).to_vec(), damage: false },
            _ => Plan::new(random, index, numbers),
        }
    }

    pub fn is_nothing(&self) -> bool {
        self.numbers.is_empty() && !self.damage
    }

    fn has(&self, number: Number) -> bool {
        self.numbers.contains(&number)
    }

    /// Half of the problems are without targets, but for those that are to meet 16.
    fn sizes(&self, random: &mut Random) -> Sizes {
        let targets = random.pick(if self.has(16) { &[0, 1, 2, 3, 4][..] } else { &[0, 0, 0, 0, 1, 2, 3, 4] });
        let sizes = sizes(random, targets);
        // Sums beyond 64 bits need the widest words.
        let width = if self.has(12) && random.one_in(3) { 32 } else { sizes.width };
        Sizes { width, ..sizes }
    }
}

fn sizes(random: &mut Random, targets: usize) -> Sizes {
    let largest = random.one_in(16);
    let all: Vec<(usize, usize)> = (1..=4).flat_map(|nu| (1..=16 / nu).map(move |steps| (nu, steps))).collect();
    let (motors, steps) = random.pick(if largest { &[(1, 16), (2, 8), (4, 4)] } else { &all });
    let states = if largest { 12 } else { random.between(1, 12) };
    let width = if largest { 32 } else { random.between(8, 32) };
    let iterations = iterations(random);
    Sizes {
        motors,
        steps,
        states: states as usize,
        bits: random.between(4, (width - 2).min(20)) as u32,
        width: width as u32,
        iterations,
        targets,
    }
}

/// Sweeps, most often few.
pub fn iterations(random: &mut Random) -> usize {
    let iterations = match random.below(32) {
        0 => 400,
        1 => random.between(1, 400),
        2..6 => random.between(1, 60),
        _ => random.between(1, 8),
    };
    iterations as usize
}

/// H: symmetric, with a margin of at least 1 and a total of at most 2^b in each row, both often met exactly.
fn cost_table(random: &mut Random, sizes: &Sizes) -> Vec<i64> {
    let (n, one) = (sizes.commands(), sizes.one());
    let most = (one - 1) / 2;
    let mut table = vec![0; n * n];
    let mut room = vec![most; n];
    let (rarity, share) = (random.pick(&[1, 1, 2, 5, 50]), random.pick(&[1, 2, n as i64]));
    for (i, j) in (0..n).flat_map(|i| (0..i).map(move |j| (i, j))) {
        if random.one_in(rarity) {
            let magnitude = random.magnitude(room[i].min(room[j]) / share);
            table[i * n + j] = magnitude * random.sign();
            table[j * n + i] = table[i * n + j];
            room[i] -= magnitude;
            room[j] -= magnitude;
        }
    }
    for i in 0..n {
        let (least, largest) = (most - room[i] + 1, one - (most - room[i]));
        let between = random.between(least, largest);
        table[i * n + i] = random.pick(&[least, largest, between, between]);
    }
    table
}

/// Limits that hold zero, often at one of them or at both.
fn limits(random: &mut Random, most: i64) -> (i64, i64) {
    let (below, above) = (-random.between(0, most), random.between(0, most));
    let one_sided = [(0, most), (-most, 0), (0, above), (below, 0), (0, 0)];
    let pairs = [(-most, most), (below, above), (below, above), random.pick(&one_sided), random.pick(&one_sided)];
    random.pick(&pairs)
}

/// The least β that check 11 lets pass.
fn least_momentum(draft: &Draft) -> i64 {
    let (problem, one) = (draft.problem(), draft.sizes.one());
    let (margin, total) = (problem.least_margin(), problem.largest_total());
    let (mut least, mut most) = (0, one - 1);
    while least < most {
        let middle = (least + most) / 2;
        if momentum_fits(one, middle, margin, total) {
            most = middle;
        } else {
            least = middle + 1;
        }
    }
    least
}

fn choose_limits(random: &mut Random, draft: &mut Draft) {
    if random.one_in(8) {
        // As wide as can be: with 32-bit words and many sweeps some bounds then pass 2^31.
        draft.sizes.iterations = random.pick(&[draft.sizes.iterations, 400]);
        push_to_headroom(draft, 0, |draft, magnitude| {
            draft.section(LOW).fill(-magnitude);
            draft.section(HIGH).fill(magnitude);
        });
        return;
    }
    let Sizes { motors, steps, .. } = draft.sizes;
    let most = random.magnitude(draft.sizes.top());
    let course = random.pick(&[Course::Same, Course::Narrowing, Course::Widening, Course::Any, Course::Any]);
    for motor in 0..motors {
        for (step, (low, high)) in limits_of_steps(random, most, steps, course).into_iter().enumerate() {
            set_limits(draft, step * motors + motor, low, high);
        }
    }
    if course != Course::Same && random.one_in(3) {
        set_limits(draft, random.below(motors * steps), 0, 0);
    }
    halve_to_headroom(draft, &[LOW, HIGH]);
}

fn set_limits(draft: &mut Draft, command: usize, low: i64, high: i64) {
    draft.section(LOW)[command] = low;
    draft.section(HIGH)[command] = high;
}

/// What becomes of a motor's limits along the steps. Zero stays within them.
#[derive(Clone, Copy, PartialEq, Eq)]
enum Course {
    Same,
    Narrowing,
    Widening,
    Any,
}

fn limits_of_steps(random: &mut Random, most: i64, steps: usize, course: Course) -> Vec<(i64, i64)> {
    let (low, high) = limits(random, most);
    let center = random.between(low, high);
    let narrowed = |step: usize| {
        let part = |limit: i64| center + (limit - center) * (steps - step) as i64 / steps as i64;
        (part(low).min(0), part(high).max(0))
    };
    match course {
        Course::Same => vec![(low, high); steps],
        Course::Narrowing => (0..steps).map(narrowed).collect(),
        Course::Widening => (0..steps).rev().map(narrowed).collect(),
        Course::Any => (0..steps).map(|_| limits(random, most)).collect(),
    }
}

/// A problem that every check accepts.
fn accepted(random: &mut Random, sizes: Sizes) -> Draft {
    let (one, top) = (sizes.one(), sizes.top());
    let mut draft = Draft::new(sizes);
    let table = cost_table(random, &sizes);
    draft = draft.with(COST, &table);
    let least = least_momentum(&draft);
    let between = random.between(least, one - 1);
    draft.section(MOMENTUM)[0] = random.pick(&[least, least, between, between, one - 1]);
    choose_limits(random, &mut draft);
    for (table, limits) in INPUTS {
        let most = random.magnitude(top);
        draft.section(table).iter_mut().for_each(|gain| *gain = random.magnitude(most) * random.sign());
        draft.section(limits).iter_mut().for_each(|limit| *limit = random.magnitude(top));
    }
    let [(state_table, state_limits), (target_table, target_limits)] = INPUTS;
    let smaller = [[state_table, target_table], [state_limits, target_limits]];
    halve_to_headroom(&mut draft, &random.pick(&smaller));
    if random.one_in(16) {
        inputs_at_top(random, &mut draft);
    }
    let reached = random.one_in(6) && edges::reach(random, &mut draft);
    if !reached && random.one_in(3) {
        at_headroom(random, &mut draft, 0);
    }
    assert_eq!(draft.problem().check(), Ok(()));
    draft
}

/// The tables of the linear term with their limits.
const INPUTS: [(u8, u8); 2] = [(GAIN, STATE_LIMIT), (TARGET_GAIN, TARGET_LIMIT)];

/// Gains or limits at the ends of the word; the others are 0, so that they take no headroom.
fn inputs_at_top(random: &mut Random, draft: &mut Draft) {
    let top = draft.sizes.top();
    for (table, limits) in INPUTS {
        let (zero, large) = random.pick(&[(table, limits), (limits, table)]);
        draft.section(zero).fill(0);
        for word in draft.section(large) {
            let sign = if large == table { random.sign() } else { 1 };
            *word = sign * (top - random.between(0, 1));
        }
    }
}

fn halve_to_headroom(draft: &mut Draft, kinds: &[u8]) {
    while draft.problem().leaves_headroom() {
        for &kind in kinds {
            draft.section(kind).iter_mut().for_each(|word| *word /= 2);
        }
    }
}

/// Sets the largest magnitude that check 12 lets pass, and returns it; the one given passes.
fn push_to_headroom(draft: &mut Draft, passing: i64, set: impl Fn(&mut Draft, i64)) -> i64 {
    let (mut inside, mut outside) = (passing, draft.sizes.top() + 1);
    while outside - inside > 1 {
        let middle = (inside + outside) / 2;
        set(draft, middle);
        if draft.problem().leaves_headroom() {
            outside = middle;
        } else {
            inside = middle;
        }
    }
    set(draft, inside);
    inside
}

/// Moves one word, both limits of a command, or those of a motor, outward to the last value that check 12 lets pass, and
/// then beyond it by some counts.
fn at_headroom(random: &mut Random, draft: &mut Draft, beyond: i64) {
    let without_targets = [GAIN, GAIN, STATE_LIMIT, LOW, HIGH];
    let with_targets = [GAIN, STATE_LIMIT, TARGET_GAIN, TARGET_GAIN, TARGET_LIMIT, LOW, HIGH];
    let kind = random.pick(if draft.sizes.targets == 0 { &without_targets[..] } else { &with_targets });
    let (start, length) = draft.sizes.extent(kind);
    let index = random.below(length);
    let both = kind == HIGH && random.one_in(2);
    // Limits that are the same at every step often stay so.
    let alike = matches!(kind, LOW | HIGH) && random.one_in(2) && !draft.problem().limits_change();
    let motors = draft.sizes.motors;
    let indices = if alike { (index % motors..length).step_by(motors).collect() } else { vec![index] };
    let old = draft.body[start + index];
    let sign = match kind {
        LOW => -1,
        GAIN | TARGET_GAIN if old != 0 => old.signum(),
        GAIN | TARGET_GAIN => random.sign(),
        _ => 1,
    };
    let set = |draft: &mut Draft, magnitude: i64| {
        for &index in &indices {
            draft.section(kind)[index] = sign * magnitude;
            if both {
                draft.section(LOW)[index] = -magnitude;
            }
        }
    };
    let last = push_to_headroom(draft, if both { 0 } else { sign * old }, set);
    set(draft, last + beyond);
}

/// Provokes one of the numbers 5, 7, 17 and 8 to 12 in the tables.
fn spoil_tables(random: &mut Random, draft: &mut Draft, number: Number) {
    let (n, one, top) = (draft.sizes.commands(), draft.sizes.one(), draft.sizes.top());
    let (row, more) = (random.below(n), if random.one_in(2) { 0 } else { random.magnitude(one) });
    let radius = draft.problem().radius(row);
    match number {
        5 => word_beyond(random, draft),
        7 => {
            let command = random.below(n);
            let any = random.between(-top, draft.section(HIGH)[command].min(top - 1));
            let high = random.pick(&[any, any, 0, -1]);
            set_limits(draft, command, (high + 1 + more).min(top), high);
        }
        17 => exclude_zero(random, draft, (1 + more).min(top)),
        8 => {
            let column = (row + 1 + random.below(n)) % n;
            let entry = &mut draft.section(COST)[row * n + column];
            *entry = random.pick(&[*entry + 1, *entry - 1, -*entry]).clamp(-top, top);
        }
        // With many large words, M y and A would be far beyond the word.
        9 if random.one_in(8) => draft.section(COST).fill(top * random.sign()),
        9 => draft.section(COST)[row * (n + 1)] = (radius - more).clamp(-top, top),
        10 => draft.section(COST)[row * (n + 1)] = (one - radius + 1 + more).clamp(-top, top),
        11 => {
            let least = least_momentum(draft);
            let words = [least - 1, least - 1, -1, one, one + more, -more, top, -top];
            draft.section(MOMENTUM)[0] = random.pick(&words);
        }
        12 => spoil_headroom(random, draft),
        _ => {}
    }
}

/// Provokes 17 at a command, or at all steps of a motor: a limit is this far on the wrong side of zero.
fn exclude_zero(random: &mut Random, draft: &mut Draft, least: i64) {
    let (n, motors) = (draft.sizes.commands(), draft.sizes.motors);
    let command = random.below(n);
    let (above, point, alike) = (random.one_in(2), random.one_in(4), random.one_in(4));
    let commands = if alike { (command % motors..n).step_by(motors).collect() } else { vec![command] };
    for command in commands {
        let (low, high) = (draft.section(LOW)[command], draft.section(HIGH)[command]);
        let (low, high) = match (above, point) {
            (true, true) => (least, least),
            (true, false) => (least, high.max(least)),
            (false, true) => (-least, -least),
            (false, false) => (low.min(-least), -least),
        };
        set_limits(draft, command, low, high);
    }
}

/// Provokes 12: a word too large by one, or a sum of B that is too large by itself.
fn spoil_headroom(random: &mut Random, draft: &mut Draft) {
    // Another number provoked before may have left no room to count from.
    let fit = draft.problem().check().is_ok();
    let done = match random.below(4) {
        0 => fit && edges::pass(random, draft),
        1 | 2 => fit && edges::overflow(random, draft),
        _ => false,
    };
    if !done {
        at_headroom(random, draft, 1);
    }
}

fn word_beyond(random: &mut Random, draft: &mut Draft) {
    let top = draft.sizes.top();
    if random.one_in(3) {
        let kind = if draft.sizes.targets > 0 && random.one_in(2) { TARGET_LIMIT } else { STATE_LIMIT };
        let limits = draft.section(kind);
        let word = -1 - random.magnitude(top - 1);
        limits[random.below(limits.len())] = random.pick(&[-1, word]);
    } else {
        let [low, high] = [LOW, HIGH].map(|kind| draft.sizes.extent(kind));
        let table = some_table(random, &draft.sizes);
        let (first, length) = random.pick(&[(0, draft.body.len()), low, high, table]);
        draft.body[first + random.below(length)] = random.pick(&[top + 1, -top - 1, i32::MIN as i64]);
    }
}

pub struct SolveCase {
    pub draft: Draft,
    pub image: Vec<u8>,
    pub state: Vec<u8>,
    pub target: Vec<u8>,
    pub start: Vec<u8>,
}

impl SolveCase {
    /// The state, then the target.
    pub fn inputs(&self) -> Vec<i64> {
        [words(&self.state), words(&self.target)].concat()
    }
}

/// Values within their limits, often at them.
fn values_within(random: &mut Random, limits: &[(i64, i64)]) -> Vec<i64> {
    let pull = random.below(3);
    let value = |&(low, high): &(i64, i64)| match random.below(4) + pull {
        0..2 => random.between(low, high),
        2 => 0.clamp(low.min(high), high),
        3 => low.max(high - 1),
        _ => random.pick(&[low, high]),
    };
    limits.iter().map(value).collect()
}

/// The words of a state, target or start; spoilt, another length or one value beyond its limits.
fn words_within(random: &mut Random, limits: &[(i64, i64)], spoilt: bool) -> Vec<u8> {
    let mut values = values_within(random, limits);
    if !spoilt {
        return bytes(&values);
    }
    if values.is_empty() || random.one_in(3) {
        return other_length(random, bytes(&values));
    }
    let index = random.below(values.len());
    let (low, high) = limits[index];
    values[index] = random.pick(&[low - 1, high + 1, low - 1, high + 1, i32::MIN as i64, i32::MAX as i64]);
    bytes(&values)
}

fn other_length(random: &mut Random, mut buffer: Vec<u8>) -> Vec<u8> {
    let length = other_size(random, buffer.len());
    buffer.resize(length, 0);
    buffer
}

pub fn other_size(random: &mut Random, size: usize) -> usize {
    if size == 0 {
        return random.pick(&[1, 2, 3, 4, 5, 8, 16]);
    }
    let less = random.below(size);
    random.pick(&[size - 1, size + 1, size - 4, size + 4, size / 2, 2 * size, 0, less])
}

/// An image with its state, target and start, spoilt as planned.
pub fn solve_case(random: &mut Random, plan: &Plan) -> SolveCase {
    let sizes = plan.sizes(random);
    case_of_sizes(random, plan, sizes)
}

/// The same with one command and one input: every sum has one term.
pub fn single_case(random: &mut Random, plan: &Plan) -> SolveCase {
    let sizes = Sizes { motors: 1, steps: 1, states: 1, targets: 0, ..plan.sizes(random) };
    case_of_sizes(random, plan, sizes)
}

/// The same with four commands at most.
pub fn few_case(random: &mut Random, plan: &Plan) -> SolveCase {
    let (motors, steps) = random.pick(&[(1, 1), (1, 2), (2, 1), (1, 3), (3, 1), (1, 4), (2, 2), (4, 1)]);
    let sizes = Sizes { motors, steps, ..plan.sizes(random) };
    case_of_sizes(random, plan, sizes)
}

/// The same with the largest image.
pub fn largest_case(random: &mut Random, plan: &Plan) -> SolveCase {
    let (motors, steps) = random.pick(&[(1, 16), (2, 8), (4, 4)]);
    let sizes = Sizes { motors, steps, states: 12, targets: 4, ..plan.sizes(random) };
    case_of_sizes(random, plan, sizes)
}

/// An image alone and the draft it was made from, of these sizes or of any.
pub fn image_case(random: &mut Random, plan: &Plan, sizes: Option<Sizes>) -> (Draft, Vec<u8>) {
    let sizes = sizes.unwrap_or_else(|| plan.sizes(random));
    let case = case_of_sizes(random, plan, sizes);
    (case.draft, case.image)
}

/// The image of a draft, both spoilt as planned.
pub fn image_of(random: &mut Random, plan: &Plan, draft: &mut Draft) -> Vec<u8> {
    for &number in &plan.numbers {
        spoil_tables(random, draft, number);
    }
    let mut image = draft.image();
    if plan.has(3) {
        spoil_header(random, &draft.sizes, &mut image);
    }
    if plan.has(6) {
        spoil_length(random, draft, &mut image);
    }
    image
}

/// A state and a target for a problem, spoilt as planned.
pub fn inputs(random: &mut Random, plan: &Plan, problem: &Problem) -> [Vec<u8>; 2] {
    let state = words_within(random, &problem.state_ranges(), plan.has(13));
    let target = words_within(random, &problem.target_ranges(), plan.has(16));
    let mut inputs = [state, target];
    let which = random.below(2);
    if plan.damage && !inputs[which].is_empty() {
        damage(random, &mut inputs[which]);
    }
    inputs
}

fn case_of_sizes(random: &mut Random, plan: &Plan, sizes: Sizes) -> SolveCase {
    let mut draft = accepted(random, sizes);
    let mut image = image_of(random, plan, &mut draft);
    let problem = draft.problem();
    let mut state = words_within(random, &problem.state_ranges(), plan.has(13));
    let mut target = words_within(random, &problem.target_ranges(), plan.has(16));
    let mut start = start_within(random, &draft.sizes, problem.command_ranges(Use::Start), plan.has(14));
    if plan.damage {
        match random.below(8) {
            0 => damage(random, &mut state),
            1 => damage(random, &mut start),
            2 if sizes.targets > 0 => damage(random, &mut target),
            _ => damage(random, &mut image),
        }
    }
    SolveCase { draft, image, state, target, start }
}

/// Spoilt, a start is often within the limits of other steps than its own.
fn start_within(random: &mut Random, sizes: &Sizes, mut limits: Vec<(i64, i64)>, spoilt: bool) -> Vec<u8> {
    if spoilt && random.one_in(2) {
        limits.rotate_left(sizes.motors * random.below(sizes.steps));
        return words_within(random, &limits, false);
    }
    words_within(random, &limits, spoilt)
}

/// Provokes 6: another length, another nr in the header, or the image before request 3, for which N 1 is right.
fn spoil_length(random: &mut Random, draft: &Draft, image: &mut Vec<u8>) {
    let short = random.below(32);
    let length = other_size(random, image.len());
    match random.below(8) {
        0 | 1 => put_word(image, 6, ((draft.sizes.targets + 1 + random.below(4)) % 5) as i64),
        2 => *image = bytes(&draft.former_words()),
        _ => image.resize(random.pick(&[short, 31, 32, length, length]), 0),
    }
}

fn put_word(image: &mut [u8], index: usize, word: i64) {
    image[4 * index..4 * index + 4].copy_from_slice(&bytes(&[word]));
}

/// The length of an output buffer, spoilt for number 15.
pub fn out_len(random: &mut Random, plan: &Plan, exact: usize) -> usize {
    if plan.has(15) { other_size(random, exact) } else { exact }
}

/// The same for an answer, whose D might be left out, cut to 32 bits, or given for each command.
pub fn answer_len(random: &mut Random, plan: &Plan, sizes: &Sizes) -> usize {
    let n = sizes.commands();
    let exact = solve::answer_len(n);
    let mut mistaken = vec![exact - 8, exact - 8, exact - 4, exact + 8, 12 * n, 16 * n];
    mistaken.retain(|&length| length != exact);
    if plan.has(15) && random.one_in(2) { random.pick(&mistaken) } else { out_len(random, plan, exact) }
}

/// The same for a page, whose length might be taken for that of another buffer.
pub fn page_len(random: &mut Random, plan: &Plan, sizes: &Sizes) -> usize {
    let lines = sizes.body_words();
    let exact = PAGE_LINE * lines;
    let mistaken = [exact - PAGE_LINE, exact + PAGE_LINE, exact - lines, LINE * (lines + 1), sizes.image_bytes()];
    if plan.has(15) && random.one_in(2) { random.pick(&mistaken) } else { out_len(random, plan, exact) }
}

/// A length that the buffer of a commit might be taken to have. With N 1 some are right.
pub fn commands_len(random: &mut Random, sizes: &Sizes) -> usize {
    let n = sizes.commands();
    let other = other_size(random, 4 * sizes.motors);
    random.pick(&[other, other, 4 * n, 4 * sizes.steps, 8 * sizes.motors, solve::answer_len(n)])
}

/// A head that no drive has. Cut to fewer bits some are 0 to 3.
pub fn other_head(random: &mut Random) -> u32 {
    let any = random.next() as u32 | 4;
    let cut = cut_number(random) + random.below(4) as u32;
    random.pick(&[4, 4, 5, 6, 255, cut, cut, u32::MAX, u32::MAX - 1, any])
}

/// A number of heads that no drive has. Cut to fewer bits some are 1 to 4.
pub fn other_heads(random: &mut Random) -> u32 {
    let any = random.next() as u32 | 8;
    let cut = cut_number(random) + random.between(1, 4) as u32;
    random.pick(&[0, 0, 5, 5, 8, cut, cut, u32::MAX, any])
}

/// Zero in fewer bits.
fn cut_number(random: &mut Random) -> u32 {
    let any = random.next() as u32;
    random.pick(&[1 << 8, 1 << 16, 1 << 24, 1 << 31, any & !0xFF | 1 << 9])
}

/// S: none, the most, for no ask or for so many of each head, with a remainder that may be enough for another.
pub fn allowance(random: &mut Random, sizes: &Sizes, heads: usize) -> u16 {
    let (sweeps, heads) = (sizes.iterations as i64, heads.max(1) as i64);
    let asks = random.between(0, 3) * sweeps + random.between(0, 2 * sweeps) / 2;
    let of_each = heads * asks + random.between(0, heads);
    let about = heads * sweeps * random.between(0, 3) + random.between(-2, 2);
    let (one, any) = (sweeps + random.between(-1, 1), random.magnitude(65535));
    let allowance = random.pick(&[0, 65535, 65535, one, of_each, of_each, about, any]);
    allowance.clamp(0, 65535) as u16
}

fn spoil_header(random: &mut Random, sizes: &Sizes, image: &mut [u8]) {
    let words = sizes.words();
    let [motors, _, states, bits, width, iterations, targets, _] = words;
    let index = random.below(8);
    let beyond: &[i64] = match index {
        0 => &[0, 5, 16],
        1 => &[0, 17, 16 / motors + 1],
        2 => &[0, 13],
        3 => &[3, 21, width - 1],
        4 => &[7, 33, bits + 1],
        5 => &[0, 401, iterations + 65536],
        6 => &[5, targets + 256, targets + 65536],
        _ => &[1, 256],
    };
    let word = random.pick(beyond);
    let word = random.pick(&[word, word, word, -1, -words[index], i32::MIN as i64, i32::MAX as i64, 1 << 24]);
    put_word(image, index, word);
    if random.one_in(8) {
        // Sizes whose product is small again once it is cut to 32 bits.
        image[..8].copy_from_slice(&bytes(&[1 << 16, 1 << 16]));
    }
    if random.one_in(8) {
        // A state that becomes a target, or the reverse, leaves the length as it is.
        image[..32].copy_from_slice(&bytes(&words));
        let moved = random.sign();
        put_word(image, 2, states + moved);
        put_word(image, 6, targets - moved);
    }
}

/// Changes one to three bytes at random.
pub fn damage(random: &mut Random, buffer: &mut [u8]) {
    for _ in 0..=random.below(3) {
        let index = random.below(buffer.len());
        let (flipped, other) = (buffer[index] ^ 1 << random.below(8), random.next() as u8);
        buffer[index] = random.pick(&[flipped, flipped, other]);
    }
}

/// The double beside this one, upward or downward.
pub fn beside(double: u64, direction: i64) -> u64 {
    let negative = double >> 63 == 1;
    match double << 1 {
        0 if direction > 0 => 1,
        0 => 1 << 63 | 1,
        _ if negative == (direction < 0) => double + 1,
        _ => double - 1,
    }
}

/// A double that rounds to the word.
fn double_near(random: &mut Random, word: i64, bits: u32, rounding: Rounding) -> u64 {
    match rounding {
        Rounding::Down => double_from(random, word, bits, 1),
        Rounding::Up => double_from(random, word, bits, -1),
        Rounding::Nearest => double_around(random, word, bits),
    }
}

/// One between the word and the next count upward or downward, without that count.
fn double_from(random: &mut Random, word: i64, bits: u32, away: i64) -> u64 {
    let (exact, next) = (of_count(word, bits), of_count(word + away, bits));
    match random.below(9) {
        0 if word == 0 => 1 << 63,
        1 => beside(exact, away),
        2 => beside(next, -away),
        3 => of_count(2 * word + away, bits + 1),
        4 => of_count((word << 20) + away * random.between(0, (1 << 20) - 1), bits + 20),
        5 => short_of(random, word, away, [exact, next]),
        _ => exact,
    }
}

/// One less than half a count from the word, often by the last bit alone, or a tie that goes to it.
fn double_around(random: &mut Random, word: i64, bits: u32) -> u64 {
    let away = random.sign();
    let (exact, tie) = (of_count(word, bits), of_count(2 * word + away, bits + 1));
    match random.below(12) {
        0 if word == 0 => 1 << 63,
        0..3 if word % 2 == 0 => tie,
        1 | 3 => beside(tie, -away),
        4 => beside(exact, away),
        5 => of_count(4 * word + away, bits + 2),
        6 => of_count((word << 20) + away * random.between(0, (1 << 19) - 1), bits + 20),
        7 => short_of(random, word, away, [exact, tie]),
        _ => exact,
    }
}

/// Any double from the word's on that does not reach the other: beside 0 every exponent is about as frequent.
fn short_of(random: &mut Random, word: i64, away: i64, ends: [u64; 2]) -> u64 {
    let negative = word < 0 || word == 0 && away < 0;
    // Magnitudes are in the order of their bits.
    let [own, other] = ends.map(|double| (double << 1 >> 1) as i64);
    let magnitude = if own < other { random.between(own, other - 1) } else { random.between(other + 1, own) };
    u64::from(negative) << 63 | magnitude as u64
}

/// Doubles about zero and the end of the word, whole counts, ties and quarters among them, and those that are no number.
pub fn edge_doubles(bits: u32, width: u32) -> Vec<u64> {
    let top = crate::image::top(width);
    let mut edges = vec![0x7FF0_0000_0000_0001, 0x7FF8_0000_0000_0000, 0xFFF8_0000_0000_0000, u64::MAX];
    for positive in [f64::INFINITY, f64::MAX, f64::MIN_POSITIVE, 1e300, 2f64.powi(1023), 2f64.powi(1023 - bits as i32)]
    {
        edges.extend([positive.to_bits(), (-positive).to_bits()]);
    }
    for count in [1, 2, 3, top - 1, top, top + 1, top + 2, 2 * top] {
        for value in [count, -count] {
            let (double, tie) = (of_count(value, bits), of_count(2 * value + value.signum(), bits + 1));
            for double in [double, tie] {
                edges.extend([double, beside(double, 1), beside(double, -1)]);
            }
            edges.push(of_count(4 * value + value.signum(), bits + 2));
        }
    }
    for tie in [of_count(1, bits + 1), of_count(-1, bits + 1)] {
        edges.extend([tie, beside(tie, 1), beside(tie, -1)]);
    }
    edges.extend([0, 1 << 63, 1, 1 << 63 | 1]);
    edges
}

/// Doubles about the ends of what a table takes: the ties beyond the word, the last bit short of them, and quarters.
fn table_ends(bits: u32, width: u32) -> [u64; 6] {
    let top = crate::image::top(width);
    let [above, below] = [1, -1].map(|sign| {
        let tie = of_count(sign * (2 * top + 1), bits + 1);
        [tie, beside(tie, -sign), of_count(sign * (4 * top + 1), bits + 2)]
    });
    [above[0], above[1], above[2], below[0], below[1], below[2]]
}

/// A sheet's frames, spoilt as planned, and the draft they were made from.
fn frames_of(random: &mut Random, plan: &Plan, sizes: Sizes) -> (Draft, Vec<Frame>) {
    let mut draft = accepted(random, sizes);
    // Of 5 there is one, a word's or a line's: of two the later would never decide.
    let by_line = random.one_in(2);
    for &number in plan.numbers.iter().filter(|&&number| number != 5 || !by_line) {
        spoil_tables(random, &mut draft, number);
    }
    let places: Vec<_> = draft.sizes.places().collect();
    let mut frames = draft.frames(|i| double_near(random, draft.body[i], draft.sizes.bits, places[i].0.rounding));
    if random.one_in(2) {
        mirror(&draft, &mut frames);
    }
    for &number in plan.numbers.iter().filter(|&&number| number != 5 || by_line) {
        spoil_frames(random, &draft.sizes, &mut frames, number);
    }
    (draft, frames)
}

/// Makes H symmetric by its doubles too, wherever its words are.
fn mirror(draft: &Draft, frames: &mut [Frame]) {
    let n = draft.sizes.commands();
    for (i, j) in (0..n).flat_map(|i| (0..i).map(move |j| (i, j))) {
        if draft.body[i * n + j] == draft.body[j * n + i] {
            let double = frames[1 + i * n + j][3..].to_vec();
            frames[1 + j * n + i][3..].copy_from_slice(&double);
        }
    }
}

/// A sheet's text, spoilt as planned, and the draft it was made from.
pub fn sheet_case(random: &mut Random, plan: &Plan) -> (Draft, Vec<u8>) {
    let sizes = plan.sizes(random);
    sheet_of_sizes(random, plan, sizes)
}

/// The same with one command or two, and with few inputs: a single number of a table then often decides.
pub fn small_sheet(random: &mut Random, plan: &Plan) -> (Draft, Vec<u8>) {
    let (steps, targets) = (1 + random.below(2), random.below(2));
    let sizes = Sizes { motors: 1, steps, states: 1, targets, ..plan.sizes(random) };
    sheet_of_sizes(random, plan, sizes)
}

fn sheet_of_sizes(random: &mut Random, plan: &Plan, sizes: Sizes) -> (Draft, Vec<u8>) {
    let (draft, frames) = frames_of(random, plan, sizes);
    let mut text = text(&frames);
    for &number in &plan.numbers {
        spoil_text(random, &mut text, number);
    }
    if plan.damage && !text.is_empty() {
        damage(random, &mut text);
    }
    (draft, text)
}

/// Provokes 2, 3 or 5 in the frames.
fn spoil_frames(random: &mut Random, sizes: &Sizes, frames: &mut Vec<Frame>, number: Number) {
    let line = some_line(random, sizes, frames.len());
    match number {
        2 => spoil_order(random, sizes, frames, line),
        3 => {
            let byte = random.pick(&[1, 2, 3, 4, 5, 6, 7, 8]);
            let (bits, width) = (sizes.bits as u8, sizes.width as u8);
            let beyond = match byte {
                1 => [0, 5, 255],
                2 => [0, 17, 16 / sizes.motors as u8 + 1],
                3 => [0, 13, 255],
                4 => [3, 21, width - 1],
                5 => [7, 33, bits + 1],
                6 => [5, 255, random.between(5, 255) as u8],
                _ => [255, 2, 1],
            };
            frames[0][byte] = random.pick(&beyond);
            let iterations = random.pick(&[0u16, 401, 65535]);
            if byte > 6 {
                frames[0][7..9].copy_from_slice(&iterations.to_be_bytes());
            }
        }
        5 if random.one_in(2) => {
            let (first, length) = some_table(random, sizes);
            let double = random.pick(&table_ends(sizes.bits, sizes.width));
            put_double(frames, 1 + first + random.below(length), double);
        }
        5 => {
            let double = random.pick(&edge_doubles(sizes.bits, sizes.width));
            put_double(frames, line, double);
        }
        _ => {}
    }
}

/// Line 01 has none, and other spoiling may have taken the line away.
fn put_double(frames: &mut [Frame], line: usize, double: u64) {
    if let Some(frame) = frames.get_mut(line).filter(|frame| frame[0] != 1) {
        frame[3..].copy_from_slice(&double.to_be_bytes());
    }
}

/// The extent of a table that has entries.
fn some_table(random: &mut Random, sizes: &Sizes) -> (usize, usize) {
    let tables = TABLES.map(|kind| sizes.extent(kind));
    random.pick(if sizes.targets == 0 { &tables[..2] } else { &tables })
}

/// The lines of the target table and limits.
fn target_lines(sizes: &Sizes) -> usize {
    (sizes.commands() + 1) * sizes.targets
}

/// Any line, those of the targets and of the limits often.
fn some_line(random: &mut Random, sizes: &Sizes, lines: usize) -> usize {
    let (targets, limits) = (target_lines(sizes), sizes.extent(LOW).0 + 1);
    match random.below(3) {
        0 if targets > 0 => lines - 1 - random.below(targets),
        1 => (limits + random.below(2 * sizes.commands())).min(lines - 1),
        _ => random.below(lines),
    }
}

/// Provokes 2: another kind, row or column, a byte of line 01 that should be 0, another nr, lines out of order.
fn spoil_order(random: &mut Random, sizes: &Sizes, frames: &mut Vec<Frame>, line: usize) {
    let other = some_line(random, sizes, frames.len());
    match random.below(12) {
        0 => frames.swap(line, other),
        1 => frames.insert(line, frames[random.pick(&[line, other])]),
        2 => drop(frames.remove(line)),
        3 => frames[0][random.pick(&[0, 9, 10])] = random.next() as u8,
        4 => frames[0][6] = random.below(6) as u8,
        5 => {
            // The target limits before their table, or both before the state limits.
            let targets = target_lines(sizes);
            let (moved, across) = random.pick(&[(targets, sizes.targets), (targets + sizes.states, targets)]);
            let first = frames.len() - moved;
            frames[first..].rotate_right(across);
        }
        6..10 => spoil_limit_lines(random, sizes, frames),
        _ => {
            let byte = random.below(3);
            let (old, other) = (frames[line][byte], random.next() as u8);
            frames[line][byte] = random.pick(&[old.wrapping_add(1), old.wrapping_sub(1), other]);
        }
    }
}

/// The lines of limits in another order, or with another row or column, than request 3 has them.
fn spoil_limit_lines(random: &mut Random, sizes: &Sizes, frames: &mut Vec<Frame>) {
    let is_limit = |frame: &Frame| matches!(frame[0], LOW | HIGH);
    let first = frames.iter().position(is_limit).unwrap_or(frames.len());
    let count = frames[first..].iter().take_while(|frame| is_limit(frame)).count();
    let limits = &mut frames[first..first + count];
    let last_step = sizes.steps as u8 - 1;
    match random.below(10) {
        // Motors outermost.
        0 => limits.sort_by_key(|&[kind, row, column, ..]| [kind, row, column]),
        // A step's highs behind its lows, and a command's high behind its low.
        1 => limits.sort_by_key(|&[kind, row, column, ..]| [column, kind, row]),
        2 => limits.sort_by_key(|&[kind, row, column, ..]| [column, row, kind]),
        3 => limits.rotate_left(count / 2),
        // A high before the last low.
        4 if count > 1 => limits.swap(count / 2 - 1, count / 2),
        5 => limits.iter_mut().for_each(|frame| frame[2] = 0),
        6 => limits.iter_mut().for_each(|frame| frame.swap(1, 2)),
        // A step N in the place of the last one, and steps counted from 1.
        7 => limits.iter_mut().filter(|frame| frame[2] == last_step).for_each(|frame| frame[2] += 1),
        8 => limits.iter_mut().for_each(|frame| frame[2] = frame[2].wrapping_add(1)),
        _ => keep_former(frames),
    }
}

/// A sheet of the former layout, and the draft whose first step's limits it has.
pub fn former_sheet(random: &mut Random) -> (Draft, Vec<u8>) {
    let plan = Plan::nothing();
    let sizes = plan.sizes(random);
    let (draft, mut frames) = frames_of(random, &plan, sizes);
    keep_former(&mut frames);
    (draft, text(&frames))
}

/// Provokes 1 or 4 in the text.
fn spoil_text(random: &mut Random, text: &mut Vec<u8>, number: Number) {
    let lines = text.len() / LINE;
    let at = random.below(text.len().max(1));
    match number {
        1 if text.is_empty() => {}
        1 => match random.below(6) {
            0 => text.truncate(at),
            1 => drop(text.remove(at)),
            2 => text.insert(at, random.pick(b"\r\n 0Fg\0")),
            3 => {
                // The last line may have been cut already.
                let end = (at / LINE * LINE + LINE).min(text.len());
                text[end - 1] = random.pick(b"\r 0A\0");
            }
            4 => drop(text.pop()),
            _ => text[at] = random.pick(b"abfGg/:@`\r\n \0\xB0\xC1x-."),
        },
        4 if random.one_in(2) => text.truncate(LINE * random.below(lines + 1)),
        4 => {
            let line = text[text.len().saturating_sub(LINE)..].to_vec();
            let [table, limit] = [b"0800000000000000000000\n", b"0900000000000000000000\n"];
            let half = &line[..line.len() / 2];
            // The last tail is longer than any sheet.
            let long = &[b'0'; MOST_LINES * LINE + 1];
            let tails: [&[u8]; 10] = [b"\n", b"\0", b"0", b"\r\n", b" ", table, limit, &line, half, long];
            text.extend(random.pick(&tails));
        }
        _ => {}
    }
}

pub fn label_folder(random: &mut Random, index: u64) -> Folder {
    let plan = Plan::new(random, index, &LABEL_NUMBERS);
    let (draft, drive) = sheet_case(random, &plan);
    let problem = draft.problem();
    let state = word_text(random, &problem.state_ranges(), plan.has(13));
    let target = match draft.sizes.targets {
        0 => ignored_text(random),
        _ => Some(word_text(random, &problem.target_ranges(), plan.has(16))),
    };
    let mut folder = Folder { drive: Some(drive), state: Some(state), target };
    match random.below(24) {
        0 => folder.drive = None,
        1 => folder.state = None,
        2 => folder.target = None,
        _ => {}
    }
    folder
}

/// drive.hex, beside files that are of no concern to the page.
pub fn page_folder(random: &mut Random, index: u64) -> Folder {
    let plan = Plan::new(random, index, &PAGE_PROGRAM_NUMBERS);
    let (_, mut sheet) = sheet_case(random, &plan);
    let drive = match random.below(16) {
        0 => None,
        1 => Some(vec![]),
        2 if !sheet.is_empty() => {
            spoil_form(random, &mut sheet);
            Some(sheet)
        }
        _ => Some(sheet),
    };
    Folder { drive, state: ignored_text(random), target: ignored_text(random) }
}

/// state.hex or target.hex. Spoilt are its values, its form, or both.
fn word_text(random: &mut Random, ranges: &[(i64, i64)], spoilt: bool) -> Vec<u8> {
    let (values, form) = random.pick(&[(true, false), (false, true), (true, true)]);
    // A spoilt draft may have a limit below 0, around which there is no value.
    let ranges: Vec<(i64, i64)> = ranges.iter().map(|&(_, high)| (-high.abs(), high.abs())).collect();
    let mut text = (hex(&words_within(random, &ranges, spoilt && values)) + "\n").into_bytes();
    if spoilt && form {
        spoil_form(random, &mut text);
    }
    text
}

fn spoil_form(random: &mut Random, text: &mut Vec<u8>) {
    let at = random.below(text.len());
    match random.below(6) {
        0 => text.truncate(at),
        1 => text.insert(at, random.pick(b"\r\n 0Fg")),
        2 => drop(text.remove(at)),
        3 => text.extend(random.pick(&[&b"\n"[..], b"0", b"00000000\n", b"\0", &[b'0'; 5000]])),
        4 => *text = text.to_ascii_lowercase(),
        _ => text[at] = random.pick(b"abfGg/:@`\r\n \0"),
    }
}

/// A file that nobody is to read, as target.hex with nr 0.
fn ignored_text(random: &mut Random) -> Option<Vec<u8>> {
    let texts: [&[u8]; 7] = [b"", b"\n", b"00000000\n", b"0000000", b"no target\r\n", b"\xFF\0\n", &[b'F'; 5000]];
    random.pick(&[false, true, true]).then(|| random.pick(&texts).to_vec())
}
