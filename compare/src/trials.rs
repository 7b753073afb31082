//! The groups of trials. A trial draws from its own random stream, so that any one can be run alone.

mod ranges;

pub use ranges::edges as range_edges;

use std::cmp::Ordering;
use std::fs::{canonicalize, create_dir_all};
use std::path::Path;
use std::rc::Rc;

use crate::big::Big;
use crate::cases::{self, RangeCase, Rest};
use crate::distance::distance;
use crate::double::{self, Rounding};
use crate::draft::Draft;
use crate::drive::{Call, Kind, Outcome, Reference};
use crate::economies::{self, Tables};
use crate::former::{Former, Without};
use crate::generate::{self, Plan, SolveCase};
use crate::harness::{Harness, Lent};
use crate::image::{
    GAIN, HEADER_WORDS, HIGH, LOW, Number, Problem, STATE_LIMIT, Sizes, TABLES, bytes, products, sizes_of_word_fit,
    top, words,
};
use crate::label;
use crate::made::{ANSWER, COMMON, COUNT, HEADS, IMAGE, IMAGE_ROOM, MADE_LEN, OWN, START, WAITS};
use crate::made::{answer_part, head_part, own_part, start_part};
use crate::optimum::Optimum;
use crate::page::{self, PAGE_LINE};
use crate::process::Program;
use crate::random::Random;
use crate::rest::{self, Courses, MOST_SWEEPS};
use crate::rules::{Rules, Use};
use crate::runs;
use crate::sheet::{self, LINE, MOST_LINES, hex, number_of, unhex};
use crate::solve::{Answer, ErrorBound, Exact, Rounded, answer_len};

type Trial = Box<dyn Fn(&mut Harness, u64, &mut Random)>;

pub struct Group {
    pub name: &'static str,
    pub count: u64,
    trial: Trial,
}

pub fn run(harness: &mut Harness, group: &Group, index: u64) {
    harness.enter(group.name, index);
    (group.trial)(harness, index, &mut Random::of_case(harness.seed, group.name, index));
}

pub fn groups(count: u64, has_conversions: bool, work: &Path) -> Vec<Group> {
    let group = |name, count, trial: fn(&mut Harness, u64, &mut Random)| Group { name, count, trial: Box::new(trial) };
    let [cases, economies] = groups_of_tables();
    let mut groups = vec![
        group("itself", 1, itself),
        cases,
        economies,
        group("damage", damaged_bytes(), damage),
        group("solve", count, solve),
        group("cold_start", count / 4, cold_start),
        group("intake", count, intake),
        group("page", count / 4, page),
        group("demand3", count / 25, demand3),
        group("optimum", count / 25, optimum),
        group("rest", count / 100, rest),
        group("former", count / 50, former),
        group("ranges", count / 6, ranges::trial),
        group("periods", 4 * 256, runs::every_period),
        group("runs", count / 5, runs::trial),
    ];
    if has_conversions {
        let formats = formats().len() as u64;
        groups.push(group("to_word", formats, to_word));
        groups.push(group("inward", formats, inward));
        groups.push(group("to_double", wide_formats().len() as u64, to_double));
    } else {
        println!("skipped: the conversions by themselves, since there is no libprobe.a");
    }
    for program in PROGRAMS {
        match std::env::var_os(program.variable) {
            Some(path) => groups.push(program_group(program, count / 100, Path::new(&path), work)),
            None => println!("skipped: {}, since {} is not set", program.name, program.variable),
        }
    }
    groups
}

/// The cases, and the economies that are to be found on them.
fn groups_of_tables() -> [Group; 2] {
    let right = Reference { rules: Rules::default() };
    let scripts = cases::scripts().into_iter().map(|script| {
        let answers = cases::answers(&right, &script);
        (script, answers)
    });
    let scripts = scripts.collect();
    let (cases, at_rest) = (cases::table(), cases::at_rest());
    let as_ranges = [cases::of_solves(&cases), cases::of_solves(&at_rest)].concat();
    let tables = Rc::new(Tables { cases, at_rest, ranges: cases::ranges(), scripts });
    let solves = tables.cases.len() + tables.at_rest.len();
    let count = solves + tables.ranges.len() + as_ranges.len() + tables.scripts.len();
    let lent = tables.clone();
    let case: Trial = Box::new(move |harness, index, _| case(harness, &lent, &as_ranges, index as usize));
    let economy: Trial = Box::new(move |harness, index, _| economies::run(harness, index, &tables));
    [
        Group { name: "cases", count: count as u64, trial: case },
        Group { name: "economies", count: economies::count(), trial: economy },
    ]
}

/// A case of the tables, then a range solve, those of the cases' states behind the others, then a script.
fn case(harness: &mut Harness, tables: &Tables, as_ranges: &[RangeCase], index: usize) {
    let Tables { cases, at_rest, ranges, scripts } = tables;
    if let Some(case) = cases.iter().chain(at_rest).nth(index) {
        return cases::run(harness, case);
    }
    let index = index - cases.len() - at_rest.len();
    match ranges.iter().chain(as_ranges).nth(index) {
        Some(case) => cases::run_range(harness, case),
        None => cases::run_script(harness, &scripts[index - ranges.len() - as_ranges.len()].0),
    }
}

const PROGRAMS: [Program; 2] = [label::PROGRAM, page::PROGRAM];

fn program_group(program: Program, count: u64, path: &Path, work: &Path) -> Group {
    let path = canonicalize(path).unwrap_or_else(|_| panic!("{} is a program", program.variable));
    let place = work.join(program.name);
    create_dir_all(&place).expect("the folder can be made");
    let (name, count) = (program.name, count + (program.table)().len() as u64);
    let trial = move |harness: &mut Harness, index: u64, random: &mut Random| {
        program.run(harness, &path, &place, index, random);
    };
    Group { name, count, trial: Box::new(trial) }
}

fn solve(harness: &mut Harness, index: u64, random: &mut Random) {
    let plan = Plan::new(random, index, &generate::SOLVE_NUMBERS);
    let SolveCase { draft, image, state, target, start } = generate::solve_case(random, &plan);
    let out_len = generate::answer_len(random, &plan, &draft.sizes);
    harness.compare(&Call::on_buffers(Kind::Solve, &[&image, &state, &target, &start], out_len));
}

fn cold_start(harness: &mut Harness, index: u64, random: &mut Random) {
    let plan = Plan::new(random, index, &generate::COLD_START_NUMBERS);
    let case = generate::solve_case(random, &plan);
    let out_len = generate::out_len(random, &plan, 4 * case.draft.sizes.commands());
    let outcome = harness.compare(&Call::on_buffers(Kind::ColdStart, &[&case.image], out_len));
    let holds = outcome.written.is_none_or(|start| start.iter().all(|&byte| byte == 0));
    harness.check(holds, || "  the cold start is not all zeros".to_string());
}

fn intake(harness: &mut Harness, index: u64, random: &mut Random) {
    let plan = Plan::new(random, index, &generate::INTAKE_NUMBERS);
    let (draft, sheet) = generate::sheet_case(random, &plan);
    let image = draft.image();
    let out_len = generate::out_len(random, &plan, image.len());
    let outcome = harness.compare(&Call::on_buffers(Kind::Intake, &[&sheet], out_len));
    if plan.is_nothing() {
        let holds = outcome.written == Some(image);
        harness.check(holds, || "  the sheet of an accepted problem does not give its image".to_string());
    }
    if let Some(image) = outcome.written {
        check_tables(harness, &sheet, &image);
    }
}

/// Request 7 by whole numbers, on an accepted sheet: every word of a table is within half a count of its double, and
/// even at a tie.
fn check_tables(harness: &mut Harness, sheet: &[u8], image: &[u8]) {
    let (sizes, body) = sizes_and_body(&words(image));
    let numbers = sheet.chunks(LINE).skip(1).map(|line| number_of(&line[6..LINE - 1])).zip(body);
    let mut tables = sizes.places().zip(numbers).filter(|((section, _, _), _)| TABLES.contains(&section.kind));
    let holds = tables.all(|(_, (double, word))| is_nearest(word, double::beside_half(double, word, sizes.bits)));
    harness.check(holds, || "  a table's word is not the nearest".to_string());
}

/// May a double be rounded to the word that is at such a distance?
fn is_nearest(word: i64, beside_half: Ordering) -> bool {
    match beside_half {
        Ordering::Less => true,
        Ordering::Equal => word % 2 == 0,
        Ordering::Greater => false,
    }
}

fn sizes_and_body(words: &[i64]) -> (Sizes, Vec<i64>) {
    let (header, body) = words.split_at(HEADER_WORDS);
    (Sizes::of_words(header).expect("the sizes are right"), body.to_vec())
}

fn page(harness: &mut Harness, index: u64, random: &mut Random) {
    let plan = Plan::new(random, index, &generate::PAGE_NUMBERS);
    let (draft, sheet) = generate::sheet_case(random, &plan);
    let page_len = generate::page_len(random, &plan, &draft.sizes);
    let outcome = harness.compare(&Call::on_buffers(Kind::Page, &[&sheet], page_len));
    if let Some(page) = outcome.written {
        put_back(harness, &sheet, &page);
        let holds = page.chunks(PAGE_LINE).all(holds_zero);
        harness.check(holds, || "  a kept limit keeps a command from zero".to_string());
    }
}

/// Is this no line of a limit, or one whose kept double is zero or on the limit's own side of it?
fn holds_zero(line: &[u8]) -> bool {
    let is_zero = line[page::KEPT].iter().all(|&digit| digit == b'0');
    let is_negative = line[page::KEPT.start] >= b'8';
    match &line[page::KIND] {
        b"04" => is_zero || is_negative,
        b"05" => !is_negative,
        _ => true,
    }
}

/// An accepted sheet with its kept doubles for the given ones: it has the same image, and no number moves again.
fn put_back(harness: &mut Harness, sheet: &[u8], page: &[u8]) {
    let kept = page::sheet_of(&sheet[..LINE], page, page::KEPT);
    let image_len = 4 * (HEADER_WORDS + page.len() / PAGE_LINE);
    let mut image = |sheet: &[u8]| harness.compare(&Call::on_buffers(Kind::Intake, &[sheet], image_len)).written;
    let (old, new) = (image(sheet), image(&kept));
    harness.check(old.is_some() && old == new, || "  the kept doubles have another image".to_string());
    if let Some(image) = old {
        check_tables(harness, sheet, &image);
    }
    let outcome = harness.compare(&Call::on_buffers(Kind::Page, &[&kept], page.len()));
    let settled = |(old, new): (&[u8], &[u8])| {
        new[page::MARK] == b'K' && new[page::GIVEN] == old[page::KEPT] && new[page::KEPT] == old[page::KEPT]
    };
    let again = outcome.written.unwrap_or_default();
    let holds = again.len() == page.len() && page.chunks(PAGE_LINE).zip(again.chunks(PAGE_LINE)).all(settled);
    harness.check(holds, || "  the kept doubles move again".to_string());
}

/// Small problems and their sheets, whose bytes are damaged one by one. The last sheet has ties.
fn victims() -> Vec<(Draft, Vec<u8>)> {
    let drafts =
        [cases::sample(), cases::two_motors(), cases::two_targets(), cases::motors_and_steps(), cases::one_sided()];
    let with_sheet = |draft: Draft| {
        let sheet = draft.sheet();
        (draft, sheet)
    };
    drafts.map(with_sheet).into_iter().chain([cases::with_ties()]).collect()
}

fn damaged_bytes() -> u64 {
    let bytes =
        |(draft, sheet): &(Draft, Vec<u8>)| sheet.len() + draft.image().len() + edge_ranges(draft).len() + MADE_LEN;
    victims().iter().map(|victim| bytes(victim) as u64).sum()
}

/// From the low limit of each state value to a count below the high one.
fn edge_ranges(draft: &Draft) -> Vec<u8> {
    let ranges: Vec<(i64, i64)> =
        draft.problem().state_ranges().into_iter().map(|(low, high)| (low, low.max(high - 1))).collect();
    generate::lent(&ranges)
}

/// Every other value of one byte of a sheet, an image or ranges, and these cut there; and of a made drive.
fn damage(harness: &mut Harness, index: u64, _: &mut Random) {
    let (mut index, victims) = (index as usize, victims());
    for (i, (draft, sheet)) in victims.iter().enumerate() {
        let (image, n) = (draft.image(), draft.sizes.commands());
        if index < sheet.len() {
            for sheet in damaged(sheet, index) {
                harness.compare(&Call::on_buffers(Kind::Intake, &[&sheet], image.len()));
                harness.compare(&Call::on_buffers(Kind::Page, &[&sheet], PAGE_LINE * draft.body.len()));
            }
            return;
        }
        index -= sheet.len();
        if index < image.len() {
            let zeros = |length: usize| vec![0u8; 4 * length];
            let (state, target, start) = (zeros(draft.sizes.states), zeros(draft.sizes.targets), zeros(n));
            let ranges = edge_ranges(draft);
            for image in damaged(&image, index) {
                harness.compare(&Call::on_buffers(Kind::ColdStart, &[&image], 4 * n));
                harness.compare(&Call::on_buffers(Kind::Solve, &[&image, &state, &target, &start], answer_len(n)));
                // Their checks are a solve's: some of the victims are enough.
                if i < 3 {
                    harness.compare(&Call::on_buffers(Kind::RangeSolve, &[&image, &ranges, &target, &start], 8 * n));
                }
            }
            return;
        }
        index -= image.len();
        let ranges = edge_ranges(draft);
        if index < ranges.len() {
            let (target, start) = (vec![0; 4 * draft.sizes.targets], vec![0; 4 * n]);
            for ranges in damaged(&ranges, index) {
                harness.compare(&Call::on_buffers(Kind::RangeSolve, &[&image, &ranges, &target, &start], 8 * n));
            }
            return;
        }
        index -= ranges.len();
        if index < MADE_LEN {
            let (other, _) = &victims[(i + 1) % victims.len()];
            // Two, three or four heads.
            return runs::damage(harness, [draft, other], 2 + i % 3, index);
        }
        index -= MADE_LEN;
    }
}

fn damaged(buffer: &[u8], index: usize) -> Vec<Vec<u8>> {
    let with = |value| [&buffer[..index], &[value], &buffer[index + 1..]].concat();
    (0..=255).map(with).chain([buffer[..index].to_vec()]).collect()
}

/// Demand 3 tried with request 4: every sweep beside the exact scheme, and the drive's answers for fewer sweeps.
fn demand3(harness: &mut Harness, index: u64, random: &mut Random) {
    let SolveCase { mut draft, state, target, start, .. } = generate::solve_case(random, &Plan::nothing());
    if index.is_multiple_of(50) {
        draft.sizes.iterations = 400;
    }
    let (problem, iterations) = (draft.problem(), draft.sizes.iterations);
    let (inputs, start_words) = ([words(&state), words(&target)].concat(), words(&start));
    let mut rounded = Rounded::new(&problem, &inputs, &start_words);
    let mut bound = ErrorBound::new(&problem);
    let mut exact = Exact::new(&problem, &inputs, &start_words);
    harness.check(can_stop(&problem), || format!("  a command can't be zero in image {:?}", draft.body));
    let mut holds = linear_in_range(&problem, &rounded, &inputs) && iterates_in_range(&problem, &rounded);
    for iteration in 1..=iterations {
        holds &= products_in_range(&problem, &rounded);
        rounded.step();
        bound.step();
        exact.step();
        holds &= iterates_in_range(&problem, &rounded) && is_near(&rounded, &bound, &exact);
        holds &= distance_in_range(&problem, &inputs, &rounded.z);
        harness.check(holds, || format!("  demand 3 fails in sweep {iteration} of image {:?}", draft.body));
        // All prefixes of a short run, some of a long one.
        if iteration <= 8 || iteration == iterations || random.one_in(iterations / 8 + 1) {
            let image = draft.clone().iterations(iteration).image();
            let call = Call::on_buffers(Kind::Solve, &[&image, &state, &target, &start], answer_len(start_words.len()));
            let outcome = harness.compare(&call);
            let prefix = Some(Answer::new(&problem, &inputs, &rounded.z, &bound.e).bytes());
            harness.check(outcome.written == prefix, || format!("  no prefix: {iteration} sweeps"));
        }
    }
}

/// Request 8 on every sweep: D beside the optimum in fractions, in turn of few commands and of any number of which few
/// are coupled, and the drive's D for fewer sweeps.
fn optimum(harness: &mut Harness, index: u64, random: &mut Random) {
    let few = !index.is_multiple_of(4);
    let draw = || {
        let plan = Plan::nothing();
        if few { generate::few_case(random, &plan) } else { generate::solve_case(random, &plan) }
    };
    let case = first(draw, |case| Optimum::new(&case.draft.problem(), &case.inputs()).is_some());
    let (problem, inputs, start) = (case.draft.problem(), case.inputs(), words(&case.start));
    let optimum = Optimum::new(&problem, &inputs).expect("few commands are coupled");
    harness.check(optimum.is_whole(), || format!("  there is no optimum for image {:?}", case.draft.body));
    let mut rounded = Rounded::new(&problem, &inputs, &start);
    let iterations = case.draft.sizes.iterations;
    for iteration in 1..=iterations {
        rounded.step();
        let distance = distance(&problem, &inputs, &rounded.z);
        let holds =
            optimum.is_near(&rounded.z, distance) && (distance == 0) == optimum.is_at(&rounded.z) && distance < 1 << 52;
        harness.check(holds, || format!("  D is {distance} after {iteration} sweeps of image {:?}", case.draft.body));
        harness.meet_edges(optimum.edges(&rounded.z, distance));
        if iteration <= 4 || iteration == iterations {
            let image = case.draft.clone().iterations(iteration).image();
            let lent: [&[u8]; 4] = [&image, &case.state, &case.target, &case.start];
            let written = harness.compare(&Call::on_buffers(Kind::Solve, &lent, answer_len(start.len()))).written;
            let holds = written.is_some_and(|answer| answer.ends_with(&distance.to_be_bytes()));
            harness.check(holds, || format!("  another D after {iteration} sweeps: {distance}"));
        }
    }
}

/// Sweeps about the moments at which commands and bounds come to rest: from the start that is drawn, from where that
/// solve ends, and with one command of that moved.
fn rest(harness: &mut Harness, _: u64, random: &mut Random) {
    let case = generate::solve_case(random, &Plan::nothing());
    let end = about_rest(harness, &case, &words(&case.start));
    about_rest(harness, &case, &end);
    let (problem, k) = (case.draft.problem(), random.below(end.len()));
    let mut moved = end;
    moved[k] = random.pick(&[moved[k] - 1, moved[k] + 1, 0]).clamp(problem.lower[k], problem.upper[k]);
    about_rest(harness, &case, &moved);
}

/// Returns the commands after the most sweeps.
fn about_rest(harness: &mut Harness, case: &SolveCase, start: &[i64]) -> Vec<i64> {
    let SolveCase { draft, state, target, .. } = case;
    let (problem, inputs) = (draft.problem(), [words(state), words(target)].concat());
    let courses = Courses::new(&problem, &inputs, start);
    harness.check(courses.stay(), || format!("  what was at rest moves again: {:?}", draft.body));
    courses.edges().for_each(|edge| harness.meet_edge(edge));
    for sweeps in rest::about(courses.moments()) {
        let image = draft.clone().iterations(sweeps).image();
        let call = Call::on_buffers(Kind::Solve, &[&image, state, target, &bytes(start)], answer_len(start.len()));
        let written = harness.compare(&call).written;
        let [commands, bounds] = courses.answer(sweeps);
        let answer = Some(Answer::new(&problem, &inputs, commands, bounds).bytes());
        harness.check(written == answer, || format!("  another answer than after {sweeps} of more sweeps"));
    }
    let [commands, _] = &courses.commands[MOST_SWEEPS];
    commands.clone()
}

/// By request 6 zero is within the limits; so w is not below zb, and Y not below P.
fn can_stop(problem: &Problem) -> bool {
    (0..problem.sizes.commands()).all(|k| {
        let (low, high) = (problem.lower[k], problem.upper[k]);
        let (p, y) = problem.command_bounds(k);
        (low..=high).contains(&0) && high - low >= low.abs().max(high.abs()) && p <= y
    })
}

fn in_word(problem: &Problem, value: i64) -> bool {
    value.abs() <= problem.sizes.top()
}

/// Are all sums of neighbouring terms within signed 64 bits?
fn sums_in_range(mut terms: impl Iterator<Item = i128>) -> bool {
    // The least and the largest sum that ends with the term.
    let (mut least, mut largest) = (0, 0);
    terms.all(|term| {
        least = term + least.min(0);
        largest = term + largest.max(0);
        i64::try_from(least).is_ok() && i64::try_from(largest).is_ok()
    })
}

/// The rows of h: a running sum may reach from the products of the state to those of the target.
fn linear_in_range(problem: &Problem, rounded: &Rounded, inputs: &[i64]) -> bool {
    problem.gains.rows().all(|row| sums_in_range(products(row, inputs)))
        && rounded.linear.iter().all(|&h| in_word(problem, h))
}

/// The rows of M y and the product of the old commands in a sweep about to be made.
fn products_in_range(problem: &Problem, rounded: &Rounded) -> bool {
    let row = |row| sums_in_range(products(row, &rounded.y)) && in_word(problem, rounded.sum(row, &rounded.y));
    let old = |&z: &i64| in_word(problem, rounded.product(problem.momentum, z));
    problem.descent.rows().all(row) && rounded.z.iter().all(old)
}

/// The iterates that a sweep left, with the product of its new commands.
fn iterates_in_range(problem: &Problem, rounded: &Rounded) -> bool {
    let factor = problem.sizes.one() + problem.momentum;
    (0..rounded.z.len()).all(|k| {
        let (t, z, y) = (rounded.t[k], rounded.z[k], rounded.y[k]);
        let values = [t, z, y, rounded.product(factor, z)];
        (problem.lower[k]..=problem.upper[k]).contains(&z) && values.iter().all(|&value| in_word(problem, value))
    })
}

/// The sums of D: F z, less the products of H z, less those of G.
fn distance_in_range(problem: &Problem, inputs: &[i64], commands: &[i64]) -> bool {
    let one = i128::from(problem.sizes.one());
    (0..commands.len()).all(|k| {
        let own = one * i128::from(commands[k]);
        let taken = products(&problem.cost[k], commands).chain(products(&problem.gains[k], inputs));
        sums_in_range([own].into_iter().chain(taken.map(|product| -product)))
    })
}

fn is_near(rounded: &Rounded, bound: &ErrorBound, exact: &Exact) -> bool {
    (0..rounded.z.len()).all(|k| exact.is_near(k, rounded.z[k], bound.e[k]))
}

/// Requests 3, 4, 6, 7 and 8, each beside the drive that lacks it alone.
fn former(harness: &mut Harness, index: u64, random: &mut Random) {
    one_step(harness, index, random);
    former_layout(harness, random);
    same_limits(harness, index, random);
    let plan = nothing_or_table(index, random);
    rounded_terms(harness, &generate::solve_case(random, &plan));
    rounded_terms(harness, &generate::single_case(random, &plan));
    stopped_sheet(harness, index, random);
    stopped_image(harness, index, random);
    rounded_tables(harness, index, random);
    added_distance(harness, index, random);
}

/// In turn nothing, and a number of the tables.
fn nothing_or_table(index: u64, random: &mut Random) -> Plan {
    let number = random.pick(&generate::TABLE_NUMBERS);
    if index.is_multiple_of(2) { Plan::nothing() } else { Plan::only(number) }
}

/// A sheet with N 1, accepted or not, reads as before.
fn one_step(harness: &mut Harness, index: u64, random: &mut Random) {
    let plan = Plan::new(random, index, &generate::INTAKE_NUMBERS);
    let (draft, sheet) = first(|| generate::sheet_case(random, &plan), |(draft, _)| draft.sizes.steps == 1);
    // Damage may have changed N.
    if sheet.get(4..6).is_some_and(|steps| steps != b"01") {
        return;
    }
    let former = Former::read(&sheet, Without::Request3).and_then(Former::accepted);
    for (kind, out_len) in [(Kind::Intake, draft.image().len()), (Kind::Page, PAGE_LINE * draft.body.len())] {
        let expected = former.as_ref().map(|former| former_output(former, kind)).map_err(|&number| number);
        let found = result(harness.compare(&Call::on_buffers(kind, &[&sheet], out_len)));
        harness.check(found == expected, || format!("  {}: N 1 does not read as before: {expected:?}", kind.name()));
    }
}

fn result(outcome: Outcome) -> Result<Vec<u8>, Number> {
    outcome.written.ok_or(outcome.number)
}

/// The image, or the page, of the sheet that it was read from.
fn former_output(former: &Former, kind: Kind) -> Vec<u8> {
    if kind == Kind::Page { former.page.clone().into_bytes() } else { bytes(&former.words) }
}

/// A sheet that was accepted with N above 1 is 2 now, and its image has not the length due.
fn former_layout(harness: &mut Harness, random: &mut Random) {
    let (draft, sheet, former) = loop {
        let (draft, sheet) = generate::former_sheet(random);
        let former = Former::read(&sheet, Without::Request3).and_then(Former::accepted);
        if let (2.., Ok(former)) = (draft.sizes.steps, former) {
            break (draft, sheet, former);
        }
    };
    let image = bytes(&former.words);
    let (n, zeros) = (draft.sizes.commands(), |length: usize| vec![0; 4 * length]);
    let (state, target) = (zeros(draft.sizes.states), zeros(draft.sizes.targets));
    let mut refused = |kind, lent: &[&[u8]], out_len, number| {
        let outcome = harness.compare(&Call::on_buffers(kind, lent, out_len));
        harness.check(outcome.number == number, || format!("  the former layout is not {number}"));
    };
    for (image_len, lines) in
        [(image.len(), former.words.len() - HEADER_WORDS), (draft.image().len(), draft.body.len())]
    {
        refused(Kind::Intake, &[&sheet], image_len, 2);
        refused(Kind::Page, &[&sheet], PAGE_LINE * lines, 2);
    }
    refused(Kind::ColdStart, &[&image], 4 * n, 6);
    refused(Kind::Solve, &[&image, &state, &target, &zeros(n)], answer_len(n), 6);
}

/// Where all steps of a motor have the same limits, as with N 1, number and answer are the former ones.
fn same_limits(harness: &mut Harness, index: u64, random: &mut Random) {
    let plan = nothing_or_table(index, random);
    let case = first(|| generate::solve_case(random, &plan), |case| !case.draft.problem().limits_change());
    let expected = former_answer(&case, Former::new(case.draft.former_words(), Without::Request3));
    let found = answer(harness, &case);
    harness.check(found == expected, || format!("  the drive without request 3 answered {expected:?}"));
}

fn answer(harness: &mut Harness, case: &SolveCase) -> Result<Vec<u8>, Number> {
    let lent: [&[u8]; 4] = [&case.image, &case.state, &case.target, &case.start];
    result(harness.compare(&Call::on_buffers(Kind::Solve, &lent, answer_len(case.draft.sizes.commands()))))
}

fn former_answer(case: &SolveCase, former: Former) -> Result<Vec<u8>, Number> {
    former.accepted()?.solve([&case.state, &case.target, &case.start])
}

/// What request 4 changes, and a run has to meet.
pub const CHANGES: [&str; 3] = [
    "accepted, 12 before request 4",
    "accepted, other commands before request 4",
    "accepted, larger bounds before request 4",
];

/// Request 4 beside the drive without it. Where every sum has one term, nothing changes.
fn rounded_terms(harness: &mut Harness, case: &SolveCase) {
    let former = former_answer(case, Former::new(case.draft.words(), Without::Request4));
    let found = answer(harness, case);
    let Sizes { states, targets, .. } = case.draft.sizes;
    let single = case.draft.sizes.commands() == 1 && states + targets == 1;
    let holds = former == found || !single && is_change(harness, &former, &found);
    harness.check(holds, || format!("  not a change of request 4: without it the drive answered {former:?}"));
}

/// What was accepted still is, no bound is larger, and of the numbers 12 alone may go.
fn is_change(harness: &mut Harness, former: &Result<Vec<u8>, Number>, found: &Result<Vec<u8>, Number>) -> bool {
    let [refused, commands, bounds] = CHANGES;
    match (former, found) {
        (Err(12), Ok(_)) => {
            harness.meet_edge(refused);
            true
        }
        (Ok(former), Ok(found)) => {
            let ((old_z, old_e), (new_z, new_e)) = (halves(former), halves(found));
            for (change, met) in [(commands, old_z != new_z), (bounds, old_e != new_e)] {
                if met {
                    harness.meet_edge(change);
                }
            }
            new_e.iter().zip(old_e).all(|(&new, old)| new <= old)
        }
        _ => false,
    }
}

/// The numbers of solves before request 6 that are 17 where a command can't be zero, all of which a run has to meet.
pub const STOPPED: [(Number, &str); 10] = [
    (0, "17, accepted before request 6"),
    (8, "17, 8 before request 6"),
    (9, "17, 9 before request 6"),
    (10, "17, 10 before request 6"),
    (11, "17, 11 before request 6"),
    (12, "17, 12 before request 6"),
    (13, "17, 13 before request 6"),
    (14, "17, 14 before request 6"),
    (15, "17, 15 before request 6"),
    (16, "17, 16 before request 6"),
];

/// Request 6 beside the drive without it, on sheets.
fn stopped_sheet(harness: &mut Harness, index: u64, random: &mut Random) {
    let plan = Plan::with_stop(random, index, &generate::INTAKE_NUMBERS);
    let (draft, sheet) = generate::sheet_case(random, &plan);
    let former = Former::read(&sheet, Without::Request6);
    let image_len = generate::out_len(random, &plan, draft.image().len());
    let page_len = generate::page_len(random, &plan, &draft.sizes);
    for (kind, out_len) in [(Kind::Intake, image_len), (Kind::Page, page_len)] {
        let call = Call::on_buffers(kind, &[&sheet], out_len);
        stopped(harness, &call, &former, |former| Ok(former_output(former, kind)));
    }
}

/// The same on images.
fn stopped_image(harness: &mut Harness, index: u64, random: &mut Random) {
    let plan = Plan::with_stop(random, index, &generate::SOLVE_NUMBERS);
    let SolveCase { draft, image, state, target, start } = generate::solve_case(random, &plan);
    let former = Former::open(&image, Without::Request6);
    let start_len = generate::out_len(random, &plan, 4 * draft.sizes.commands());
    let answer_len = generate::answer_len(random, &plan, &draft.sizes);
    let call = Call::on_buffers(Kind::ColdStart, &[&image], start_len);
    stopped(harness, &call, &former, |former| Ok(bytes(&former.cold_start())));
    let call = Call::on_buffers(Kind::Solve, &[&image, &state, &target, &start], answer_len);
    stopped(harness, &call, &former, |former| former.solve([&state, &target, &start]));
}

/// What a call answered before, the length of its buffer included.
fn before(
    former: &Result<Former, Number>,
    out_len: usize,
    answer: impl Fn(&Former) -> Result<Vec<u8>, Number>,
) -> Result<Vec<u8>, Number> {
    let former = former.as_ref().map_err(|&number| number)?;
    match former.number() {
        0 => answer(former).and_then(|written| if written.len() == out_len { Ok(written) } else { Err(15) }),
        number => Err(number),
    }
}

/// Where every command can be zero, a call answers as before; elsewhere numbers up to 7 stay, and all else is 17.
fn stopped(
    harness: &mut Harness,
    call: &Call,
    former: &Result<Former, Number>,
    answer: impl Fn(&Former) -> Result<Vec<u8>, Number>,
) {
    let before = before(former, call.out_len, answer);
    let is_stopped = !matches!(before, Err(..=7)) && former.as_ref().is_ok_and(|former| !former.can_stop());
    let number = before.as_ref().err().copied().unwrap_or(0);
    if let (true, Kind::Solve, Some((_, edge))) = (is_stopped, call.kind, STOPPED.iter().find(|s| s.0 == number)) {
        harness.meet_edge(edge);
    }
    let expected = if is_stopped { Err(17) } else { before };
    let found = result(harness.compare(call));
    harness.check(found == expected, || format!("  by the drive without request 6 it is {expected:?}"));
}

/// The numbers of sheets before request 7 and with it, of those that a run has to meet.
pub const ROUNDED: [(Number, Number, &str); 10] = [
    (0, 0, "accepted, other tables before request 7"),
    (5, 0, "accepted, 5 before request 7"),
    (8, 0, "accepted, 8 before request 7"),
    (9, 0, "accepted, 9 before request 7"),
    (10, 0, "accepted, 10 before request 7"),
    (11, 0, "accepted, 11 before request 7"),
    (12, 0, "accepted, 12 before request 7"),
    (0, 5, "5, accepted before request 7"),
    (0, 10, "10, accepted before request 7"),
    (0, 12, "12, accepted before request 7"),
];

/// Request 7 beside the drive without it: in turn sheets with whole counts in their tables, and any.
fn rounded_tables(harness: &mut Harness, index: u64, random: &mut Random) {
    let plan = Plan::new(random, index / 2, &generate::INTAKE_NUMBERS);
    let (draft, sheet) = generate::sheet_case(random, &plan);
    let image_len = generate::out_len(random, &plan, draft.image().len());
    let page_len = generate::page_len(random, &plan, &draft.sizes);
    match index % 2 {
        0 => whole_tables(harness, &with_whole_tables(&sheet), [image_len, page_len]),
        _ => moved_tables(harness, &sheet, image_len),
    }
    for plan in [5, 8, 9, 10, 11, 12].map(Plan::only).into_iter().chain([Plan::nothing()]) {
        let (draft, sheet) = generate::small_sheet(random, &plan);
        moved_tables(harness, &sheet, draft.image().len());
    }
}

/// The sheet with each number of a table rounded down to a whole count.
fn with_whole_tables(sheet: &[u8]) -> Vec<u8> {
    let Ok(sizes) = sheet::sizes_of(sheet) else {
        return sheet.to_vec();
    };
    let one = sizes.one() as f64;
    let whole = |line: &[u8]| {
        let frame = unhex(line.strip_suffix(b"\n").filter(|digits| digits.len() == LINE - 1)?)?;
        let double = f64::from_be_bytes(frame[3..].try_into().unwrap());
        let count = (double * one).floor() / one;
        TABLES.contains(&frame[0]).then(|| [&line[..6], hex(&count.to_be_bytes()).as_bytes(), b"\n"].concat())
    };
    sheet.chunks(LINE).flat_map(|line| whole(line).unwrap_or(line.to_vec())).collect()
}

/// With whole counts in the tables number, image, page and answer are as before.
fn whole_tables(harness: &mut Harness, sheet: &[u8], lengths: [usize; 2]) {
    let former = Former::read(sheet, Without::Request7);
    for (kind, out_len) in [Kind::Intake, Kind::Page].into_iter().zip(lengths) {
        let expected = before(&former, out_len, |former| Ok(former_output(former, kind)));
        let found = result(harness.compare(&Call::on_buffers(kind, &[sheet], out_len)));
        harness.check(found == expected, || format!("  by the drive without request 7 it is {expected:?}"));
    }
    let Ok(former) = former.and_then(Former::accepted) else {
        return;
    };
    let (sizes, body) = sizes_and_body(&former.words);
    let problem = Problem::new(sizes, &body, Rules::default());
    let highs = |ranges: Vec<(i64, i64)>| bytes(&ranges.iter().map(|range| range.1).collect::<Vec<i64>>());
    let (state, target) = (highs(problem.state_ranges()), highs(problem.target_ranges()));
    let start = highs(problem.command_ranges(Use::Start));
    let expected = former.solve([&state, &target, &start]);
    let lent: [&[u8]; 4] = [&bytes(&former.words), &state, &target, &start];
    let found = result(harness.compare(&Call::on_buffers(Kind::Solve, &lent, answer_len(sizes.commands()))));
    harness.check(found == expected, || format!("  the drive without request 7 answered {expected:?}"));
}

/// With any counts the numbers from 1 to 7 and 17 stay, unless 5 comes or goes; and in an accepted sheet whose lines the
/// former drive takes too, a table's word is the former one or one more, and all other words are the same.
fn moved_tables(harness: &mut Harness, sheet: &[u8], image_len: usize) {
    let former = Former::read(sheet, Without::Request7);
    let old = before(&former, image_len, |former| Ok(bytes(&former.words)));
    let new = result(harness.compare(&Call::on_buffers(Kind::Intake, &[sheet], image_len)));
    let [was, now] = [&old, &new].map(|result| result.as_ref().err().copied().unwrap_or(0));
    let by_tables = |number| matches!(number, 0 | 8..=12 | 15);
    let mut holds = was == now || was == 5 || now == 5 || by_tables(was) && by_tables(now);
    if let (Ok(former), Ok(image)) = (&former, &new) {
        holds &= are_moved(&former.words, &words(image));
    }
    let met = ROUNDED.into_iter().find(|edge| (edge.0, edge.1) == (was, now));
    if let Some((_, _, edge)) = met.filter(|_| old != new) {
        harness.meet_edge(edge);
    }
    harness.check(holds, || format!("  not a change of request 7: without it it was {old:?}"));
}

/// Request 8 beside the drive without it: with D's 8 bytes more a buffer has the same number, commands and bounds, and
/// the former length is 15 where that drive took it.
fn added_distance(harness: &mut Harness, index: u64, random: &mut Random) {
    let plan = Plan::new(random, index, &generate::SOLVE_NUMBERS);
    let case = generate::solve_case(random, &plan);
    let out_len = generate::out_len(random, &plan, 8 * case.draft.sizes.commands());
    let former = Former::open(&case.image, Without::Request8);
    let expected = before(&former, out_len, |former| former.solve([&case.state, &case.target, &case.start]));
    let lent: [&[u8]; 4] = [&case.image, &case.state, &case.target, &case.start];
    let mut found = |out_len| result(harness.compare(&Call::on_buffers(Kind::Solve, &lent, out_len)));
    let with_distance = found(out_len + 8).map(|answer| answer[..out_len].to_vec());
    let short = found(out_len).err();
    // A length that the former drive refused may be right now.
    let short_holds = match expected {
        Ok(_) => short == Some(15),
        Err(15) => true,
        Err(number) => short == Some(number),
    };
    let holds = with_distance == expected && short_holds;
    harness.check(holds, || format!("  the drive without request 8 answered {expected:?}"));
}

fn are_moved(old: &[i64], new: &[i64]) -> bool {
    let (sizes, body) = sizes_and_body(new);
    let (header, old_body) = old.split_at(HEADER_WORDS);
    let mut pairs = sizes.places().zip(old_body.iter().zip(&body));
    header == sizes.words()
        && old_body.len() == body.len()
        && pairs.all(|((section, _, _), (old, new))| new == old || TABLES.contains(&section.kind) && *new == old + 1)
}

/// The commands' words, and the bounds, which are unsigned.
fn halves(answer: &[u8]) -> (Vec<u32>, Vec<u32>) {
    let (words_of_both, _) = answer.split_at(answer.len() - 8);
    let mut commands: Vec<u32> = words(words_of_both).iter().map(|&word| word as u32).collect();
    let bounds = commands.split_off(commands.len() / 2);
    (commands, bounds)
}

/// The first draw that is fit.
fn first<T>(draw: impl FnMut() -> T, fit: impl FnMut(&T) -> bool) -> T {
    std::iter::repeat_with(draw).find(fit).expect("draws do not end")
}

/// All b and W that fit each other.
fn formats() -> Vec<(u32, u32)> {
    let pairs = (4..=20).flat_map(|b| (8..=32).map(move |w| (b, w)));
    pairs.filter(|&(b, w)| sizes_of_word_fit(b as i64, w as i64)).collect()
}

/// Those and many that do not.
fn wide_formats() -> Vec<(u32, u32)> {
    let with_extremes = |most: u32| (0..=most).chain([255, 256 + 4, 1 << 31, u32::MAX]);
    with_extremes(24).flat_map(|b| with_extremes(36).map(move |w| (b, w))).collect()
}

/// A double of any bits, one near a word, or one at a tie or beside it.
fn any_double(random: &mut Random, b: u32, w: u32) -> u64 {
    let bits = random.next();
    let tie = double::of_count(2 * random.magnitude(top(w) + 1) * random.sign() + 1, b + 1);
    let beside = generate::beside(tie, random.sign());
    let (b, w) = (b as i64, w as i64);
    let exponent = (1023 + random.between(-b - 4, w - b + 2)) as u64;
    random.pick(&[bits, bits & !(0x7FF << 52) | exponent << 52, tie, beside])
}

fn doubles(random: &mut Random, b: u32, w: u32) -> Vec<u64> {
    let mut doubles = generate::edge_doubles(b, w);
    doubles.extend((0..200).map(|_| any_double(random, b, w)));
    doubles
}

fn to_word(harness: &mut Harness, index: u64, random: &mut Random) {
    let (b, w) = formats()[index as usize];
    for bits in doubles(random, b, w) {
        // Down, up, and with every other number to the nearest.
        for how in [0, 1, 2, 3, u32::MAX] {
            harness.compare(&Call::on_numbers(Kind::ToWord, &[bits, b as u64, w as u64, how as u64]));
        }
    }
}

fn inward(harness: &mut Harness, index: u64, random: &mut Random) {
    let (b, w) = formats()[index as usize];
    let doubles = doubles(random, b, w);
    for &low in &doubles {
        let high = random.pick(&doubles);
        harness.compare(&Call::on_numbers(Kind::Inward, &[low, high, b as u64, w as u64]));
    }
}

fn to_double(harness: &mut Harness, index: u64, random: &mut Random) {
    let (b, w) = wide_formats()[index as usize];
    let top = top(w.clamp(8, 32));
    let mut values = vec![0, i64::MIN, i64::MAX, 1 << 32, -1 << 32, (1 << 32) + 1];
    for value in [1, top - 1, top, top + 1, 2 * top + 1, (1 << 31) - 1, 1 << 31] {
        values.extend([value, -value]);
    }
    values.extend((0..40).map(|_| random.magnitude(top) * random.sign()));
    for value in values {
        harness.compare(&Call::on_numbers(Kind::ToDouble, &[value as u64, b as u64, w as u64]));
    }
}

/// This program's own parts, where a fault could hide one of the drive.
fn itself(harness: &mut Harness, _: u64, random: &mut Random) {
    big_agrees(harness, random);
    conversions_agree(harness, random);
    nearest_agrees(harness, random);
    signs_agree(harness, random);
    sample_agrees(harness);
    programs_agree(harness);
    marks_agree(harness, random);
    targets_agree(harness);
    steps_agree(harness);
    running_sums_agree(harness);
    former_agrees(harness);
    without_stop_agrees(harness);
    without_nearest_agrees(harness);
    without_distance_agrees(harness);
    optimum_agrees(harness);
    rests_agree(harness);
    parts_agree(harness);
    economies::right_drives_agree(harness);
    let mut lent = Lent::new(&[1, 2, 3]);
    harness.check(lent.guards_hold(), || "  a guard does not hold by itself".to_string());
    lent.write_beside();
    harness.check(!lent.guards_hold(), || "  a write beside a buffer is not found".to_string());
}

/// Sums from −2^63 to 2^63 − 1 are within 64 bits, and one beyond is found wherever it begins and ends.
fn running_sums_agree(harness: &mut Harness) {
    let half = 1i128 << 62;
    let within: [&[i128]; 3] = [&[half, half - 1, -2 * half], &[-half, -half, half], &[2 * half - 1, -2 * half]];
    let beyond: [&[i128]; 4] =
        [&[-half, half, half, -half], &[half, -half, -half, -1], &[2 * half], &[1, -2 * half - 1]];
    let in_range = |terms: &&[i128]| sums_in_range(terms.iter().copied());
    let holds = within.iter().all(in_range) && !beyond.iter().any(in_range);
    harness.check(holds, || "  the test of running sums does not tell them apart".to_string());
}

/// The cases that come to rest do so at the sweep that their table says, and then stay there.
fn rests_agree(harness: &mut Harness) {
    for Rest { name, draft, state, start, moments, last, .. } in cases::rests() {
        let courses = Courses::new(&draft.problem(), &state, &start);
        let (found, answer) = (courses.moments(), courses.answer(MOST_SWEEPS).concat());
        let holds = found == moments && answer == last && courses.stay();
        harness.check(holds, || format!("  {name}: at rest in {found:?}, and at last {answer:?}"));
    }
}

/// A made drive has room for the image and for each head's start and answer of the largest sizes, then a word each for
/// the number of heads, the common sweeps and each head's own, and no byte more.
fn parts_agree(harness: &mut Harness) {
    let sizes = Sizes { motors: 4, steps: 4, states: 12, targets: 4, ..cases::sample().sizes };
    let head = |head: usize| {
        START[head] == WAITS[head] + 4
            && ANSWER[head] == start_part(head, &sizes).end
            && head_part(head) == (WAITS[head]..answer_part(head, &sizes).end)
    };
    let heads: Vec<usize> = (0..HEADS).map(|head| head_part(head).end).collect();
    let owns: Vec<usize> = (0..HEADS).map(|head| own_part(head).end).collect();
    let holds = IMAGE_ROOM == (IMAGE..IMAGE + sizes.image_bytes())
        && (IMAGE_ROOM.end, heads) == (WAITS[0], [&WAITS[1..], &[COUNT]].concat())
        && (COUNT + 4, COMMON + 4, owns) == (COMMON, OWN[0], [&OWN[1..], &[MADE_LEN]].concat())
        && (0..HEADS).all(head);
    harness.check(holds, || "  the parts of a made drive do not follow each other".to_string());
}

/// The drive without request 4 on coupled steps: −8 + 0 − 10 for −7.5 and 0.75, and c 2. Y is 3 and 2, and the terms of
/// A are 2 for 1.5 and 1 for 0.5.
fn former_agrees(harness: &mut Harness) {
    let former = |draft: Draft| Former::new(draft.words(), Without::Request4);
    let coupled = former(cases::coupled([(-20, 20), (-2, 5)]).iterations(2));
    let halves = |limit: i64| former(cases::coupled([(0, 2), (0, 1)]).with(GAIN, &[16, 0]).with(STATE_LIMIT, &[limit]));
    let holds =
        coupled.answer(&[10], &[0, 0]) == [-18, -2, 5, 5] && [124, 125].map(|limit| halves(limit).number()) == [0, 12];
    harness.check(holds, || "  the drive without request 4 is another".to_string());
}

/// The drive without request 6 where zero is outside a step, from its cold start (0, 8). h = 0: −32 / 16; 64 / 16, held,
/// as all that follow at step 1. y = (−3, 12 − 4): (−24 − 32) / 16 = −3.5 is −4. y = (−6 + 1, 8): (−40 − 32) / 16 = −4.5
/// is −5. y = (−8 + 2, 8), −8 for −7.5: (−48 − 32) / 16. w is 4 at step 1. q: 3, 3; 8, 8; 14 and 4 + 4 + 1. e: 1; 4; 7,
/// and at step 1 w; (112 + 36) / 16 = 9.25 is 10, 10 + 1, and w.
fn without_stop_agrees(harness: &mut Harness) {
    let draft = cases::coupled([(-20, 20), (8, 12)]).iterations(4);
    let [sheet, image] =
        [Former::read(&draft.sheet(), Without::Request6), Former::open(&draft.image(), Without::Request6)]
            .map(|former| former.and_then(Former::accepted).expect("it was accepted"));
    let holds = sheet.words == image.words
        && !image.can_stop()
        && image.cold_start() == [0, 8]
        && image.answer(&[0], &[0, 8]) == [-5, 8, 11, 4];
    harness.check(holds, || "  the drive without request 6 is another".to_string());
}

/// The drive without request 7 on S: half a count below zero in Φ is −1, 127.5 counts are 127, and −127.25 are 5.
fn without_nearest_agrees(harness: &mut Harness) {
    let read = |double: &str| {
        let sheet = cases::SAMPLE.replace("3FF0000000000000", double);
        let former = Former::read(sheet.as_bytes(), Without::Request7)?;
        Ok((former.words[9], former.page.lines().nth(1).unwrap_or_default().to_string()))
    };
    let line = |doubles: &str| format!("03 0000 {doubles} M");
    let holds = read("BFA0000000000000") == Ok((-1, line("BFA0000000000000 BFB0000000000000")))
        && read("401FE00000000000") == Ok((127, line("401FE00000000000 401FC00000000000")))
        && read("C01FD00000000000") == Err(5u32);
    harness.check(holds, || "  the drive without request 7 is another".to_string());
}

/// The drive without request 8: S has 8 bytes, which D follows in the others, and the label program's lines begin with
/// its words.
fn without_distance_agrees(harness: &mut Harness) {
    let solve = |without| {
        let former = Former::new(cases::sample().words(), without);
        former.solve([&bytes(&[10]), &[], &bytes(&[0])])
    };
    let holds =
        solve(Without::Request8) == Ok(bytes(&[-18, 3])) && solve(Without::Request7) == Ok(bytes(&[-18, 3, 0, 2]));
    harness.check(holds, || "  the drive without request 8 is another".to_string());
    for (folder, text) in (label::PROGRAM.table)() {
        let Ok(solved) = label::solve(&folder) else {
            continue;
        };
        let former = Former::read(folder.contents()[0], Without::Request8).expect("the sheet is accepted");
        let n = solved.answer.commands.len();
        let answer = former.answer(&solved.inputs, &vec![0; n]);
        let begins = |(k, line): (usize, &str)| {
            let former = format!("{:08X} {:08X} ", answer[k] as u32, answer[n + k]);
            line.strip_prefix(&former).is_some_and(|digits| matches!(digits.len(), 8 | 16))
        };
        let holds = text.lines().count() == n && text.lines().enumerate().all(begins);
        harness.check(holds, || format!("  not the former lines with D behind them: {text:?}"));
    }
}

/// Commands with the least D that covers their distance from the optimum. That of S is −20, with Φ 15 it is −18.75, and
/// with limits −1 and 1 it is −1. That of the coupled steps is (−19, −2), or with wide limits −40 / 3 twice.
fn optimum_agrees(harness: &mut Harness) {
    let s = cases::sample;
    let (fraction, narrow) = (s().with(GAIN, &[15]), s().with(LOW, &[-1]).with(HIGH, &[1]));
    let (coupled, wide) = (cases::coupled([(-20, 20), (-2, 5)]), cases::coupled([(-20, 20); 2]));
    let table: [(&Draft, &[i64], u64); 12] = [
        (&s(), &[-20], 0),
        (&s(), &[-18], 2),
        (&fraction, &[-18], 1),
        (&fraction, &[-19], 1),
        (&fraction, &[-10], 9),
        (&narrow, &[-1], 0),
        (&narrow, &[1], 2),
        (&coupled, &[-19, -2], 0),
        (&coupled, &[-19, 0], 2),
        (&wide, &[-13, -14], 1),
        (&wide, &[-13, -10], 4),
        (&cases::one_sided(), &[0, -20, 0], 0),
    ];
    for (draft, commands, least) in table {
        let problem = draft.problem();
        let optimum = Optimum::new(&problem, &[10]).expect("few commands are coupled");
        let covers = |distance: u64| optimum.is_near(commands, distance);
        let holds =
            optimum.is_whole() && covers(least) && !(0..least).any(covers) && optimum.is_at(commands) == (least == 0);
        harness.check(holds, || format!("  {commands:?} are not {least} from the optimum"));
    }
}

/// Big numbers beside 128-bit ones.
fn big_agrees(harness: &mut Harness, random: &mut Random) {
    for _ in 0..1000 {
        let [a, b, c, d] = [0; 4].map(|_| random.magnitude(1 << 41) * random.sign());
        let mut sum = Big::new(a).times(b);
        sum.add_product(&Big::new(c), d);
        let whole = a as i128 * b as i128 + c as i128 * d as i128;
        let (high, low) = ((whole >> 62) as i64, (whole & ((1 << 62) - 1)) as i64);
        let mut expected = Big::new(high).times(1 << 62);
        expected.add_product(&Big::new(low), 1);
        let holds = sum == expected
            && sum == Big::wide(whole)
            && sum.is_negative() == (whole < 0)
            && !sum.magnitude().is_negative();
        harness.check(holds, || format!("  big numbers: {a} × {b} + {c} × {d} is {sum:?}"));
    }
}

/// Conversions by whole numbers beside the floating-point ones.
fn conversions_agree(harness: &mut Harness, random: &mut Random) {
    for (b, w) in formats() {
        for bits in doubles(random, b, w) {
            let scaled = f64::from_bits(bits) * (1u64 << b) as f64;
            let nearest = (Rounding::Nearest, scaled.round_ties_even());
            for (rounding, rounded) in [(Rounding::Down, scaled.floor()), (Rounding::Up, scaled.ceil()), nearest] {
                let word = (rounded.abs() <= top(w) as f64).then_some(rounded as i64);
                let found = double::to_word(bits, b, w, rounding);
                harness.check(found == word, || format!("  {bits:016X} at b {b}, W {w} is {found:?}"));
            }
        }
        for value in [0, 1, -1, top(w), -top(w), random.magnitude(top(w))] {
            let double = (value as f64 / (1u64 << b) as f64).to_bits();
            let found = double::of_word(value, b, w);
            harness.check(found == Ok(double), || format!("  {value} at b {b}, W {w} is {found:?}"));
        }
    }
}

/// The nearest word is within half a count of its double, and at a tie one of its neighbours is as far from it; else none
/// is so near.
fn nearest_agrees(harness: &mut Harness, random: &mut Random) {
    for (b, w) in formats() {
        for bits in doubles(random, b, w) {
            let Some(word) = double::to_word(bits, b, w, Rounding::Nearest) else {
                continue;
            };
            let [own, below, above] = [word, word - 1, word + 1].map(|word| double::beside_half(bits, word, b));
            let as_far = [below, above].iter().filter(|&&far| far == Ordering::Equal).count();
            let holds = is_nearest(word, own)
                && [below, above].iter().all(|&far| far != Ordering::Less)
                && as_far == usize::from(own == Ordering::Equal);
            harness.check(holds, || format!("  {bits:016X} at b {b} is not nearest to {word}"));
        }
    }
}

/// A low is above zero, and a high below it, once it is rounded exactly where it was before.
fn signs_agree(harness: &mut Harness, random: &mut Random) {
    for (b, w) in formats() {
        for bits in doubles(random, b, w) {
            let given = f64::from_bits(bits);
            let [low, high] = [Rounding::Up, Rounding::Down].map(|rounding| double::to_word(bits, b, w, rounding));
            let holds =
                low.is_none_or(|low| (low > 0) == (given > 0.0)) && high.is_none_or(|high| (high < 0) == (given < 0.0));
            harness.check(holds, || format!("  {bits:016X} at b {b} is {low:?} as low and {high:?} as high"));
        }
    }
}

/// The programs' tables.
fn programs_agree(harness: &mut Harness) {
    for program in PROGRAMS {
        for (folder, expected) in (program.table)() {
            let printed = program.expected(&folder).1;
            harness.check(printed == expected, || format!("  not {expected:?}, but {printed:?} is printed"));
        }
    }
}

/// A double is kept exactly where both roundings give its word, and where its bits are the word's but for a zero's sign.
fn marks_agree(harness: &mut Harness, random: &mut Random) {
    for (b, w) in formats() {
        for bits in doubles(random, b, w) {
            let [down, up] = [Rounding::Down, Rounding::Up].map(|rounding| double::to_word(bits, b, w, rounding));
            for word in down.into_iter().chain(up) {
                let unsigned = if bits << 1 == 0 { 0 } else { bits };
                let kept = double::is_count(bits, word, b);
                let holds = [down == up, unsigned == double::of_count(word, b)] == [kept; 2];
                harness.check(holds, || format!("  {bits:016X} at b {b} is kept as {word}: {kept}"));
            }
        }
    }
}

/// S: its text, and −17.5 after three exact sweeps, which a bound of 0 does not cover. And document 01's 0.03125, which
/// as a low limit is 1, though no image shows it since request 6.
fn sample_agrees(harness: &mut Harness) {
    let sample = cases::sample();
    harness.check(sample.sheet() == cases::SAMPLE.as_bytes(), || "  S is not document 01's".to_string());
    let problem = sample.problem();
    let mut exact = Exact::new(&problem, &[10], &[0]);
    (0..3).for_each(|_| exact.step());
    let holds = exact.commands[0].times(2) == exact.scale.times(-35);
    harness.check(holds, || "  S does not reach -17.5".to_string());
    let holds = exact.is_near(0, -18, 1) && !exact.is_near(0, -18, 0) && !exact.is_near(0, -19, 1);
    harness.check(holds, || "  the bound's test does not tell near from far".to_string());
    let half = 0.03125f64.to_bits();
    let holds = double::inward(half, half, 4, 8) == Some((1, 0));
    harness.check(holds, || "  0.03125 is not 1 as low limit and 0 as high limit".to_string());
}

/// Two motors and two steps: −17.5 after three exact sweeps, as in S, where a step's limits do not hold the command.
fn steps_agree(harness: &mut Harness) {
    let problem = cases::motors_and_steps().problem();
    let mut exact = Exact::new(&problem, &[10], &[0; 4]);
    (0..3).for_each(|_| exact.step());
    let doubled = [-35, -8, -4, -35];
    let holds = exact.commands.iter().zip(doubled).all(|(command, twice)| command.times(2) == exact.scale.times(twice));
    harness.check(holds, || "  the exact scheme is not held by its steps".to_string());
}

/// S with a target: its text, and −11.375 after three exact sweeps (see the case). And the longest sheet and image.
fn targets_agree(harness: &mut Harness) {
    let draft = cases::with_target();
    harness.check(draft.sheet() == cases::with_target_text(), || "  S with a target has another text".to_string());
    let problem = draft.problem();
    let mut exact = Exact::new(&problem, &[10, 7], &[0]);
    (0..3).for_each(|_| exact.step());
    let holds = exact.commands[0].times(8) == exact.scale.times(-91);
    harness.check(holds, || "  S with a target does not reach -11.375".to_string());
    let sizes = Sizes { motors: 4, steps: 4, states: 12, targets: 4, ..draft.sizes };
    let longest = Draft::new(sizes);
    let lengths = (longest.sheet().len(), longest.image().len());
    // 562 lines of 23 bytes; 8 words and one for each line but the first.
    let holds = lengths == (12926, 2276) && lengths.0 == MOST_LINES * LINE;
    harness.check(holds, || format!("  the longest sheet and image have {lengths:?} bytes"));
}
