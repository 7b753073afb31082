//! The false economies and lazy drives of document 01, those of requests 1 to 12, and those that end a solve too
//! early. Each must be found on the table of cases: a comparison that cannot fail is worthless.

mod distance;
mod labels;
mod loops;
mod made;
mod nearest;
mod ranges;
mod rest;
mod stop;
mod sums;

use crate::cases::{self, Answers, Case, RangeCase, Script};
use crate::double::{Rounding, of_count, to_word};
use crate::drive::{Drive, Kind, Reference};
use crate::former::{Former, Without};
use crate::generate::TABLE_NUMBERS;
use crate::harness::Harness;
use crate::image::{HEADER_WORDS, HIGH, LOW, Number, Problem, Sizes, TARGET_GAIN, TARGET_LIMIT, bytes, open, words};
use crate::page::{self, GIVEN, KEPT, MARK, PAGE_LINE, PLACE};
use crate::rules::{Conversion, Other, Rules, Use};
use crate::sheet::{self, LINE, hex, number_of};
use crate::solve::answer_len;

/// What a lazy drive makes of the reference's outcome.
type Spoil = Box<dyn Fn(Kind, &[&[u8]], Number, &mut [u8]) -> Number>;

struct Economy {
    name: String,
    rules: Rules,
    spoil: Spoil,
    found_on: Table,
}

/// What an economy is to be found on.
#[derive(Clone, Copy, PartialEq, Eq)]
enum Table {
    Cases,
    /// The solves alone of the cases that have an image.
    Solves,
    /// The solves that come to rest.
    AtRest,
    /// The range solves.
    Ranges,
}

impl Drive for Economy {
    fn call(&self, kind: Kind, numbers: &[u64], inputs: &[&[u8]], out: &mut [u8]) -> Number {
        let number = Reference { rules: self.rules }.call(kind, numbers, inputs, out);
        (self.spoil)(kind, inputs, number, out)
    }
}

fn rule(name: &str, rules: Rules) -> Economy {
    Economy { name: name.to_string(), rules, spoil: Box::new(|_, _, number, _| number), found_on: Table::Cases }
}

/// A drive that takes other words for the doubles of some kinds.
fn conversion(name: &str, kinds: &'static [u8], other: Conversion) -> Economy {
    rule(name, Rules { other_conversion: Some((kinds, other)), ..Rules::default() })
}

fn down(double: u64, sizes: &Sizes) -> Option<i64> {
    to_word(double, sizes.bits, sizes.width, Rounding::Down)
}

fn up(double: u64, sizes: &Sizes) -> Option<i64> {
    to_word(double, sizes.bits, sizes.width, Rounding::Up)
}

fn lazy(name: &str, spoil: impl Fn(Kind, &[&[u8]], Number, &mut [u8]) -> Number + 'static) -> Economy {
    Economy { name: name.to_string(), rules: Rules::default(), spoil: Box::new(spoil), found_on: Table::Cases }
}

/// A drive that answers on its own where a solve has one of these numbers.
fn lazy_solve(name: &'static str, at: &'static [Number], answer: fn(&[&[u8]], &mut [u8]) -> Number) -> Economy {
    lazy(
        name,
        move |kind, inputs, number, out| {
            if kind == Kind::Solve && at.contains(&number) { answer(inputs, out) } else { number }
        },
    )
}

/// A drive that answers on its own where an intake has one of these numbers.
fn lazy_intake(name: &str, at: &'static [Number], answer: impl Fn(&[u8], &mut [u8]) -> Number + 'static) -> Economy {
    lazy(
        name,
        move |kind, inputs, number, out| {
            if kind == Kind::Intake && at.contains(&number) { answer(inputs[0], out) } else { number }
        },
    )
}

/// A drive that changes the page of an accepted sheet.
fn lazy_page(name: &'static str, change: impl Fn(&[u8], &mut [u8]) + 'static) -> Economy {
    lazy(name, move |kind, inputs, number, out| {
        if kind == Kind::Page && number == 0 {
            change(inputs[0], out);
        }
        number
    })
}

/// A drive that changes every line of a page.
fn lazy_lines(name: &'static str, change: fn(&mut [u8])) -> Economy {
    lazy_page(name, move |_, page| page.chunks_mut(PAGE_LINE).for_each(change))
}

/// A drive that answers on its own where a page has one of these numbers.
fn no_page(name: &'static str, at: &'static [Number], answer: fn(&[u8], Number, &mut [u8]) -> Number) -> Economy {
    lazy(
        name,
        move |kind, inputs, number, out| {
            if kind == Kind::Page && at.contains(&number) { answer(inputs[0], number, out) } else { number }
        },
    )
}

fn economies() -> Vec<Economy> {
    let mut economies = of_document_01();
    economies.extend(with_targets());
    economies.extend(with_other_limits());
    economies.extend(with_other_sheets());
    economies.extend(sums::economies());
    economies.extend(loops::economies());
    economies.extend(stop::economies());
    economies.extend(nearest::economies());
    economies.extend(distance::economies());
    economies.extend(on_pages());
    economies.extend(without_pages());
    economies.extend(rest::economies());
    economies.extend(ranges::economies());
    economies
}

fn of_document_01() -> Vec<Economy> {
    let paper = Rules::default();
    vec![
        rule("rounds toward zero", Rules { round_toward_zero: true, ..paper }),
        conversion("rounds a low limit down", &[LOW], down),
        rule("takes y from the unheld t", Rules { momentum_from_unclamped: true, ..paper }),
        rule("sets the first q to 1", Rules { first_q_is_one: true, ..paper }),
        rule("leaves out w", Rules { width_left_out: true, ..paper }),
        lazy("sweeps once and copies", sweep_once),
        lazy("puts w as every bound", width_as_bound),
        lazy("sends the start back", |kind, inputs, number, out| {
            commands(kind, number, out, |commands| commands.copy_from_slice(inputs[3]))
        }),
        lazy("always commands zero", |kind, _, number, out| commands(kind, number, out, |commands| commands.fill(0))),
        lazy("says 12 always", |_, _, _, _| 12),
        lazy("says 12 for all that passes 11", |_, _, number, _| if number == 0 { 12 } else { number }),
        lazy("says 12 before other numbers", |_, _, number, _| if number > 6 { 12 } else { number }),
        lazy("accepts always", |_, _, _, _| 0),
        lazy("touches the buffer of a refused call", |_, _, number, out| {
            if number != 0 {
                out.fill(0);
            }
            number
        }),
    ]
}

/// Request 1's.
fn with_targets() -> Vec<Economy> {
    let paper = Rules::default();
    vec![
        conversion("rounds a target table up", &[TARGET_GAIN], up),
        conversion("rounds a target limit down", &[TARGET_LIMIT], down),
        rule("takes a target limit below 0", Rules { target_limit_below_zero: true, ..paper }),
        sums::headroom("leaves the target out of B", sums::without_targets),
        lazy_solve("leaves the target out of h", &[0], |inputs, out| solve_to(inputs, &zero_target(inputs), out)),
        lazy_solve("takes the target with the other sign", &[0], |inputs, out| {
            let negated: Vec<i64> = words(inputs[2]).iter().map(|word| -word).collect();
            solve_to(inputs, &bytes(&negated), out)
        }),
        lazy_solve("reads the target table by columns", &[0], table_by_columns),
        lazy_solve("tests the start before the target", &[16], |inputs, out| target_after(inputs, out, &[14])),
        lazy_solve("tests the target last", &[16], |inputs, out| target_after(inputs, out, &[14, 15])),
        lazy_solve("tests the target before the state", &[13], target_first),
        lazy_solve("does not test the target's values", &[16], |inputs, out| {
            let zeros = zero_target(inputs);
            if inputs[2].len() == zeros.len() { solve_to(inputs, &zeros, out) } else { 16 }
        }),
        lazy_solve("drops the last bytes of a target", &[16], |inputs, out| {
            solve_to(inputs, &inputs[2][..inputs[2].len() / 4 * 4], out)
        }),
        lazy_solve("takes a target with nr 0", &[16], |inputs, out| {
            if zero_target(inputs).is_empty() { solve_to(inputs, &[], out) } else { 16 }
        }),
        lazy_solve("tests the lengths of state and target together", &[13, 16], lengths_together),
        lazy("says 2 for an nr above 4", |kind, inputs, number, _| match (kind, number) {
            (Kind::Intake, 3) if inputs[0][12..14] > b"04"[..] => 2,
            _ => number,
        }),
    ]
}

fn first_step(command: usize, sizes: &Sizes) -> usize {
    command % sizes.motors
}

fn last_step(command: usize, sizes: &Sizes) -> usize {
    sizes.commands() - sizes.motors + command % sizes.motors
}

fn motors_outermost(command: usize, sizes: &Sizes) -> usize {
    command % sizes.motors * sizes.steps + command / sizes.motors
}

/// Request 3's, on the limits that a command has.
fn with_other_limits() -> Vec<Economy> {
    const EVERYWHERE: &[Use] =
        &[Use::Crossing, Use::Stop, Use::Magnitude, Use::Spread, Use::Start, Use::Sweep, Use::Bound, Use::Distance];
    let places: [(&str, &'static [Use]); 10] = [
        ("in 7", &[Use::Crossing]),
        ("in 17", &[Use::Stop]),
        ("in zb", &[Use::Magnitude]),
        ("in the w of Y", &[Use::Spread]),
        ("in the headroom", &[Use::Magnitude, Use::Spread]),
        ("in 14", &[Use::Start]),
        ("in the sweep", &[Use::Sweep]),
        ("in the w of a bound", &[Use::Bound]),
        ("in the held step of D", &[Use::Distance]),
        ("everywhere", EVERYWHERE),
    ];
    let with =
        |name: &str, uses, other: Other| rule(name, Rules { other_limits: Some((uses, other)), ..Rules::default() });
    let mut economies = vec![with("reads the image with motors outermost", EVERYWHERE, motors_outermost)];
    for (place, uses) in places {
        economies.push(with(&format!("takes the first step's limits {place}"), uses, first_step));
        economies.push(with(&format!("takes the last step's limits {place}"), uses, last_step));
    }
    economies
}

/// Request 3's, on the sheets that are taken and on the images written of them.
fn with_other_sheets() -> Vec<Economy> {
    const FROM_TABLES: &[Number] = &[0, 7, 17, 8, 9, 10, 11, 12, 15];
    let written = |name: &str, kinds: &'static [u8], other: Other| {
        lazy_intake(name, FROM_TABLES, move |sheet, out| intake_of_others(sheet, kinds, other, out))
    };
    vec![
        written("writes the image with motors outermost", &[LOW, HIGH], motors_outermost),
        written("writes the first step's limits for every step", &[LOW, HIGH], first_step),
        written("writes the last step's limits for every step", &[LOW, HIGH], last_step),
        written("keeps a low for each motor until the highs come", &[LOW], last_step),
        written("keeps a high for each motor", &[HIGH], last_step),
        lazy_intake("takes the former layout too", &[2], |sheet, out| {
            let former = Former::read(sheet, Without::Request3).and_then(Former::accepted);
            former.map_or(2, |former| write(&bytes(&former.words), out))
        }),
        lazy_intake("takes the lines of limits in any order", &[2], |sheet, out| {
            let key = |line: &Vec<u8>| [0..2, 4..6, 2..4].map(|part| line.get(part).map(<[u8]>::to_vec));
            intake(&with_limit_lines(sheet, |lines| lines.sort_by_key(key)), out)
        }),
        lazy_intake("does not heed the column of a limit", &[2], |sheet, out| {
            let motors = (number_of(&sheet[2..4]) as usize).max(1);
            let changed = with_limit_lines(sheet, |lines| {
                let commands = (lines.len() / 2).max(1);
                for (i, line) in lines.iter_mut().enumerate() {
                    line.splice(4..6, format!("{:02X}", i % commands / motors).into_bytes());
                }
            });
            intake(&changed, out)
        }),
        lazy_solve("takes the former image too", &[6], solve_former),
    ]
}

const ZERO: &[u8] = b"0000000000000000";
const MINUS_ZERO: &[u8] = b"8000000000000000";

/// Request 2's, on what a page says.
fn on_pages() -> Vec<Economy> {
    vec![
        lazy_lines("marks by the bits", |line| {
            line[MARK] = if line[GIVEN] == line[KEPT] { b'K' } else { b'M' };
        }),
        lazy_lines("prints the kept minus zero with its sign", |line| {
            if line[GIVEN] == *MINUS_ZERO {
                line[KEPT].copy_from_slice(MINUS_ZERO);
            }
        }),
        lazy_lines("prints the given minus zero without its sign", |line| {
            if line[GIVEN] == *MINUS_ZERO {
                line[GIVEN].copy_from_slice(ZERO);
            }
        }),
        lazy_lines("keeps the sign of what it rounds up to zero", |line| {
            if line[KEPT] == *ZERO && line[GIVEN] > *MINUS_ZERO {
                line[KEPT].copy_from_slice(MINUS_ZERO);
            }
        }),
        lazy_lines("exchanges the given and the kept double", |line| {
            let given = line[GIVEN].to_vec();
            line.copy_within(KEPT, GIVEN.start);
            line[KEPT].copy_from_slice(&given);
        }),
        lazy_lines("exchanges K and M", |line| line[MARK] = if line[MARK] == b'K' { b'M' } else { b'K' }),
        lazy_lines("marks by the words", |line| line[MARK] = b'K'),
        lazy_lines("marks in single precision", |line| {
            let [given, kept] = [GIVEN, KEPT].map(|part| f64::from_bits(number_of(&line[part])) as f32);
            line[MARK] = if given == kept { b'K' } else { b'M' };
        }),
        lazy_lines("takes a subnormal double for zero", |line| {
            if number_of(&line[GIVEN]) << 1 >> 53 == 0 {
                line[KEPT].copy_from_slice(ZERO);
                line[MARK] = b'K';
            }
        }),
        lazy_lines("exchanges row and column", |line| line[PLACE].rotate_left(2)),
        lazy_lines("prints row and column in decimal digits", |line| {
            let [row, column] = [0, 2].map(|at| number_of(&line[PLACE][at..at + 2]));
            line[PLACE].copy_from_slice(format!("{row:02}{column:02}").as_bytes());
        }),
        lazy_lines("prints small letters", |line| line[..MARK].make_ascii_lowercase()),
        lazy_page("rounds the kept double the other way", round_otherwise),
        lazy_page("prints a command's limits together", limits_together),
        lazy_lines("prints column 0 for every step", |line| {
            if is_limit(line) {
                line[PLACE][2..].fill(b'0');
            }
        }),
        lazy_lines("prints a limit's step before its motor", |line| {
            if is_limit(line) {
                line[PLACE].rotate_left(2);
            }
        }),
        lazy_page("prints the limits with motors outermost", limits_by_motors),
        lazy_page("prints line 01 in the place of the last", |sheet, page| {
            page.rotate_right(PAGE_LINE);
            page[..PAGE_LINE].copy_from_slice(&first_line(sheet));
        }),
    ]
}

/// Request 2's, on the page's length and on refused sheets.
fn without_pages() -> Vec<Economy> {
    vec![
        no_page("prints line 01 too", &[0, 15], |sheet, _, out| {
            write(&[first_line(sheet), page_of(sheet)].concat(), out)
        }),
        no_page("tests the page's length before 12", &[12], length_before),
        no_page("tests the page's length before the tables", &TABLE_NUMBERS, length_before),
        no_page("tests the page's length by the sheet's", &[1, 2, 3, 4, 5], |sheet, number, out| {
            let lines = (sheet.len() / LINE).saturating_sub(1);
            if out.len() == PAGE_LINE * lines { number } else { 15 }
        }),
        no_page("writes the page of a sheet that its tables refuse", &TABLE_NUMBERS, write_anyway),
        no_page("writes what fits of a page", &[15], write_anyway),
        no_page("takes a longer buffer for the page", &[15], |sheet, _, out| {
            if out.len() < page_of(sheet).len() { 15 } else { write_anyway(sheet, 0, out) }
        }),
        no_page("takes a buffer of the image's length for the page", &[15], |sheet, _, out| {
            let image = sheet::image(sheet, Rules::default()).expect("the sheet is accepted");
            if out.len() == image.len() { write_anyway(sheet, 0, out) } else { 15 }
        }),
    ]
}

/// Line 01 as a page's line.
fn first_line(sheet: &[u8]) -> Vec<u8> {
    let [kind, place, value]: [&[u8]; 3] = [&sheet[..2], &sheet[2..6], &sheet[6..LINE - 1]];
    [kind, place, value, value, b"K\n"].join(&b' ')
}

/// The page of a sheet that passed the checks of its lines.
fn page_of(sheet: &[u8]) -> Vec<u8> {
    let (sizes, body) = sheet::read(sheet, Rules::default()).expect("the lines are accepted");
    page::of_words(sheet, sizes.bits, &body)
}

fn write_anyway(sheet: &[u8], number: Number, out: &mut [u8]) -> Number {
    out.iter_mut().zip(page_of(sheet)).for_each(|(to, byte)| *to = byte);
    number
}

fn length_before(sheet: &[u8], number: Number, out: &mut [u8]) -> Number {
    if out.len() == page_of(sheet).len() { number } else { 15 }
}

fn round_otherwise(sheet: &[u8], page: &mut [u8]) {
    let (sizes, body) = sheet::read(sheet, Rules::default()).expect("the sheet is accepted");
    for (word, line) in body.into_iter().zip(page.chunks_mut(PAGE_LINE)) {
        let [given, kept] = [GIVEN, KEPT].map(|part| f64::from_bits(number_of(&line[part])));
        let away = if given > kept { 1 } else { -1 };
        if line[MARK] == b'M' {
            line[KEPT].copy_from_slice(hex(&of_count(word + away, sizes.bits).to_be_bytes()).as_bytes());
        }
    }
}

fn limits_together(sheet: &[u8], page: &mut [u8]) {
    let (sizes, _) = sheet::read(sheet, Rules::default()).expect("the sheet is accepted");
    let [low, high] = [LOW, HIGH].map(|kind| sizes.extent(kind).0);
    let line = |index: usize| page[PAGE_LINE * index..PAGE_LINE * (index + 1)].to_vec();
    let n = sizes.commands();
    let limits: Vec<Vec<u8>> = (0..n).flat_map(|command| [line(low + command), line(high + command)]).collect();
    page[PAGE_LINE * low..PAGE_LINE * (high + n)].copy_from_slice(&limits.concat());
}

fn limits_by_motors(sheet: &[u8], page: &mut [u8]) {
    let (sizes, _) = sheet::read(sheet, Rules::default()).expect("the sheet is accepted");
    let old = page.to_vec();
    let lines = |line: usize| PAGE_LINE * line..PAGE_LINE * (line + 1);
    for (first, n) in [LOW, HIGH].map(|kind| sizes.extent(kind)) {
        for k in 0..n {
            page[lines(first + k)].copy_from_slice(&old[lines(first + motors_outermost(k, &sizes))]);
        }
    }
}

/// Is this a line of limits, of a sheet or of a page?
fn is_limit(line: &[u8]) -> bool {
    line.starts_with(b"04") || line.starts_with(b"05")
}

/// The sheet with its first run of lines of limits changed.
fn with_limit_lines(sheet: &[u8], change: impl FnOnce(&mut [Vec<u8>])) -> Vec<u8> {
    let mut lines: Vec<Vec<u8>> = sheet.chunks(LINE).map(<[u8]>::to_vec).collect();
    let first = lines.iter().position(|line| is_limit(line)).unwrap_or(lines.len());
    let count = lines[first..].iter().take_while(|line| is_limit(line)).count();
    change(&mut lines[first..first + count]);
    lines.concat()
}

/// The intake, with another command's limits of these kinds in the place of each command's.
fn intake_of_others(sheet: &[u8], kinds: &[u8], other: Other, out: &mut [u8]) -> Number {
    let (sizes, old) = sheet::read(sheet, Rules::default()).expect("the lines are accepted");
    let mut body = old.clone();
    for (first, n) in kinds.iter().map(|&kind| sizes.extent(kind)) {
        (0..n).for_each(|k| body[first + k] = old[first + other(k, &sizes)]);
    }
    match Problem::new(sizes, &body, Rules::default()).check() {
        Ok(()) => write(&bytes(&[&sizes.words(), &body[..]].concat()), out),
        Err(number) => number,
    }
}

/// The answer, or 15 where the buffer has another length.
fn write(answer: &[u8], out: &mut [u8]) -> Number {
    if answer.len() != out.len() {
        return 15;
    }
    out.copy_from_slice(answer);
    0
}

fn intake(sheet: &[u8], out: &mut [u8]) -> Number {
    Reference { rules: Rules::default() }.call(Kind::Intake, &[], &[sheet], out)
}

/// An image before request 3, solved with a motor's limits at every step.
fn solve_former(inputs: &[&[u8]], out: &mut [u8]) -> Number {
    let old = words(inputs[0]);
    let sizes = Sizes::of_words(&old[..HEADER_WORDS]).expect("the length is tested after the sizes");
    let (first, n) = sizes.extent(LOW);
    if old.len() + 2 * (n - sizes.motors) != HEADER_WORDS + sizes.body_words() {
        return 6;
    }
    let (tables, rest) = old.split_at(HEADER_WORDS + first);
    let (lows, rest) = rest.split_at(sizes.motors);
    let (highs, rest) = rest.split_at(sizes.motors);
    let new = [tables, &lows.repeat(sizes.steps), &highs.repeat(sizes.steps), rest].concat();
    solve([&bytes(&new), inputs[1], inputs[2], inputs[3]], out)
}

fn solve(inputs: [&[u8]; 4], out: &mut [u8]) -> Number {
    Reference { rules: Rules::default() }.call(Kind::Solve, &[], &inputs, out)
}

/// The solve with another target.
fn solve_to(inputs: &[&[u8]], target: &[u8], out: &mut [u8]) -> Number {
    solve([inputs[0], inputs[1], target, inputs[3]], out)
}

/// nr words 0, for an image that passed the checks.
fn zero_target(inputs: &[&[u8]]) -> Vec<u8> {
    vec![0; 4 * words(inputs[0])[6] as usize]
}

/// 16, unless one of the numbers that are tested before it is due.
fn target_after(inputs: &[&[u8]], out: &[u8], before: &[Number]) -> Number {
    let number = solve_to(inputs, &zero_target(inputs), &mut out.to_vec());
    if before.contains(&number) { number } else { 16 }
}

fn target_first(inputs: &[&[u8]], out: &mut [u8]) -> Number {
    let state = vec![0; 4 * words(inputs[0])[2] as usize];
    let number = solve([inputs[0], &state, inputs[2], inputs[3]], &mut out.to_vec());
    if number == 16 { 16 } else { 13 }
}

fn lengths_together(inputs: &[&[u8]], out: &mut [u8]) -> Number {
    let both = [inputs[1], inputs[2]].concat();
    match both.split_at_checked(4 * words(inputs[0])[2] as usize) {
        Some((state, target)) => solve([inputs[0], state, target, inputs[3]], out),
        None => 13,
    }
}

fn table_by_columns(inputs: &[&[u8]], out: &mut [u8]) -> Number {
    let old = words(inputs[0]);
    let sizes = Sizes::of_words(&old[..HEADER_WORDS]).expect("the image passed the checks");
    let (n, targets) = (sizes.commands(), sizes.targets);
    let start = HEADER_WORDS + sizes.extent(TARGET_GAIN).0;
    let mut new = old.clone();
    for (i, j) in (0..n).flat_map(|i| (0..targets).map(move |j| (i, j))) {
        new[start + i * targets + j] = old[start + j * n + i];
    }
    solve([&bytes(&new), inputs[1], inputs[2], inputs[3]], out)
}

/// The commands, the bounds and D of an answer.
fn parts(answer: &mut [u8]) -> [&mut [u8]; 3] {
    let (words, distance) = answer.split_at_mut(answer.len() - 8);
    let (commands, bounds) = words.split_at_mut(words.len() / 2);
    [commands, bounds, distance]
}

/// Changes the commands of an accepted solve.
fn commands(kind: Kind, number: Number, out: &mut [u8], change: impl FnOnce(&mut [u8])) -> Number {
    if kind == Kind::Solve && number == 0 {
        let [commands, _, _] = parts(out);
        change(commands);
    }
    number
}

fn sweep_once(kind: Kind, inputs: &[&[u8]], number: Number, out: &mut [u8]) -> Number {
    commands(kind, number, out, |commands| {
        let mut image = inputs[0].to_vec();
        image[20..24].copy_from_slice(&bytes(&[1]));
        let mut answer = vec![0; answer_len(commands.len() / 4)];
        solve([&image, inputs[1], inputs[2], inputs[3]], &mut answer);
        commands.copy_from_slice(&answer[..commands.len()]);
    })
}

fn width_as_bound(kind: Kind, inputs: &[&[u8]], number: Number, out: &mut [u8]) -> Number {
    if let (Kind::Solve, 0, Ok(problem)) = (kind, number, open(inputs[0], Rules::default())) {
        let [_, bounds, _] = parts(out);
        let widths: Vec<i64> = (0..bounds.len() / 4).map(|k| problem.width(Use::Bound, k)).collect();
        bounds.copy_from_slice(&bytes(&widths));
    }
    number
}

pub fn count() -> u64 {
    (economies().len() + made::economies().len() + labels::LABELS.len()) as u64
}

/// All that the economies are to be found on.
pub struct Tables {
    pub cases: Vec<Case>,
    pub at_rest: Vec<Case>,
    pub ranges: Vec<RangeCase>,
    /// With what is right.
    pub scripts: Vec<(Script, Answers)>,
}

pub fn run(harness: &mut Harness, index: u64, tables: &Tables) {
    let (economies, made, index) = (economies(), made::economies(), index as usize);
    let (name, differences) = if let Some(economy) = economies.get(index) {
        (&economy.name, differences(economy, tables))
    } else if let Some(economy) = made.get(index - economies.len()) {
        (&economy.name, economy.differences(&tables.scripts))
    } else {
        return labels::run(harness, index - economies.len() - made.len());
    };
    found(harness, &format!("a drive that {name}"), differences);
}

/// What is wrong has to differ somewhere.
fn found(harness: &mut Harness, name: &str, differences: u64) {
    println!("{name}: {differences} differences");
    harness.check(differences > 0, || format!("  {name} is not found"));
}

/// Drives that end their loops where they may, or take other ways to the same ends, are not to be found.
pub fn right_drives_agree(harness: &mut Harness) {
    let (at_rest, ranges) = (cases::at_rest(), cases::ranges());
    let tables = Tables { cases: Vec::new(), at_rest, ranges, scripts: Vec::new() };
    for economy in rest::right().into_iter().chain(ranges::right()) {
        let differences = differences(&economy, &tables);
        harness.check(differences == 0, || format!("  a drive that {} is found: {differences}", economy.name));
    }
}

fn differences(economy: &Economy, tables: &Tables) -> u64 {
    let mut scratch = Harness::quiet(economy);
    let Tables { cases, at_rest, ranges, .. } = tables;
    match economy.found_on {
        Table::Cases => cases.iter().for_each(|case| cases::run(&mut scratch, case)),
        Table::Solves => {
            cases.iter().filter(|case| case.has_image()).for_each(|case| cases::run_solve(&mut scratch, case))
        }
        Table::AtRest => at_rest.iter().for_each(|case| cases::run_solve(&mut scratch, case)),
        Table::Ranges => ranges.iter().for_each(|case| cases::run_range(&mut scratch, case)),
    }
    scratch.failed
}
