//! Request 6's false economies: 17 in another place, for other limits or in some calls alone, and other cold starts.

use super::{Economy, is_limit, lazy, lazy_solve, rule, solve, write};
use crate::drive::{Drive, Kind, Reference};
use crate::generate::TABLE_NUMBERS;
use crate::image::{HEADER_WORDS, HIGH, LOW, Number, Problem, Sizes, bytes, excludes_zero, open, words};
use crate::rules::{Other, Rules, Use};
use crate::sheet::{self, LINE, number_of};

pub fn economies() -> Vec<Economy> {
    let tested = [in_other_places(), at_some_commands(), with_other_tests(), in_some_calls()];
    let answered = [on_other_doubles(), with_other_limits(), with_other_cold_starts()];
    tested.into_iter().chain(answered).flatten().collect()
}

/// The drive without 17.
fn without_stop(kind: Kind, inputs: &[&[u8]], out: &mut [u8]) -> Number {
    let rules = Rules { other_stop: Some(|_, _| false), ..Rules::default() };
    Reference { rules }.call(kind, &[], inputs, out)
}

fn is_sheet(kind: Kind) -> bool {
    matches!(kind, Kind::Intake | Kind::Page)
}

/// The sizes and body words of a sheet or an image whose lines, or sizes and length, are right.
fn body(kind: Kind, input: &[u8]) -> (Sizes, Vec<i64>) {
    if is_sheet(kind) {
        return sheet::read(input, Rules::default()).expect("the lines are accepted");
    }
    let words = words(input);
    let (header, body) = words.split_at(HEADER_WORDS);
    (Sizes::of_words(header).expect("the sizes are right"), body.to_vec())
}

fn limits(kind: Kind, input: &[u8]) -> Vec<(i64, i64)> {
    let (sizes, body) = body(kind, input);
    Problem::new(sizes, &body, Rules::default()).command_ranges(Use::Stop)
}

fn is_stopped(kind: Kind, input: &[u8]) -> bool {
    limits(kind, input).into_iter().any(excludes_zero)
}

/// 17, unless one of the numbers that are tested before it is due.
fn behind(name: &str, before: &'static [Number]) -> Economy {
    lazy(name, move |kind, inputs, number, out| {
        if number != 17 {
            return number;
        }
        let other = without_stop(kind, inputs, &mut out.to_vec());
        if before.contains(&other) { other } else { 17 }
    })
}

fn in_other_places() -> Vec<Economy> {
    const LATER: &[Number] = &[8, 9, 10, 11, 12, 13, 16, 14, 15];
    let mut economies = vec![
        lazy("tests 17 before 7", |kind, inputs, number, _| match number {
            7 if is_stopped(kind, inputs[0]) => 17,
            _ => number,
        }),
        lazy("tests 17 before 5 in an image", |kind, inputs, number, _| match number {
            5 if !is_sheet(kind) && is_stopped(kind, inputs[0]) => 17,
            _ => number,
        }),
        lazy("tests 17 at a limit's own line", |kind, inputs, number, _| match number {
            1..=5 if is_sheet(kind) && is_stopped_early(inputs[0]) => 17,
            _ => number,
        }),
        behind("tests 17 behind the other tables", &LATER[..5]),
        behind("tests 17 last", LATER),
    ];
    let one = |i: usize| behind(&format!("tests {} before 17", LATER[i]), &LATER[i..i + 1]);
    economies.extend((0..LATER.len()).map(one));
    economies
}

/// Has a line before the first faulty one a limit on the wrong side of zero?
fn is_stopped_early(sheet: &[u8]) -> bool {
    let sound = |lines: &usize| sheet::read(&sheet[..lines * LINE], Rules::default()).is_err_and(|number| number == 4);
    let lines = (1..=sheet.len() / LINE).take_while(sound).count();
    limit_doubles(&sheet[..lines * LINE]).into_iter().any(is_wrong_side)
}

/// The doubles of the lines of limits, and whether each is a low.
fn limit_doubles(sheet: &[u8]) -> Vec<(bool, f64)> {
    let double = |line: &[u8]| (line.starts_with(b"04"), f64::from_bits(number_of(&line[6..LINE - 1])));
    sheet.chunks(LINE).filter(|line| is_limit(line)).map(double).collect()
}

fn is_wrong_side((low, limit): (bool, f64)) -> bool {
    if low { limit > 0.0 } else { limit < 0.0 }
}

/// Other commands' limits stand in for those of some; for those of other steps see `super::with_other_limits`.
fn at_some_commands() -> Vec<Economy> {
    let at = |name: &str, other: Other| {
        rule(&format!("tests 17 {name}"), Rules { other_limits: Some((&[Use::Stop], other)), ..Rules::default() })
    };
    vec![
        at("for the first motor alone", |command, sizes| command - command % sizes.motors),
        at("for the last motor alone", |command, sizes| command - command % sizes.motors + sizes.motors - 1),
        at("for the first command alone", |_, _| 0),
        at("for the last command alone", |_, sizes| sizes.commands() - 1),
        at("for all commands but the first", |command, sizes| command.max(1).min(sizes.commands() - 1)),
        at("for all commands but the last", |command, sizes| command.min(sizes.commands().saturating_sub(2))),
    ]
}

fn with_other_tests() -> Vec<Economy> {
    type Test = fn(&Problem, (i64, i64)) -> bool;
    let test = |name: &str, test: Test| rule(name, Rules { other_stop: Some(test), ..Rules::default() });
    vec![
        test("does not test 17", |_, _| false),
        test("refuses zero at a low limit", |_, (low, high)| low >= 0 || high < 0),
        test("refuses zero at a high limit", |_, (low, high)| low > 0 || high <= 0),
        test("refuses zero at both limits", |_, (low, high)| low.signum() == high.signum()),
        test("tests lows alone for 17", |_, (low, _)| low > 0),
        test("tests highs alone for 17", |_, (_, high)| high < 0),
        test("wants both limits on the wrong side for 17", |_, (low, high)| low > 0 && high < 0),
        test("allows a low of 1", |_, (low, high)| low > 1 || high < 0),
        test("allows a high of -1", |_, (low, high)| low > 0 || high < -1),
        test("refuses a range of one value", |_, (low, high)| low > 0 || high < 0 || low == high),
        test("wants limits as far below zero as above", |_, (low, high)| low != -high),
        test("tests 17 in whole units", |problem, (low, high)| {
            low / problem.sizes.one() > 0 || high / problem.sizes.one() < 0
        }),
        test("multiplies the limits in 32 bits for 17", |_, (low, high)| (low as i32).wrapping_mul(high as i32) > 0),
        test("tests 17 by the low byte", |_, (low, high)| low as i8 > 0 || (high as i8) < 0),
        test("says 17 only where no command can be zero", |problem, _| {
            problem.command_ranges(Use::Stop).into_iter().all(excludes_zero)
        }),
        test("takes a motor's widest limits for 17", |problem, _| {
            let limits = problem.command_ranges(Use::Stop);
            let motor = |motor: usize| limits.iter().skip(motor).step_by(problem.sizes.motors);
            (0..problem.sizes.motors)
                .any(|m| motor(m).all(|limits| limits.0 > 0) || motor(m).all(|limits| limits.1 < 0))
        }),
    ]
}

fn in_some_calls() -> Vec<Economy> {
    let without = |name: &str, kinds: &'static [Kind]| {
        lazy(&format!("does not test 17 {name}"), move |kind, inputs, number, out| match number {
            17 if kinds.contains(&kind) => without_stop(kind, inputs, out),
            _ => number,
        })
    };
    let says = |other: Number| {
        lazy(&format!("says {other} for 17"), move |_, _, number, _| if number == 17 { other } else { number })
    };
    vec![
        without("on sheets", &[Kind::Intake, Kind::Page]),
        without("on images", &[Kind::ColdStart, Kind::Solve]),
        without("in an intake", &[Kind::Intake]),
        without("in a page", &[Kind::Page]),
        without("in a cold start", &[Kind::ColdStart]),
        without("in a solve", &[Kind::Solve]),
        says(5),
        says(7),
        says(8),
        says(14),
    ]
}

/// On sheets, by the doubles. Without rounding there is no difference, but for the sign of a zero.
fn on_other_doubles() -> Vec<Economy> {
    let by = |name: &str, round: fn(f64) -> f64| {
        lazy(name, move |kind, inputs, number, out| {
            if number != 17 || !is_sheet(kind) {
                return number;
            }
            let one = body(kind, inputs[0]).0.one() as f64;
            let rounded = limit_doubles(inputs[0]).into_iter().map(|(low, limit)| (low, round(limit * one)));
            if rounded.into_iter().any(is_wrong_side) { 17 } else { without_stop(kind, inputs, out) }
        })
    };
    let signs = |name: &str, at_low: bool, wrong: fn(f64) -> bool| {
        lazy(name, move |kind, inputs, number, _| {
            let passed = is_sheet(kind) && matches!(number, 0 | 8..);
            let some = || limit_doubles(inputs[0]).iter().any(|&(low, limit)| low == at_low && wrong(limit));
            if passed && some() { 17 } else { number }
        })
    };
    vec![
        by("rounds limits toward zero for 17", f64::trunc),
        by("rounds limits to the nearest count for 17", f64::round),
        by("rounds ties to even for 17", f64::round_ties_even),
        by("tests 17 in single precision", |limit| limit as f32 as f64),
        signs("takes a high of minus zero for below zero", false, f64::is_sign_negative),
        signs("takes a low of plus zero for above zero", true, f64::is_sign_positive),
    ]
}

/// Where zero is outside, the limits are moved to it.
fn with_other_limits() -> Vec<Economy> {
    fn moved(kind: Kind, inputs: &[&[u8]], out: &mut [u8]) -> Number {
        let (sizes, mut words) = body(kind, inputs[0]);
        for (limit, hold) in [(LOW, i64::min as fn(i64, i64) -> i64), (HIGH, i64::max)] {
            let (first, n) = sizes.extent(limit);
            words[first..first + n].iter_mut().for_each(|word| *word = hold(*word, 0));
        }
        let image = bytes(&[&sizes.words(), &words[..]].concat());
        match kind {
            Kind::Intake => open(&image, Rules::default()).map_or_else(|number| number, |_| write(&image, out)),
            Kind::Page => 17,
            _ => without_stop(kind, &[&[&image[..]], &inputs[1..]].concat(), out),
        }
    }
    let on = |name: &str, sheets: bool| {
        lazy(name, move |kind, inputs, number, out| match number {
            17 if is_sheet(kind) == sheets => moved(kind, inputs, out),
            _ => number,
        })
    };
    vec![on("moves the limits of a sheet to zero", true), on("moves the limits of an image to zero", false)]
}

/// A cold start within the limits, but elsewhere.
fn starts(name: &str, word: fn((i64, i64)) -> i64) -> Economy {
    lazy(&format!("starts {name}"), move |kind, inputs, number, out| {
        if (kind, number) == (Kind::ColdStart, 0) {
            let words: Vec<i64> = limits(kind, inputs[0]).into_iter().map(word).collect();
            out.copy_from_slice(&bytes(&words));
        }
        number
    })
}

/// Zeros where a cold start has one of these numbers.
fn zeros(name: &str, at: &'static [Number]) -> Economy {
    lazy(name, move |kind, _, number, out| {
        if kind != Kind::ColdStart || !at.contains(&number) {
            return number;
        }
        out.fill(0);
        0
    })
}

fn with_other_cold_starts() -> Vec<Economy> {
    vec![
        starts("at the low limits", |(low, _)| low),
        starts("at the high limits", |(_, high)| high),
        starts("in the middle of the limits", |(low, high)| (low + high) / 2),
        starts("off zero where that is a limit", |(low, high)| if low == 0 { high.min(1) } else { 0 }),
        zeros("tests no table for a cold start", &TABLE_NUMBERS),
        zeros("tests nothing but the sizes for a cold start", &[5, 6, 7, 17, 8, 9, 10, 11, 12]),
        zeros("does not test 17 for a cold start of zeros", &[17]),
        zeros("writes a cold start of any length", &[15]),
        lazy_solve("solves from zeros whatever the start", &[0], |inputs, out| {
            solve([inputs[0], inputs[1], inputs[2], &vec![0; inputs[3].len()]], out)
        }),
        lazy_solve(
            "takes no start but zeros",
            &[0],
            |inputs, _| {
                if inputs[3].iter().all(|&byte| byte == 0) { 0 } else { 14 }
            },
        ),
    ]
}
