//! Request 7's false economies: tables that are rounded otherwise, other kinds that are rounded as tables, 5 tested on
//! another number than the rounded one, and pages or checks that heed what the image does not.

use super::{Economy, conversion, down, lazy, lazy_lines, lazy_page, up};
use crate::double::{Rounding, to_word};
use crate::drive::{Drive, Kind, Reference};
use crate::image::{COST, GAIN, HIGH, LOW, MOMENTUM, Number, STATE_LIMIT, Sizes, TABLES, TARGET_GAIN, TARGET_LIMIT};
use crate::page::{GIVEN, KEPT, KIND, MARK, PAGE_LINE};
use crate::rules::{Conversion, Rules};
use crate::sheet::{self, LINE, number_of};

pub fn economies() -> Vec<Economy> {
    let rounded = [with_other_ties(), with_other_roundings(), with_short_arithmetic(), at_some_kinds()];
    let others = [with_other_tests_of_5(), in_some_calls(), on_pages(), on_unrounded_tables()];
    rounded.into_iter().chain(others).flatten().collect()
}

fn tables(name: &str, other: Conversion) -> Economy {
    conversion(name, &TABLES, other)
}

/// Scaled, which is exact unless it overflows.
fn counts(double: u64, sizes: &Sizes) -> f64 {
    f64::from_bits(double) * sizes.one() as f64
}

fn in_word(count: f64, sizes: &Sizes) -> bool {
    count.abs() <= sizes.top() as f64
}

/// The word by another rounding, which is then tested for 5.
fn rounded(double: u64, sizes: &Sizes, round: fn(f64) -> f64) -> Option<i64> {
    let count = round(counts(double, sizes));
    in_word(count, sizes).then_some(count as i64)
}

/// The same with another rounding of ties alone.
fn tied(double: u64, sizes: &Sizes, tie: fn(f64) -> f64) -> Option<i64> {
    let is_tie = counts(double, sizes).fract().abs() == 0.5;
    rounded(double, sizes, if is_tie { tie } else { f64::round_ties_even })
}

fn with_other_ties() -> Vec<Economy> {
    vec![
        tables("takes ties away from zero", |double, sizes| tied(double, sizes, f64::round)),
        tables("takes ties toward zero", |double, sizes| tied(double, sizes, f64::trunc)),
        tables("takes ties up", |double, sizes| tied(double, sizes, f64::ceil)),
        tables("takes ties down", |double, sizes| tied(double, sizes, f64::floor)),
        tables("takes ties to the odd count", |double, sizes| {
            tied(double, sizes, |tie| 2.0 * (tie / 2.0).floor() + 1.0)
        }),
        // Below zero the remainder of an odd count is −1.
        tables("takes a count for odd where its remainder is 1", |double, sizes| {
            tied(double, sizes, |tie| if tie.floor() % 2.0 == 1.0 { tie.ceil() } else { tie.floor() })
        }),
    ]
}

fn with_other_roundings() -> Vec<Economy> {
    vec![
        tables("still rounds the tables down", down),
        tables("rounds the tables up", up),
        tables("rounds the tables toward zero", |double, sizes| rounded(double, sizes, f64::trunc)),
        tables("still rounds a table's numbers below zero down", |double, sizes| {
            rounded(double, sizes, |count| if count < 0.0 { count.floor() } else { count.round_ties_even() })
        }),
        tables("still rounds a table's numbers above zero down", |double, sizes| {
            rounded(double, sizes, |count| if count > 0.0 { count.floor() } else { count.round_ties_even() })
        }),
        tables("cuts a table's numbers below zero", |double, sizes| {
            rounded(double, sizes, |count| if count < 0.0 { count.trunc() } else { count.round_ties_even() })
        }),
        tables("leaves what is less than a count at zero", |double, sizes| {
            rounded(double, sizes, |count| if count.abs() < 1.0 { 0.0 } else { count.round_ties_even() })
        }),
        tables("rounds to the nearest even count", |double, sizes| {
            rounded(double, sizes, |count| 2.0 * (count / 2.0).round_ties_even())
        }),
    ]
}

/// Halves that are added, and bits that are lost on the way.
fn with_short_arithmetic() -> Vec<Economy> {
    vec![
        tables("adds half a count and rounds down", |double, sizes| {
            rounded(double, sizes, |count| (count + 0.5).floor())
        }),
        tables("adds half a count and cuts", |double, sizes| rounded(double, sizes, |count| (count + 0.5).trunc())),
        tables("takes off half a count and rounds up", |double, sizes| {
            rounded(double, sizes, |count| (count - 0.5).ceil())
        }),
        tables("rounds to half a count first", |double, sizes| {
            rounded(double, sizes, |count| ((2.0 * count).round_ties_even() / 2.0).round_ties_even())
        }),
        tables("looks three bits behind the count", |double, sizes| {
            rounded(double, sizes, |count| ((8.0 * count).floor() / 8.0).round_ties_even())
        }),
        tables("takes all from half a count on for a tie", |double, sizes| {
            let is_tie = |count: f64| count - count.floor() >= 0.5;
            let even = |count: f64| 2.0 * ((count.floor() + 1.0) / 2.0).floor();
            let count = counts(double, sizes);
            let count = if is_tie(count) { even(count) } else { count.floor() };
            in_word(count, sizes).then_some(count as i64)
        }),
        tables("rounds in single precision", |double, sizes| {
            rounded(double, sizes, |count| f64::from((count as f32).round_ties_even()))
        }),
        tables("shifts by the last six bits of the places", short_shift),
    ]
}

/// A shift of 64 bits, whose count a processor cuts.
fn short_shift(double: u64, sizes: &Sizes) -> Option<i64> {
    let count = counts(double, sizes);
    let places = 1075 - (count.to_bits() >> 52 & 0x7FF).max(1) as i64;
    if places < 64 {
        return to_word(double, sizes.bits, sizes.width, Rounding::Nearest);
    }
    let fraction = count.to_bits() & ((1 << 52) - 1);
    let mantissa = if count.is_normal() { fraction | 1 << 52 } else { fraction };
    let magnitude = (mantissa as f64 / (1u64 << (places % 64)) as f64).round_ties_even();
    let count = magnitude.copysign(count);
    in_word(count, sizes).then_some(count as i64)
}

fn nearest(double: u64, sizes: &Sizes) -> Option<i64> {
    to_word(double, sizes.bits, sizes.width, Rounding::Nearest)
}

fn at_some_kinds() -> Vec<Economy> {
    vec![
        conversion("still rounds H down", &[COST], down),
        conversion("still rounds Φ down", &[GAIN], down),
        conversion("still rounds the target table down", &[TARGET_GAIN], down),
        conversion("rounds H alone to the nearest count", &[GAIN, TARGET_GAIN], down),
        conversion("rounds a low limit to the nearest count", &[LOW], nearest),
        conversion("rounds a high limit to the nearest count", &[HIGH], nearest),
        conversion("rounds β to the nearest count", &[MOMENTUM], nearest),
        conversion("rounds a state limit to the nearest count", &[STATE_LIMIT], nearest),
        conversion("rounds a target limit to the nearest count", &[TARGET_LIMIT], nearest),
        conversion(
            "rounds every kind to the nearest count",
            &[LOW, HIGH, MOMENTUM, STATE_LIMIT, TARGET_LIMIT],
            nearest,
        ),
    ]
}

/// The nearest count, if another number than this is in the word.
fn tested(double: u64, sizes: &Sizes, other: fn(f64) -> f64) -> Option<i64> {
    let count = counts(double, sizes);
    in_word(other(count), sizes).then_some(count.round_ties_even() as i64)
}

fn with_other_tests_of_5() -> Vec<Economy> {
    vec![
        tables("tests a table's number for 5 before it is rounded", |double, sizes| {
            tested(double, sizes, |count| count)
        }),
        tables("tests a table's number for 5 rounded down", |double, sizes| tested(double, sizes, f64::floor)),
        tables("tests a table's number for 5 rounded toward zero", |double, sizes| tested(double, sizes, f64::trunc)),
        tables("takes minus top − 1 in a table", |double, sizes| {
            let count = counts(double, sizes).round_ties_even();
            (in_word(count, sizes) || count == -1.0 - sizes.top() as f64).then_some(count as i64)
        }),
        tables("holds a table's number to the word", |double, sizes| {
            let (count, top) = (counts(double, sizes), sizes.top());
            count.is_finite().then(|| (count.round_ties_even() as i64).clamp(-top, top))
        }),
        tables("holds a tie beyond the word to it", |double, sizes| {
            let (count, top) = (counts(double, sizes), sizes.top() as f64);
            let held = if count.abs() == top + 0.5 { top.copysign(count) } else { count.round_ties_even() };
            in_word(held, sizes).then_some(held as i64)
        }),
        lazy("tests the tables for 5 behind the last line", |kind, inputs, number, _| match (kind, number) {
            (Kind::Intake | Kind::Page, 5) => test_late(inputs[0]),
            _ => number,
        }),
    ]
}

/// The number of a sheet that is 5, if its tables are tested for it after its lines.
fn test_late(sheet: &[u8]) -> Number {
    let any: Conversion = |double, sizes| Some(counts(double, sizes).round_ties_even() as i64);
    let rules = Rules { other_conversion: Some((&TABLES, any)), ..Rules::default() };
    sheet::read(sheet, rules).err().unwrap_or(5)
}

/// The tables rounded down for one of the two calls that take a sheet.
fn in_some_calls() -> Vec<Economy> {
    let still = |name: &str, other: Kind| {
        lazy(name, move |kind, inputs, number, out| {
            if kind != other {
                return number;
            }
            let rules = Rules { other_conversion: Some((&TABLES, down)), ..Rules::default() };
            Reference { rules }.call(kind, &[], inputs, out)
        })
    };
    vec![
        still("still rounds the tables down on the page", Kind::Page),
        still("still rounds the tables down in the image", Kind::Intake),
    ]
}

fn is_table(line: &[u8]) -> bool {
    TABLES.contains(&(number_of(&line[KIND]) as u8))
}

fn on_pages() -> Vec<Economy> {
    vec![
        lazy_lines("keeps the sign of a table's number that becomes zero", |line| {
            if is_table(line) && number_of(&line[KEPT]) == 0 && number_of(&line[GIVEN]) > 1 << 63 {
                line[KEPT.start] = b'8';
            }
        }),
        lazy_lines("prints K where a table's number becomes zero", |line| {
            if is_table(line) && number_of(&line[KEPT]) == 0 {
                line[MARK] = b'K';
            }
        }),
        lazy_page("prints M for a table's ties alone", |sheet, page| {
            let sizes = sheet::sizes_of(sheet).expect("the sheet is accepted");
            for line in page.chunks_mut(PAGE_LINE).filter(|line| is_table(line)) {
                let is_tie = counts(number_of(&line[GIVEN]), &sizes).fract().abs() == 0.5;
                line[MARK] = if is_tie { b'M' } else { b'K' };
            }
        }),
    ]
}

/// Checks of H on its doubles, beside those on its words.
fn on_unrounded_tables() -> Vec<Economy> {
    type Fault = fn(&Sizes, &[Vec<f64>]) -> bool;
    let test = |due: Number, fault: Fault| {
        lazy(&format!("tests {due} before H is rounded"), move |kind, inputs, number, _| {
            let passed = matches!(kind, Kind::Intake | Kind::Page) && (number == 0 || number > due && number != 17);
            if passed && fault_of_cost(inputs[0], fault) { due } else { number }
        })
    };
    fn fault_of_cost(sheet: &[u8], fault: Fault) -> bool {
        let sizes = sheet::sizes_of(sheet).expect("the lines are accepted");
        let n = sizes.commands();
        let lines: Vec<&[u8]> = sheet.chunks(LINE).skip(1).take(n * n).collect();
        let entry = |line: &&[u8]| counts(number_of(&line[6..LINE - 1]), &sizes);
        let rows: Vec<Vec<f64>> = lines.chunks(n).map(|row| row.iter().map(entry).collect()).collect();
        fault(&sizes, &rows)
    }
    fn radius(rows: &[Vec<f64>], i: usize) -> f64 {
        (0..rows.len()).filter(|&j| j != i).map(|j| rows[i][j].abs()).sum()
    }
    vec![
        test(8, |_, rows| (0..rows.len()).any(|i| (0..i).any(|j| rows[i][j] != rows[j][i]))),
        test(9, |_, rows| (0..rows.len()).any(|i| rows[i][i] - radius(rows, i) < 1.0)),
        test(10, |sizes, rows| (0..rows.len()).any(|i| rows[i][i] + radius(rows, i) > sizes.one() as f64)),
    ]
}
