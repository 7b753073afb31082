//! Doubles to words and back, by whole numbers on the double's bits: no floating-point operation takes part.

use std::cmp::Ordering::{self, *};

use crate::image::{Number, sizes_of_word_fit, top};

#[derive(Clone, Copy, Debug, PartialEq, Eq, PartialOrd, Ord)]
pub enum Rounding {
    Down,
    Up,
    /// To the nearest whole count, a tie to the even one.
    Nearest,
}

const FRACTION: u32 = 52;
const BIAS: i32 = 1023;

/// A finite double is mantissa × 2^exponent.
fn parts(double: u64) -> Option<(i128, i32)> {
    let field = (double >> FRACTION & 0x7FF) as i32;
    let fraction = (double & ((1 << FRACTION) - 1)) as i128;
    let (mantissa, exponent) = match field {
        0x7FF => return None,
        0 => (fraction, 1),
        _ => (fraction | 1 << FRACTION, field),
    };
    let sign = if double >> 63 == 1 { -1 } else { 1 };
    Some((sign * mantissa, exponent - BIAS - FRACTION as i32))
}

/// The double times 2^bits, rounded; None for NaN, infinity and whatever is far beyond every word.
fn round(double: u64, bits: u32, rounding: Rounding) -> Option<i128> {
    let (mantissa, exponent) = parts(double)?;
    let shift = exponent + bits as i32;
    if shift >= 0 {
        // From 2^64 on the value is outside every word, whatever the shift.
        return match mantissa {
            0 => Some(0),
            _ if shift > 64 => None,
            _ => Some(mantissa << shift),
        };
    }
    // With 100 places a mantissa is far below half a count, and stays so with more.
    let places = (-shift).min(100);
    let (down, up) = (mantissa >> places, -(-mantissa >> places));
    Some(match rounding {
        Rounding::Down => down,
        Rounding::Up => up,
        Rounding::Nearest => {
            let (above_down, below_up) = (mantissa - (down << places), (up << places) - mantissa);
            match above_down.cmp(&below_up) {
                Less => down,
                Greater => up,
                Equal if down % 2 == 0 => down,
                Equal => up,
            }
        }
    })
}

pub fn to_word(double: u64, bits: u32, width: u32, rounding: Rounding) -> Option<i64> {
    let limit = top(width) as i128;
    let word = round(double, bits, rounding)?;
    (-limit..=limit).contains(&word).then_some(word as i64)
}

/// A command's pair of limits, rounded inward.
pub fn inward(low: u64, high: u64, bits: u32, width: u32) -> Option<(i64, i64)> {
    Some((to_word(low, bits, width, Rounding::Up)?, to_word(high, bits, width, Rounding::Down)?))
}

/// Is the double exactly value / 2^bits? Zero is zero with either sign.
pub fn is_count(double: u64, value: i64, bits: u32) -> bool {
    let Some((mantissa, exponent)) = parts(double) else {
        return false;
    };
    let shift = exponent + bits as i32;
    // A longer shift would still leave one side 0 or beyond the other.
    let places = shift.unsigned_abs().min(64);
    let value = value as i128;
    if shift >= 0 { mantissa << places == value } else { mantissa == value << places }
}

/// The distance of a double from value / 2^bits, beside half a count.
pub fn beside_half(double: u64, value: i64, bits: u32) -> Ordering {
    let (mantissa, exponent) = parts(double).expect("a word's double is a number");
    let shift = exponent + bits as i32;
    // With 64 places a mantissa is far below half a count, and stays so with more; shifted upward it is whole.
    let (places, up) = ((-shift).clamp(0, 64), shift.clamp(0, 64));
    let distance = (mantissa << up) - ((value as i128) << places);
    (2 * distance.abs()).cmp(&(1 << places))
}

/// The bits of the double value / 2^bits.
pub fn of_word(value: i64, bits: u32, width: u32) -> Result<u64, Number> {
    if !sizes_of_word_fit(bits as i64, width as i64) {
        return Err(3);
    }
    if value.unsigned_abs() > top(width) as u64 {
        return Err(5);
    }
    Ok(of_count(value, bits))
}

/// The same without a word's range: for values of magnitude below 2^53.
pub fn of_count(value: i64, bits: u32) -> u64 {
    let magnitude = value.unsigned_abs();
    if magnitude == 0 {
        return 0;
    }
    let leading = magnitude.ilog2();
    let fraction = magnitude << (FRACTION - leading) & ((1 << FRACTION) - 1);
    let exponent = (leading as i32 - bits as i32 + BIAS) as u64;
    (u64::from(value < 0) << 63) | exponent << FRACTION | fraction
}
