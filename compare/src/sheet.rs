//! The design sheet: its lines, the checks 1 to 5, and the accepted sheet's image.

use crate::double::to_word;
use crate::image::{Number, Problem, Section, Sizes, bytes};
use crate::rules::Rules;

pub const FRAME: usize = 11;
pub const LINE: usize = 2 * FRAME + 1;
/// The lines of 16 commands, 12 states and 4 targets.
pub const MOST_LINES: usize = 1 + 16 * 16 + 16 * 12 + 2 * 16 + 1 + 12 + 16 * 4 + 4;

/// Kind, row, column and the eight value bytes.
pub type Frame = [u8; FRAME];

pub fn digit(byte: u8) -> Option<u8> {
    match byte {
        b'0'..=b'9' => Some(byte - b'0'),
        b'A'..=b'F' => Some(byte - b'A' + 10),
        _ => None,
    }
}

/// Pairs of digits to bytes; None for any other byte.
pub fn unhex(digits: &[u8]) -> Option<Vec<u8>> {
    // Not collected, which would begin without room: a run reads very many lines.
    let mut bytes = Vec::with_capacity(digits.len() / 2);
    for pair in digits.chunks_exact(2) {
        bytes.push(digit(pair[0])? << 4 | digit(pair[1])?);
    }
    Some(bytes)
}

/// The number of at most 16 digits.
pub fn number_of(digits: &[u8]) -> u64 {
    u64::from_str_radix(str::from_utf8(digits).expect("digits"), 16).expect("digits")
}

pub fn hex(bytes: &[u8]) -> String {
    let digit = |value: u8| b"0123456789ABCDEF"[value as usize] as char;
    let mut digits = String::with_capacity(2 * bytes.len());
    bytes.iter().for_each(|byte| digits.extend([digit(byte >> 4), digit(byte & 15)]));
    digits
}

/// Takes the next line off the text. Nothing left is 4, a line that is cut or malformed is 1.
fn next_frame(text: &mut &[u8]) -> Result<Frame, Number> {
    if text.is_empty() {
        return Err(4);
    }
    if text.len() < LINE || text[LINE - 1] != b'\n' {
        return Err(1);
    }
    let frame = unhex(&text[..LINE - 1]).ok_or(1u32)?;
    *text = &text[LINE..];
    Ok(frame.try_into().unwrap())
}

/// Line 01. Its two 0 bytes are 2, its sizes 3.
fn sizes(frame: &Frame) -> Result<Sizes, Number> {
    let &[1, motors, steps, states, bits, width, targets, high, low, 0, 0] = frame else {
        return Err(2);
    };
    let [motors, steps, states, bits, width, targets] = [motors, steps, states, bits, width, targets].map(i64::from);
    let iterations = i64::from(u16::from_be_bytes([high, low]));
    Sizes::of_words(&[motors, steps, states, bits, width, iterations, targets, 0]).ok_or(3)
}

/// The sheet's sizes and body words, before the checks of the tables.
pub fn read(mut text: &[u8], rules: Rules) -> Result<(Sizes, Vec<i64>), Number> {
    let sizes = sizes(&next_frame(&mut text)?)?;
    let mut body = Vec::new();
    for (section, row, column) in sizes.places() {
        let frame = next_frame(&mut text)?;
        if frame[..3] != [section.kind, row as u8, column as u8] {
            return Err(2);
        }
        body.push(word(&sizes, &section, value(&frame), rules).ok_or(5u32)?);
    }
    if text.is_empty() { Ok((sizes, body)) } else { Err(4) }
}

/// The double of a frame.
fn value(frame: &Frame) -> u64 {
    u64::from_be_bytes(frame[3..].try_into().unwrap())
}

fn word(sizes: &Sizes, section: &Section, double: u64, rules: Rules) -> Option<i64> {
    let word = match rules.other_conversion {
        Some((kinds, other)) if kinds.contains(&section.kind) => other(double, sizes)?,
        _ => to_word(double, sizes.bits, sizes.width, section.rounding)?,
    };
    section.admits(word, rules).then_some(word)
}

/// The sizes that line 01 has.
pub fn sizes_of(mut text: &[u8]) -> Result<Sizes, Number> {
    sizes(&next_frame(&mut text)?)
}

/// The sizes of a sheet, and the kind and the double at which it is 5.
pub fn refused_double(text: &[u8]) -> Option<(Sizes, u8, u64)> {
    let sizes = sizes_of(text).ok()?;
    let mut lines = &text[LINE..];
    for (section, _, _) in sizes.places() {
        let double = value(&next_frame(&mut lines).ok()?);
        if word(&sizes, &section, double, Rules::default()).is_none() {
            return Some((sizes, section.kind, double));
        }
    }
    None
}

/// The sheet's sizes and body words, unless a check up to 12 refuses it.
pub fn accept(text: &[u8], rules: Rules) -> Result<(Sizes, Vec<i64>), Number> {
    let (sizes, body) = read(text, rules)?;
    Problem::new(sizes, &body, rules).check()?;
    Ok((sizes, body))
}

pub fn image(text: &[u8], rules: Rules) -> Result<Vec<u8>, Number> {
    let (sizes, body) = accept(text, rules)?;
    Ok(bytes(&[&sizes.words(), &body[..]].concat()))
}

/// The exported intake.
pub fn intake_call(text: &[u8], out_len: usize, rules: Rules) -> Result<Vec<u8>, Number> {
    let image = image(text, rules)?;
    if image.len() == out_len { Ok(image) } else { Err(15) }
}
