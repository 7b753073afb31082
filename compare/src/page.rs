//! The design page of request 2: each design number as given, as kept, and whether the two are equal; and the page
//! program.

use std::ops::Range;

use crate::cases::page_table;
use crate::double::{is_count, of_count};
use crate::generate::page_folder;
use crate::image::Number;
use crate::process::{Folder, Program};
use crate::rules::Rules;
use crate::sheet::{LINE, accept, hex, unhex};

pub const PROGRAM: Program =
    Program { name: "page_program", variable: "GANTRY_PAGE", print, table: page_table, random_folder: page_folder };

/// 43 characters and byte 10.
pub const PAGE_LINE: usize = 44;

/// The parts of a page's line.
pub const KIND: Range<usize> = 0..2;
pub const PLACE: Range<usize> = 3..7;
pub const GIVEN: Range<usize> = 8..24;
pub const KEPT: Range<usize> = 25..41;
pub const MARK: usize = 42;

/// The line of a design number, from its line of the sheet and its word.
fn line(sheet_line: &[u8], word: i64, bits: u32) -> Vec<u8> {
    // The given double stays in the sheet's own digits, so that nothing can change it on the way.
    let (kind, place, given) = (&sheet_line[..2], &sheet_line[2..6], &sheet_line[6..LINE - 1]);
    let double = u64::from_be_bytes(unhex(given).expect("the sheet is accepted").try_into().unwrap());
    let kept = hex(&of_count(word, bits).to_be_bytes());
    let mark = if is_count(double, word, bits) { b"K\n" } else { b"M\n" };
    [kind, place, given, kept.as_bytes(), mark].join(&b' ')
}

/// The page of a sheet and its body words.
pub fn of_words(text: &[u8], bits: u32, body: &[i64]) -> Vec<u8> {
    let design_lines = text.chunks(LINE).skip(1);
    design_lines.zip(body).flat_map(|(sheet_line, &word)| line(sheet_line, word, bits)).collect()
}

/// The page of a sheet, unless a check up to 12 refuses it.
fn page(text: &[u8], rules: Rules) -> Result<Vec<u8>, Number> {
    let (sizes, body) = accept(text, rules)?;
    Ok(of_words(text, sizes.bits, &body))
}

/// The exported page.
pub fn page_call(text: &[u8], out_len: usize, rules: Rules) -> Result<Vec<u8>, Number> {
    let page = page(text, rules)?;
    if page.len() == out_len { Ok(page) } else { Err(15) }
}

/// It heeds drive.hex alone.
fn print(folder: &Folder) -> Result<String, Number> {
    let [drive, ..] = folder.contents();
    Ok(String::from_utf8(page(drive, Rules::default())?).expect("a page is ASCII"))
}

/// A sheet of this first line with the page's given doubles, or its kept ones.
pub fn sheet_of(first_line: &[u8], page: &[u8], doubles: Range<usize>) -> Vec<u8> {
    let line = |line: &[u8]| [&line[KIND], &line[PLACE], &line[doubles.clone()], b"\n"].concat();
    let lines: Vec<Vec<u8>> = page.chunks(PAGE_LINE).map(line).collect();
    [first_line, &lines.concat()].concat()
}
