//! The label program: what it prints for the files of a folder.

use crate::cases::label_table;
use crate::generate::label_folder;
use crate::image::{Number, Problem, open};
use crate::process::{Folder, Program};
use crate::rules::Rules;
use crate::sheet::{self, unhex};
use crate::solve::{Answer, answer, cold_start, read_state, read_target};

pub const PROGRAM: Program =
    Program { name: "label", variable: "GANTRY_LABEL", print, table: label_table, random_folder: label_folder };

/// Words of 8 digits with nothing between, then one byte 10.
fn words_of_text(text: &[u8]) -> Option<Vec<u8>> {
    unhex(text.strip_suffix(b"\n").filter(|digits| digits.len().is_multiple_of(8))?)
}

fn print(folder: &Folder) -> Result<String, Number> {
    Ok(lines(&solve(folder)?.answer))
}

/// An accepted folder's problem, inputs and answer.
pub struct Solved {
    pub problem: Problem,
    pub inputs: Vec<i64>,
    pub answer: Answer,
}

/// The solve from the cold start.
pub fn solve(folder: &Folder) -> Result<Solved, Number> {
    let [drive, state, target] = folder.contents();
    let rules = Rules::default();
    let problem = open(&sheet::image(drive, rules)?, rules)?;
    // The state is tested whole before anything of the target.
    let mut inputs = read_state(&problem, &words_of_text(state).ok_or(13u32)?)?;
    if problem.sizes.targets > 0 {
        inputs.extend(read_target(&problem, &words_of_text(target).ok_or(16u32)?)?);
    }
    let answer = answer(&problem, &inputs, &cold_start(&problem));
    Ok(Solved { problem, inputs, answer })
}

/// One for each command: command, bound and D, which is the same on all.
fn lines(answer: &Answer) -> String {
    lines_with(answer, |_| digits(answer.distance))
}

/// The lines with a text for each command behind its bound.
pub fn lines_with(answer: &Answer, text: impl Fn(usize) -> String) -> String {
    let line = |k: usize| format!("{:08X} {:08X} {}\n", answer.commands[k] as u32, answer.bounds[k], text(k));
    (0..answer.commands.len()).map(line).collect()
}

/// Eight, or sixteen where eight don't suffice.
pub fn digits(distance: u64) -> String {
    if distance < 1 << 32 { format!("{distance:08X}") } else { format!("{distance:016X}") }
}
