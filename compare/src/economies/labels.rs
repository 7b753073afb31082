//! Request 8's false economies of the label program, which is compared by what it prints.

use super::found;
use crate::cases::label_table;
use crate::distance;
use crate::harness::Harness;
use crate::label::{self, Solved, digits, lines_with};

/// What such a program prints for an accepted folder.
type Print = fn(&Solved) -> String;

fn low_word(distance: u64) -> u32 {
    distance as u32
}

/// The right lines with another D.
fn with(solved: &Solved, text: fn(u64) -> String) -> String {
    lines_with(&solved.answer, |_| text(solved.answer.distance))
}

/// The right lines, D on some of them alone.
fn on(solved: &Solved, has: fn(usize, usize) -> bool) -> String {
    let n = solved.answer.commands.len();
    let lines = lines_with(&solved.answer, |k| if has(k, n) { digits(solved.answer.distance) } else { String::new() });
    lines.replace(" \n", "\n")
}

pub const LABELS: [(&str, Print); 19] = [
    ("always prints sixteen digits", |solved| with(solved, |d| format!("{d:016X}"))),
    ("always prints the last eight digits", |solved| with(solved, |d| format!("{:08X}", low_word(d)))),
    ("always prints the first eight digits", |solved| with(solved, |d| digits(d)[..8].to_string())),
    ("prints as many digits as D takes, but eight at least", |solved| with(solved, |d| format!("{d:08X}"))),
    ("prints as many digits as D takes", |solved| with(solved, |d| format!("{d:X}"))),
    ("prints FFFFFFFF where eight digits don't suffice", |solved| {
        with(solved, |d| format!("{:08X}", d.min(u64::from(u32::MAX))))
    }),
    ("prints sixteen digits from 2^31 on", |solved| {
        with(solved, |d| if d < 1 << 31 { digits(d) } else { format!("{d:016X}") })
    }),
    ("prints sixteen digits from 2^32 - 1 on", |solved| {
        with(solved, |d| if d + 1 < 1 << 32 { digits(d) } else { format!("{d:016X}") })
    }),
    ("prints sixteen digits from 2^32 + 1 on", |solved| {
        with(solved, |d| if d > 1 << 32 { digits(d) } else { format!("{:08X}", low_word(d)) })
    }),
    ("prints two words of D with a space between", |solved| {
        with(solved, |d| if d < 1 << 32 { digits(d) } else { format!("{:08X} {:08X}", d >> 32, low_word(d)) })
    }),
    ("prints the low word of D first", |solved| {
        with(solved, |d| if d < 1 << 32 { digits(d) } else { format!("{:08X}{:08X}", low_word(d), d >> 32) })
    }),
    ("prints D in small letters", |solved| with(solved, |d| digits(d).to_lowercase())),
    ("prints D in decimal digits", |solved| with(solved, |d| format!("{d:08}"))),
    ("does not print D", |solved| on(solved, |_, _| false)),
    ("prints D on the first line alone", |solved| on(solved, |k, _| k == 0)),
    ("prints D on the last line alone", |solved| on(solved, |k, n| k + 1 == n)),
    ("prints D on a line of its own", |solved| {
        on(solved, |_, _| false) + &format!("{}\n", digits(solved.answer.distance))
    }),
    ("prints D of each command alone", |solved| {
        let Solved { problem, inputs, answer } = solved;
        let differences = distance::differences(problem, inputs, &answer.commands);
        lines_with(answer, |k| digits(distance::over(differences[k].abs(), problem.least_margin())))
    }),
    ("prints D before the bound", |solved| {
        let swap = |line: &str| format!("{} {} {}\n", &line[..8], &line[18..], &line[9..17]);
        with(solved, digits).lines().map(swap).collect()
    }),
];

/// Tries one of them on the folders of the table.
pub fn run(harness: &mut Harness, index: usize) {
    let (name, print) = LABELS[index];
    let differs = |(folder, text): &(_, String)| label::solve(folder).is_ok_and(|solved| print(&solved) != *text);
    let differences = label_table().iter().filter(|entry| differs(entry)).count();
    found(harness, &format!("a label program that {name}"), differences as u64);
}
