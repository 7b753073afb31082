//! Makes a call on guarded buffers, compares all that can be seen of it, and keeps the tally.

use std::collections::{BTreeMap, BTreeSet};
use std::fs::File;
use std::os::unix::fs::FileExt;

use crate::distance;
use crate::drive::{Call, Drive, Kind, Outcome};
use crate::edges::{self, Fate, TableEdge};
use crate::image::{HEADER_WORDS, Number, Problem, Sizes, TABLES, words};
use crate::page::{self, PAGE_LINE};
use crate::rules::Rules;
use crate::sheet::{self, hex, number_of};

const GUARD: u8 = 0xA5;
const GUARD_LEN: usize = 32;
/// 0 to 20.
pub const NUMBERS: usize = 21;
/// Failures printed in full; later ones are only counted.
const PRINTED: u64 = 5;

/// A buffer between guards, so that a write outside it is found.
pub struct Lent {
    memory: Vec<u8>,
    from: usize,
    to: usize,
}

impl Lent {
    pub fn new(content: &[u8]) -> Lent {
        // The odd shift keeps buffers off the alignment that a drive might wrongly count on.
        let from = GUARD_LEN + content.len() % 7;
        let to = from + content.len();
        let mut memory = vec![GUARD; to + GUARD_LEN];
        memory[from..to].copy_from_slice(content);
        Lent { memory, from, to }
    }

    pub fn content(&self) -> &[u8] {
        &self.memory[self.from..self.to]
    }

    pub fn content_mut(&mut self) -> &mut [u8] {
        &mut self.memory[self.from..self.to]
    }

    /// What a drive that oversteps its buffer does.
    pub fn write_beside(&mut self) {
        self.memory[self.to] = 0;
    }

    pub fn guards_hold(&self) -> bool {
        let (before, after) = (&self.memory[..self.from], &self.memory[self.to..]);
        before.iter().chain(after).all(|&byte| byte == GUARD)
    }
}

/// Bytes that no call answers by chance: what is in an output buffer before the call.
pub fn untouched(length: usize) -> Vec<u8> {
    (0..length).map(|i| (i * 37 + 0x5B) as u8).collect()
}

/// The call's outcome, or what it did to memory that was not its to write.
fn observe(drive: &dyn Drive, call: &Call) -> Result<Outcome, String> {
    let inputs: Vec<Lent> = call.inputs.iter().map(|input| Lent::new(input)).collect();
    let before = untouched(call.out_len);
    let (mut made, mut out) = (Lent::new(&call.made), Lent::new(&before));
    let lent: Vec<&[u8]> = inputs.iter().map(Lent::content).collect();
    let number = if call.kind.is_on_made() {
        drive.call_made(call.kind, &call.numbers, made.content_mut(), &lent, out.content_mut())
    } else {
        drive.call(call.kind, &call.numbers, &lent, out.content_mut())
    };
    let (_, names) = call.kind.arguments();
    for ((lent, input), name) in inputs.iter().zip(&call.inputs).zip(names) {
        if lent.content() != input || !lent.guards_hold() {
            return Err(format!("number {number}, and wrote to or beside the lent {name}"));
        }
    }
    for (lent, name) in [(&out, "output buffer"), (&made, "drive")] {
        if !lent.guards_hold() {
            return Err(format!("number {number}, and wrote beside the {name}"));
        }
    }
    let after = out.content();
    Ok(Outcome { number, written: (after != before).then(|| after.to_vec()), made: made.content().to_vec() })
}

/// What accepted calls had.
#[derive(Default)]
pub struct Covered {
    pub sizes: BTreeSet<Vec<i64>>,
    /// b and W.
    pub formats: BTreeSet<Vec<i64>>,
    /// n and nr.
    pub targets: BTreeSet<(i64, i64)>,
    /// nx and nr.
    pub inputs: BTreeSet<(i64, i64)>,
    /// The nu and N of those whose limits change from step to step.
    pub changing: BTreeSet<(i64, i64)>,
}

impl Covered {
    fn insert(&mut self, problem: &Problem) {
        let header = problem.sizes.words();
        self.sizes.insert(header[..3].to_vec());
        self.formats.insert(header[3..5].to_vec());
        self.targets.insert((header[0] * header[1], header[6]));
        self.inputs.insert((header[2], header[6]));
        if problem.limits_change() {
            self.changing.insert((header[0], header[1]));
        }
    }
}

pub struct Harness<'a> {
    pub drive: &'a dyn Drive,
    pub seed: u64,
    pub passed: u64,
    pub failed: u64,
    /// Comparisons for each call and number.
    pub met: BTreeMap<&'static str, [u64; NUMBERS]>,
    /// Of random accepted solves, and of random accepted range solves.
    pub solved: Covered,
    pub ranged: Covered,
    /// The head, and the nu and N of made drives whose answers were committed in random runs.
    pub committed: BTreeSet<(u32, usize, usize)>,
    /// The nu and N of new images in them.
    pub renewed: BTreeSet<(usize, usize)>,
    /// How often a random solve lay at an edge of check 12 or 17, came to rest in some way, had a D or an optimum of
    /// some kind, or was another than before request 4 or 6, a random sheet another than before request 7, a random run
    /// came by an edge of request 9, 10 or 11, and a random range solve by one of request 12.
    pub edges: BTreeMap<&'static str, u64>,
    /// What became of the numbers of tables in random sheets.
    pub tables: BTreeSet<TableEdge>,
    /// The kinds of accepted pages by their last digit, and the marks.
    pub marks: BTreeSet<(u8, u8)>,
    /// The group and index under way; also in a file, for whoever finds the program crashed.
    place: (&'static str, u64),
    place_file: Option<File>,
    quiet: bool,
}

impl<'a> Harness<'a> {
    pub fn new(drive: &'a dyn Drive, seed: u64, place_file: Option<File>) -> Harness<'a> {
        Harness {
            drive,
            seed,
            passed: 0,
            failed: 0,
            met: BTreeMap::new(),
            solved: Covered::default(),
            ranged: Covered::default(),
            committed: BTreeSet::new(),
            renewed: BTreeSet::new(),
            edges: BTreeMap::new(),
            tables: BTreeSet::new(),
            marks: BTreeSet::new(),
            place: ("", 0),
            place_file,
            quiet: false,
        }
    }

    /// Counts failures without printing them: for drives that have to fail.
    pub fn quiet(drive: &'a dyn Drive) -> Harness<'a> {
        Harness { quiet: true, ..Harness::new(drive, 0, None) }
    }

    pub fn enter(&mut self, group: &'static str, index: u64) {
        self.place = (group, index);
        if let Some(file) = &self.place_file {
            let line = format!("--seed {} --only {group}:{index:<20}\n", self.seed);
            file.write_all_at(line.as_bytes(), 0).expect("the place file can be written");
        }
    }

    /// Compares one call, and returns what the papers expect of it.
    pub fn compare(&mut self, call: &Call) -> Outcome {
        let expected = call.outcome();
        let observed = observe(self.drive, call);
        self.meet(call.kind.name(), expected.number);
        match (call.kind, &expected.written) {
            (Kind::Solve, Some(answer)) if self.is_random() => self.cover_solve(&call.inputs, answer),
            (Kind::Solve, None) if self.is_random() && matches!(expected.number, 12 | 17) => {
                self.cover_edges(&problem_of(&call.inputs[0]), expected.number);
            }
            (Kind::RangeSolve, Some(_)) if self.is_random() => self.ranged.insert(&problem_of(&call.inputs[0])),
            (Kind::Page, Some(page)) => self.cover_page(&call.inputs[0], page),
            (Kind::Intake | Kind::Page, None) if self.is_random() && expected.number == 5 => {
                self.cover_refused(&call.inputs[0]);
            }
            _ => {}
        }
        let agrees = observed.as_ref() == Ok(&expected);
        self.check(agrees, || describe(call, &expected, &observed));
        expected
    }

    /// Problems made by hand would hide a size or an edge that the generator never finds.
    pub fn is_random(&self) -> bool {
        !self.quiet && !matches!(self.place.0, "cases" | "damage")
    }

    fn cover_solve(&mut self, lent: &[Vec<u8>], answer: &[u8]) {
        let problem = problem_of(&lent[0]);
        self.solved.insert(&problem);
        self.cover_edges(&problem, 0);
        let (inputs, commands) = ([words(&lent[1]), words(&lent[2])].concat(), words(&answer[..lent[3].len()]));
        self.meet_edges(distance::edges(&problem, &inputs, &commands));
    }

    /// Of a drive that only the calls wrote.
    pub fn cover_commit(&mut self, head: u32, sizes: &Sizes) {
        self.committed.insert((head, sizes.motors, sizes.steps));
    }

    pub fn cover_new_image(&mut self, sizes: &Sizes) {
        self.renewed.insert((sizes.motors, sizes.steps));
    }

    fn cover_edges(&mut self, problem: &Problem, number: Number) {
        self.meet_edges(edges::of_problem(problem, number));
    }

    pub fn meet_edges(&mut self, edges: Vec<&'static str>) {
        edges.into_iter().for_each(|edge| self.meet_edge(edge));
    }

    pub fn meet_edge(&mut self, edge: &'static str) {
        *self.edges.entry(edge).or_insert(0) += 1;
    }

    fn cover_page(&mut self, sheet: &[u8], page: &[u8]) {
        let sizes = sheet::sizes_of(sheet).expect("the sheet is accepted");
        for line in page.chunks(PAGE_LINE) {
            let (kind, mark) = (line[page::KIND][1], line[page::MARK]);
            self.marks.insert((kind, mark));
            let kind = kind - b'0';
            if mark == b'M' && TABLES.contains(&kind) && self.is_random() {
                let [given, kept] = [page::GIVEN, page::KEPT].map(|part| number_of(&line[part]));
                for fate in edges::of_accepted(&sizes, given, kept) {
                    self.tables.insert((kind, given >> 63 == 1, fate));
                }
            }
        }
    }

    /// A sheet that is 5.
    fn cover_refused(&mut self, sheet: &[u8]) {
        let (sizes, kind, double) = sheet::refused_double(sheet).expect("the sheet is 5");
        if TABLES.contains(&kind) && edges::is_refused_tie(&sizes, double) {
            self.tables.insert((kind, double >> 63 == 1, Fate::Refused));
        }
    }

    pub fn meet(&mut self, call: &'static str, number: Number) {
        self.met.entry(call).or_insert([0; NUMBERS])[number as usize] += 1;
    }

    /// Counts one comparison; the description is asked for only when it fails.
    pub fn check(&mut self, holds: bool, description: impl FnOnce() -> String) {
        if holds {
            self.passed += 1;
            return;
        }
        self.failed += 1;
        if self.quiet || self.failed > PRINTED {
            return;
        }
        let (group, index) = self.place;
        println!("FAILED {group}:{index}\n{}", description());
        println!("  alone: compare/run --seed {} --only {group}:{index}\n", self.seed);
        if self.failed == PRINTED {
            println!("further failures are only counted\n");
        }
    }
}

/// What the tables of an image say whose sizes and length are right.
pub fn problem_of(image: &[u8]) -> Problem {
    let words = words(image);
    let (header, body) = words.split_at(HEADER_WORDS);
    Problem::new(Sizes::of_words(header).expect("the sizes are right"), body, Rules::default())
}

fn describe(call: &Call, expected: &Outcome, observed: &Result<Outcome, String>) -> String {
    let (number_names, input_names) = call.kind.arguments();
    let mut text = format!("  call {}, output buffer of {} bytes\n", call.kind.name(), call.out_len);
    for (name, number) in number_names.iter().zip(&call.numbers) {
        text += &format!("  {name} {number} ({number:016X})\n");
    }
    for (name, input) in input_names.iter().zip(&call.inputs) {
        text += &format!("  {name}, {} bytes\n{}", input.len(), show(name, input));
    }
    if call.kind.is_on_made() {
        text += &format!("  drive, {} bytes\n{}", call.made.len(), show_made(&call.made));
    }
    text += &format!("  expected {}\n", show_outcome(call, expected));
    match observed {
        Ok(outcome) => text + &format!("  answered {}", show_outcome(call, outcome)),
        Err(fault) => text + &format!("  answered {fault}"),
    }
}

fn show_outcome(call: &Call, outcome: &Outcome) -> String {
    let drive = show_change(&call.made, &outcome.made);
    match &outcome.written {
        Some(written) if call.kind == Kind::Page => {
            format!("number {}, writing\n{}", outcome.number, show_text(written).trim_end())
        }
        Some(written) => format!("number {}, writing {}{drive}", outcome.number, hex(written)),
        None => format!("number {}, buffer left{drive}", outcome.number),
    }
}

/// The bytes of a made drive from the first that is another than before to the last.
fn show_change(before: &[u8], after: &[u8]) -> String {
    let mut changed = (0..after.len()).filter(|&at| before[at] != after[at]);
    match (changed.next(), changed.next_back()) {
        (Some(first), last) => {
            let last = last.unwrap_or(first);
            format!(", drive from byte {first} on {}", hex(&after[first..=last]))
        }
        _ => String::new(),
    }
}

/// A sheet as its text, any other buffer in words.
fn show(name: &str, input: &[u8]) -> String {
    if name == "sheet" {
        return show_text(input);
    }
    input.chunks(64).map(|chunk| format!("    {}\n", show_words(chunk))).collect()
}

fn show_words(bytes: &[u8]) -> String {
    bytes.chunks(4).map(hex).collect::<Vec<String>>().join(" ")
}

/// A made drive in words, each line behind its first byte's place. Lines of zeros are left out.
fn show_made(made: &[u8]) -> String {
    let lines = made.chunks(64).enumerate().filter(|(_, line)| line.iter().any(|&byte| byte != 0));
    lines.map(|(i, line)| format!("    {:4}: {}\n", 64 * i, show_words(line))).collect()
}

fn show_text(text: &[u8]) -> String {
    let lines = text.split_inclusive(|&byte| byte == b'\n');
    lines.map(|line| format!("    {}\n", line.escape_ascii())).collect()
}
