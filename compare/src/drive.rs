//! The calls under comparison, and the drives that can answer them.

use crate::double::{self, Rounding};
use crate::image::{Number, bytes};
use crate::made::{self, MADE_LEN};
use crate::rules::Rules;
use crate::{page, ranges, sheet, solve};

#[derive(Clone, Copy, Debug, PartialEq, Eq)]
pub enum Kind {
    Intake,
    Page,
    ColdStart,
    Solve,
    RangeSolve,
    Make,
    Ask,
    Commit,
    NewImage,
    Period,
    Done,
    ToWord,
    Inward,
    ToDouble,
}

impl Kind {
    /// Is it one of requests 9 to 11, which have a made drive beside the other buffers?
    pub fn is_on_made(self) -> bool {
        matches!(self, Kind::Make | Kind::NewImage | Kind::Period) || self.has_head()
    }

    /// Is it a call of one head?
    pub fn has_head(self) -> bool {
        matches!(self, Kind::Ask | Kind::Commit | Kind::Done)
    }

    pub fn name(self) -> &'static str {
        match self {
            Kind::Intake => "intake",
            Kind::Page => "page",
            Kind::ColdStart => "cold_start",
            Kind::Solve => "solve",
            Kind::RangeSolve => "range_solve",
            Kind::Make => "make",
            Kind::Ask => "ask",
            Kind::Commit => "commit",
            Kind::NewImage => "new_image",
            Kind::Period => "period",
            Kind::Done => "done",
            Kind::ToWord => "to_word",
            Kind::Inward => "inward",
            Kind::ToDouble => "to_double",
        }
    }

    /// The names of its numbers, then of its lent buffers.
    pub fn arguments(self) -> (&'static [&'static str], &'static [&'static str]) {
        match self {
            Kind::Intake | Kind::Page => (&[], &["sheet"]),
            Kind::ColdStart | Kind::NewImage => (&[], &["image"]),
            Kind::Make => (&["heads"], &["image"]),
            Kind::Ask => (&["head"], &["state", "target"]),
            Kind::Commit | Kind::Done => (&["head"], &[]),
            Kind::Period => (&["sweeps"], &[]),
            Kind::Solve => (&[], &["image", "state", "target", "start"]),
            Kind::RangeSolve => (&[], &["image", "ranges", "target", "start"]),
            Kind::ToWord => (&["bits", "b", "w", "how"], &[]),
            Kind::Inward => (&["low_bits", "high_bits", "b", "w"], &[]),
            Kind::ToDouble => (&["value", "b", "w"], &[]),
        }
    }
}

/// One call with all that it is given.
pub struct Call {
    pub kind: Kind,
    pub numbers: Vec<u64>,
    pub inputs: Vec<Vec<u8>>,
    /// The made drive, where the call has one.
    pub made: Vec<u8>,
    pub out_len: usize,
}

impl Call {
    pub fn on_buffers(kind: Kind, inputs: &[&[u8]], out_len: usize) -> Call {
        let inputs = inputs.iter().map(|input| input.to_vec()).collect();
        Call { kind, numbers: Vec::new(), inputs, made: Vec::new(), out_len }
    }

    pub fn on_numbers(kind: Kind, numbers: &[u64]) -> Call {
        let out_len = if kind == Kind::ToWord { 4 } else { 8 };
        Call { kind, numbers: numbers.to_vec(), inputs: Vec::new(), made: Vec::new(), out_len }
    }

    pub fn lent(&self) -> Vec<&[u8]> {
        self.inputs.iter().map(Vec::as_slice).collect()
    }

    /// What the papers say of it.
    pub fn outcome(&self) -> Outcome {
        if self.kind.is_on_made() {
            return made::outcome(self.kind, &self.numbers, &self.made, &self.lent(), self.out_len);
        }
        outcome(self.kind, &self.numbers, &self.lent(), self.out_len, Rules::default())
    }
}

/// A call on a made drive, without that drive.
#[derive(Clone)]
pub struct Act {
    pub kind: Kind,
    /// The heads of a make, the sweeps of a period, or the head of an ask, a commit or a done.
    pub number: Option<u32>,
    pub inputs: Vec<Vec<u8>>,
    pub out_len: usize,
    /// The length of the drive that it is made on.
    pub made_len: usize,
}

impl Act {
    fn new(kind: Kind, number: Option<u32>, inputs: &[&[u8]], out_len: usize) -> Act {
        let inputs = inputs.iter().map(|input| input.to_vec()).collect();
        Act { kind, number, inputs, out_len, made_len: MADE_LEN }
    }

    /// It writes to the drive alone, and has no output buffer, as a new image, a period and a done.
    pub fn make(image: &[u8], heads: u32) -> Act {
        Act::new(Kind::Make, Some(heads), &[image], 0)
    }

    pub fn new_image(image: &[u8]) -> Act {
        Act::new(Kind::NewImage, None, &[image], 0)
    }

    pub fn period(sweeps: u16) -> Act {
        Act::new(Kind::Period, Some(sweeps.into()), &[], 0)
    }

    pub fn ask(head: u32, [state, target]: [&[u8]; 2], answer_len: usize) -> Act {
        Act::new(Kind::Ask, Some(head), &[state, target], answer_len)
    }

    pub fn commit(head: u32, commands_len: usize) -> Act {
        Act::new(Kind::Commit, Some(head), &[], commands_len)
    }

    pub fn done(head: u32) -> Act {
        Act::new(Kind::Done, Some(head), &[], 0)
    }

    /// Of an ask, of a commit and of a done.
    pub fn head(&self) -> Option<u32> {
        self.number.filter(|_| self.kind.has_head())
    }

    pub fn length(self, made_len: usize) -> Act {
        Act { made_len, ..self }
    }

    /// The call on this drive, or on one of another length that has its bytes as far as they reach.
    pub fn on(&self, made: &[u8]) -> Call {
        let mut made = made.to_vec();
        made.resize(self.made_len, 0x3C);
        let numbers = self.number.map(u64::from).into_iter().collect();
        Call { kind: self.kind, numbers, inputs: self.inputs.clone(), made, out_len: self.out_len }
    }
}

/// What a call answers: its number, the bytes of its output buffer unless it leaves them, and the bytes of the made
/// drive afterwards, none where the call has no such drive.
#[derive(Clone, Debug, PartialEq, Eq)]
pub struct Outcome {
    pub number: Number,
    pub written: Option<Vec<u8>>,
    pub made: Vec<u8>,
}

pub trait Drive {
    fn call(&self, kind: Kind, numbers: &[u64], inputs: &[&[u8]], out: &mut [u8]) -> Number;

    /// The calls of requests 9 to 11. Those of other requests' false economies are right.
    fn call_made(&self, kind: Kind, numbers: &[u64], made: &mut [u8], inputs: &[&[u8]], out: &mut [u8]) -> Number {
        made::call(kind, numbers, made, inputs, out)
    }
}

/// The outcome of a call without a made drive by document 01 with requests 1 to 8 and 12, or that of a false economy.
pub fn outcome(kind: Kind, numbers: &[u64], inputs: &[&[u8]], out_len: usize, rules: Rules) -> Outcome {
    let result = match (kind, inputs) {
        (Kind::Intake, [sheet]) => sheet::intake_call(sheet, out_len, rules),
        (Kind::Page, [sheet]) => page::page_call(sheet, out_len, rules),
        (Kind::ColdStart, [image]) => solve::cold_start_call(image, out_len, rules),
        (Kind::Solve, &[image, state, target, start]) => {
            solve::solve_call([image, state, target, start], out_len, rules)
        }
        (Kind::RangeSolve, &[image, ranges, target, start]) => {
            ranges::range_call([image, ranges, target, start], out_len, rules)
        }
        _ => return conversion(kind, numbers),
    };
    of_result(result)
}

fn of_result(result: Result<Vec<u8>, Number>) -> Outcome {
    match result {
        Ok(written) => Outcome { number: 0, written: Some(written), made: Vec::new() },
        Err(number) => Outcome { number, written: None, made: Vec::new() },
    }
}

fn conversion(kind: Kind, numbers: &[u64]) -> Outcome {
    let small = |number: u64| number as u32;
    match (kind, numbers) {
        (Kind::ToWord, &[double, b, w, how]) => {
            let rounding = match how {
                0 => Rounding::Down,
                1 => Rounding::Up,
                _ => Rounding::Nearest,
            };
            let word = double::to_word(double, small(b), small(w), rounding);
            of_result(word.map(|word| bytes(&[word])).ok_or(5))
        }
        (Kind::Inward, &[low, high, b, w]) => {
            let pair = double::inward(low, high, small(b), small(w));
            of_result(pair.map(|(low, high)| bytes(&[low, high])).ok_or(5))
        }
        (Kind::ToDouble, &[value, b, w]) => {
            let result = double::of_word(value as i64, small(b), small(w));
            // The one call that writes with every number.
            let written = Some(result.unwrap_or(0).to_be_bytes().to_vec());
            Outcome { number: result.err().unwrap_or(0), written, made: Vec::new() }
        }
        _ => panic!("{kind:?} with other arguments than its own"),
    }
}

/// This program's own implementation, standing in for the library.
pub struct Reference {
    pub rules: Rules,
}

impl Drive for Reference {
    fn call(&self, kind: Kind, numbers: &[u64], inputs: &[&[u8]], out: &mut [u8]) -> Number {
        let outcome = outcome(kind, numbers, inputs, out.len(), self.rules);
        if let Some(written) = outcome.written {
            out.copy_from_slice(&written);
        }
        outcome.number
    }
}

#[cfg(linked)]
pub use linked::Linked;

#[cfg(linked)]
mod linked {
    use super::{Drive, Kind, Number};

    unsafe extern "C" {
        fn gantry_intake(sheet: *const u8, sheet_len: usize, image: *mut u8, image_len: usize) -> u32;
        fn gantry_page(sheet: *const u8, sheet_len: usize, page: *mut u8, page_len: usize) -> u32;
        fn gantry_cold_start(image: *const u8, image_len: usize, start: *mut u8, start_len: usize) -> u32;
        fn gantry_solve(
            image: *const u8,
            image_len: usize,
            state: *const u8,
            state_len: usize,
            target: *const u8,
            target_len: usize,
            start: *const u8,
            start_len: usize,
            answer: *mut u8,
            answer_len: usize,
        ) -> u32;
        fn gantry_range_solve(
            image: *const u8,
            image_len: usize,
            ranges: *const u8,
            ranges_len: usize,
            target: *const u8,
            target_len: usize,
            start: *const u8,
            start_len: usize,
            answer: *mut u8,
            answer_len: usize,
        ) -> u32;
        fn gantry_make(image: *const u8, image_len: usize, heads: u32, drive: *mut u8, drive_len: usize) -> u32;
        fn gantry_ask(
            drive: *mut u8,
            drive_len: usize,
            head: u32,
            state: *const u8,
            state_len: usize,
            target: *const u8,
            target_len: usize,
            answer: *mut u8,
            answer_len: usize,
        ) -> u32;
        fn gantry_commit(drive: *mut u8, drive_len: usize, head: u32, commands: *mut u8, commands_len: usize) -> u32;
        fn gantry_new_image(drive: *mut u8, drive_len: usize, image: *const u8, image_len: usize) -> u32;
        fn gantry_period(drive: *mut u8, drive_len: usize, sweeps: u16) -> u32;
        fn gantry_done(drive: *mut u8, drive_len: usize, head: u32) -> u32;
    }

    /// The static library.
    pub struct Linked;

    impl Drive for Linked {
        fn call(&self, kind: Kind, numbers: &[u64], inputs: &[&[u8]], out: &mut [u8]) -> Number {
            let (to, room) = (out.as_mut_ptr(), out.len());
            // SAFETY: every pointer comes with the length of the slice it was taken from.
            unsafe {
                match (kind, inputs) {
                    (Kind::Intake, [sheet]) => gantry_intake(sheet.as_ptr(), sheet.len(), to, room),
                    (Kind::Page, [sheet]) => gantry_page(sheet.as_ptr(), sheet.len(), to, room),
                    (Kind::ColdStart, [image]) => gantry_cold_start(image.as_ptr(), image.len(), to, room),
                    (Kind::Solve, [image, state, target, start]) => gantry_solve(
                        image.as_ptr(),
                        image.len(),
                        state.as_ptr(),
                        state.len(),
                        target.as_ptr(),
                        target.len(),
                        start.as_ptr(),
                        start.len(),
                        to,
                        room,
                    ),
                    (Kind::RangeSolve, [image, ranges, target, start]) => gantry_range_solve(
                        image.as_ptr(),
                        image.len(),
                        ranges.as_ptr(),
                        ranges.len(),
                        target.as_ptr(),
                        target.len(),
                        start.as_ptr(),
                        start.len(),
                        to,
                        room,
                    ),
                    _ => super::probe(kind, numbers, to, room),
                }
            }
        }

        fn call_made(&self, kind: Kind, numbers: &[u64], made: &mut [u8], inputs: &[&[u8]], out: &mut [u8]) -> Number {
            let (drive, length) = (made.as_mut_ptr(), made.len());
            let (to, room) = (out.as_mut_ptr(), out.len());
            // SAFETY: every pointer comes with the length of the slice it was taken from.
            unsafe {
                match (kind, numbers, inputs) {
                    (Kind::Make, &[heads], [image]) => {
                        gantry_make(image.as_ptr(), image.len(), heads as u32, drive, length)
                    }
                    (Kind::Ask, &[head], [state, target]) => gantry_ask(
                        drive,
                        length,
                        head as u32,
                        state.as_ptr(),
                        state.len(),
                        target.as_ptr(),
                        target.len(),
                        to,
                        room,
                    ),
                    (Kind::Commit, &[head], []) => gantry_commit(drive, length, head as u32, to, room),
                    (Kind::NewImage, [], [image]) => gantry_new_image(drive, length, image.as_ptr(), image.len()),
                    (Kind::Period, &[sweeps], []) => gantry_period(drive, length, sweeps as u16),
                    (Kind::Done, &[head], []) => gantry_done(drive, length, head as u32),
                    _ => panic!("{kind:?} with other arguments than its own"),
                }
            }
        }
    }
}

#[cfg(probe)]
unsafe fn probe(kind: Kind, numbers: &[u64], out: *mut u8, room: usize) -> Number {
    unsafe extern "C" {
        fn probe_to_word(bits: u64, b: u32, w: u32, how: u32, out: *mut u8, out_len: usize) -> u32;
        fn probe_inward(low: u64, high: u64, b: u32, w: u32, out: *mut u8, out_len: usize) -> u32;
        fn probe_to_double(value: i64, b: u32, w: u32, out: *mut u8, out_len: usize) -> u32;
    }
    let small = |number: u64| number as u32;
    unsafe {
        match (kind, numbers) {
            (Kind::ToWord, &[bits, b, w, how]) => probe_to_word(bits, small(b), small(w), small(how), out, room),
            (Kind::Inward, &[low, high, b, w]) => probe_inward(low, high, small(b), small(w), out, room),
            (Kind::ToDouble, &[value, b, w]) => probe_to_double(value as i64, small(b), small(w), out, room),
            _ => panic!("{kind:?} with other arguments than its own"),
        }
    }
}

#[cfg(all(linked, not(probe)))]
unsafe fn probe(kind: Kind, _: &[u64], _: *mut u8, _: usize) -> Number {
    panic!("{kind:?} without libprobe.a")
}
