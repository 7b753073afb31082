//! Requests 9 to 11 without bytes: what a made drive holds by the calls alone, the starts that a run of them counts, and
//! the sweeps that they leave of a period.

use crate::drive::Kind;
use crate::image::{Number, Problem, Sizes, bytes, open};
use crate::made::MADE_LEN;
use crate::rules::Rules;
use crate::solve::{Answer, answer, answer_len, read_state, read_target};

/// The image and the allowance, which the heads share, and what each of them has of its own.
pub struct Plain {
    pub image: Vec<u8>,
    pub problem: Problem,
    /// As many as the last make said.
    pub heads: Vec<Head>,
    pub allowance: Allowance,
}

/// A start, and perhaps a waiting answer.
pub struct Head {
    pub start: Vec<i64>,
    pub waiting: Option<Answer>,
}

/// The sweeps of a period, counted one by one. All are 0 before the first.
pub struct Allowance {
    pub is_begun: bool,
    /// S.
    pub sweeps: u64,
    /// Those of the asks that were granted since it began.
    pub granted: u64,
    pub common: u64,
    pub own: Vec<u64>,
}

impl Allowance {
    fn begin(sweeps: u64, heads: usize) -> Allowance {
        let share = sweeps / heads as u64;
        let common = sweeps - heads as u64 * share;
        Allowance { is_begun: true, sweeps, granted: 0, common, own: vec![share; heads] }
    }

    fn none(heads: usize) -> Allowance {
        Allowance { is_begun: false, sweeps: 0, granted: 0, common: 0, own: vec![0; heads] }
    }

    /// What an ask of this head may cost.
    pub fn left(&self, head: usize) -> u64 {
        self.own[head] + self.common
    }

    fn take(&mut self, head: usize, sweeps: u64) {
        self.granted += sweeps;
        for _ in 0..sweeps {
            let left = if self.own[head] > 0 { &mut self.own[head] } else { &mut self.common };
            *left -= 1;
        }
    }
}

impl Plain {
    pub fn make(image: &[u8], heads: u32, made_len: usize) -> Result<Plain, Number> {
        if !matches!(heads, 1..=4) {
            return Err(3);
        }
        let problem = read_image(image, made_len)?;
        let (heads, allowance) = (new_heads(&problem, heads as usize), Allowance::none(heads as usize));
        Ok(Plain { image: image.to_vec(), problem, heads, allowance })
    }

    /// The allowance and the number of heads stay.
    pub fn new_image(&mut self, image: &[u8], made_len: usize) -> Result<(), Number> {
        let problem = read_image(image, made_len)?;
        if self.waits() {
            return Err(19);
        }
        self.heads = new_heads(&problem, self.heads.len());
        (self.image, self.problem) = (image.to_vec(), problem);
        Ok(())
    }

    /// Is a new image 19?
    pub fn waits(&self) -> bool {
        self.heads.iter().any(|head| head.waiting.is_some())
    }

    /// What an ask costs.
    pub fn sweeps(&self) -> u64 {
        self.problem.sizes.iterations as u64
    }

    /// Is an ask of this head within what it has left of its own share?
    pub fn is_within_own(&self, head: usize) -> bool {
        self.sweeps() <= self.allowance.own[head]
    }

    pub fn period(&mut self, sweeps: u64) {
        self.allowance = Allowance::begin(sweeps, self.heads.len());
    }

    pub fn done(&mut self, head: usize) {
        let Allowance { common, own, .. } = &mut self.allowance;
        *common += std::mem::take(&mut own[head]);
    }

    /// Of a drive's own image and start no number is left to be tested.
    pub fn ask(&mut self, head: usize, [state, target]: [&[u8]; 2], answer_room: usize) -> Result<Vec<u8>, Number> {
        let inputs = [read_state(&self.problem, state)?, read_target(&self.problem, target)?].concat();
        let start = &self.heads[head].start;
        if answer_room != answer_len(start.len()) {
            return Err(15);
        }
        if self.allowance.left(head) < self.sweeps() {
            return Err(20);
        }
        let answer = answer(&self.problem, &inputs, start);
        let written = answer.bytes();
        self.allowance.take(head, self.sweeps());
        self.heads[head].waiting = Some(answer);
        Ok(written)
    }

    pub fn commit(&mut self, head: usize, commands_room: usize) -> Result<Vec<u8>, Number> {
        let motors = self.problem.sizes.motors;
        if commands_room != 4 * motors {
            return Err(15);
        }
        let head = &mut self.heads[head];
        let answer = head.waiting.take().ok_or(18u32)?;
        head.start = next_start(&self.problem, &answer.commands);
        Ok(bytes(&answer.commands[..motors]))
    }
}

/// What a make and a new image test alike.
pub fn read_image(image: &[u8], made_len: usize) -> Result<Problem, Number> {
    let problem = open(image, Rules::default())?;
    if made_len == MADE_LEN { Ok(problem) } else { Err(15) }
}

fn new_heads(problem: &Problem, heads: usize) -> Vec<Head> {
    let head = |_| Head { start: vec![0; problem.sizes.commands()], waiting: None };
    (0..heads).map(head).collect()
}

/// Each motor's command of the step behind, that of the last step at the last, before the limits hold it.
pub fn moved(sizes: &Sizes, commands: &[i64]) -> Vec<i64> {
    let &Sizes { motors, steps, .. } = sizes;
    let places = (0..steps).flat_map(|step| (0..motors).map(move |motor| (step, motor)));
    places.map(|(step, motor)| commands[(step + 1).min(steps - 1) * motors + motor]).collect()
}

/// The commands so moved and held to the limits of where they come to.
pub fn next_start(problem: &Problem, commands: &[i64]) -> Vec<i64> {
    let moved = moved(&problem.sizes, commands).into_iter();
    moved.enumerate().map(|(k, command)| command.clamp(problem.lower[k], problem.upper[k])).collect()
}

/// What was called since the last accepted make or new image, wherever it counts for a head.
#[derive(Clone, Debug, PartialEq, Eq)]
pub enum Event {
    /// An accepted ask, with its commands.
    Ask(Vec<i64>),
    Commit,
    /// A period began, or the head said that it is done.
    Period,
    Done,
    /// A make, a new image, a call of this head, or one of no head.
    Refused(Kind, Number),
    /// A call of another head, refused or not.
    OtherHead(Kind, Number),
    /// An accepted ask of another drive.
    Elsewhere,
}

/// The commands that waited before this event.
pub fn last_asked(log: &[Event]) -> Option<&[i64]> {
    log.iter().rev().find_map(|event| if let Event::Ask(commands) = event { Some(commands.as_slice()) } else { None })
}

/// A head's start by the calls alone: zeros until its first commit, then its last committed answer, moved and held.
pub fn counted_start(problem: &Problem, log: &[Event]) -> Vec<i64> {
    match log.iter().rposition(|event| *event == Event::Commit) {
        None => vec![0; problem.sizes.commands()],
        Some(last) => next_start(problem, last_asked(&log[..last]).expect("an answer waited")),
    }
}
