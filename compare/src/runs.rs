//! Runs of calls on made drives. Each call is compared byte for byte, and the drive with what the calls alone say of
//! it, as long as nothing else writes to it; and what concerns a head, alone and beside other calls of the others.

mod apart;
mod damage;
mod edges;
mod sweeps;

pub use damage::trial as damage;
pub use edges::edges;
pub use sweeps::every_period;

use std::ops::Range;

use crate::draft::Draft;
use crate::drive::{Act, Call, Kind, Outcome};
use crate::generate::{self, Plan};
use crate::harness::Harness;
use crate::image::{Number, Sizes, bytes, read_sizes, words};
use crate::made::{ANSWER, COMMON, COUNT, HEADS, Held, IMAGE, MADE_LEN, OWN, START, WAITS};
use crate::made::{answer_part, common_part, head_part, heads_made, own_part, start_part, waits, word_at};
use crate::plain::{Event, Plain, counted_start, read_image};
use crate::random::Random;
use apart::{Called, Course};

/// A made drive under comparison.
pub struct Run {
    /// As the last call left it.
    pub made: Vec<u8>,
    /// What the calls alone say of it, unless something else wrote to it.
    plain: Option<Plain>,
    /// For each head the calls since the last accepted make or new image.
    log: [Vec<Event>; HEADS],
    /// Was that a new image?
    is_renewed: bool,
    course: Course,
}

impl Run {
    /// On a buffer that no call has written.
    pub fn new(made: Vec<u8>) -> Run {
        let course = Course::new(&made);
        Run { made, plain: None, log: Default::default(), is_renewed: false, course }
    }

    /// Something else than a call writes to the drive.
    pub fn put(&mut self, at: usize, bytes: &[u8]) {
        self.made[at..at + bytes.len()].copy_from_slice(bytes);
        self.plain = None;
        self.mark();
    }

    /// The course of the calls begins here.
    fn mark(&mut self) {
        self.course = Course::since(&self.made);
    }

    fn tell(&mut self, event: impl Fn() -> Event) {
        self.log.iter_mut().for_each(|log| log.push(event()));
    }

    /// Compares a call on the drive.
    pub fn call(&mut self, harness: &mut Harness, act: &Act) -> Outcome {
        let name = act.kind.name();
        let outcome = harness.compare(&act.on(&self.made));
        if harness.is_random() {
            self.cover(harness, act, outcome.number);
        }
        self.course.calls.push(Called::new(act, &outcome, &self.made));
        let holds = self.follow(act, &outcome);
        harness.check(holds, || format!("  {name}: by the calls alone it is another"));
        if act.made_len == MADE_LEN {
            let holds = self.is_left(act, &outcome);
            harness.check(holds, || format!("  {name}: it writes to what is not its own"));
            self.made = outcome.made.clone();
        }
        let holds = self.plain.as_ref().is_none_or(|plain| self.agrees(plain));
        harness.check(holds, || format!("  {name}: by the calls alone the drive is another"));
        let holds = self.plain.as_ref().is_none_or(|plain| self.comes_to_sweeps(plain));
        harness.check(holds, || format!("  {name}: what is left and what was granted do not come to S"));
        outcome
    }

    /// What a random run comes by with this call; the drive is still as it was before it.
    fn cover(&self, harness: &mut Harness, act: &Act, number: Number) {
        match (&self.plain, act.kind, act.head(), number) {
            (Some(plain), Kind::Commit, Some(head), 0) => harness.cover_commit(head, &plain.problem.sizes),
            (_, Kind::NewImage, _, 0) => {
                let sizes = read_sizes(&act.inputs[0]).expect("the image is accepted");
                harness.cover_new_image(&sizes);
            }
            _ => {}
        }
        harness.meet_edges(edges::of_call(self, act, number));
    }

    /// Makes the call without bytes. Is it the same?
    fn follow(&mut self, act: &Act, outcome: &Outcome) -> bool {
        match (act.kind, act.number) {
            (Kind::Make, Some(heads)) => self.follow_make(act, heads, outcome.number),
            (Kind::Period, Some(sweeps)) => self.follow_period(act, sweeps.into(), outcome.number),
            (_, Some(head)) => self.follow_head(act, head as usize, outcome),
            (_, None) => self.follow_new_image(act, outcome.number),
        }
    }

    fn follow_make(&mut self, act: &Act, heads: u32, number: Number) -> bool {
        let result = Plain::make(&act.inputs[0], heads, act.made_len);
        let found = result.as_ref().err().copied().unwrap_or(0);
        match result {
            Ok(plain) => (self.plain, self.log, self.is_renewed) = (Some(plain), Default::default(), false),
            Err(number) => self.tell(|| Event::Refused(act.kind, number)),
        }
        found == number
    }

    /// Of a drive that something else wrote to, its words alone say whether an answer waits.
    fn follow_new_image(&mut self, act: &Act, number: Number) -> bool {
        let image = &act.inputs[0];
        let Some(plain) = &mut self.plain else {
            return read_image(image, act.made_len).map_or_else(|own| number == own, |_| matches!(number, 0 | 19));
        };
        let result = plain.new_image(image, act.made_len);
        match result {
            Ok(()) => (self.log, self.is_renewed) = (Default::default(), true),
            Err(number) => self.tell(|| Event::Refused(act.kind, number)),
        }
        number == result.err().unwrap_or(0)
    }

    /// Of a drive that something else wrote to, the number of its heads may be 3.
    fn follow_period(&mut self, act: &Act, sweeps: u64, number: Number) -> bool {
        if act.made_len != MADE_LEN {
            return number == 15;
        }
        let Some(plain) = &mut self.plain else {
            return matches!(number, 0 | 3);
        };
        plain.period(sweeps);
        self.tell(|| Event::Period);
        number == 0
    }

    /// A call of a head: with one of the numbers that are left for a drive's own image?
    fn follow_head(&mut self, act: &Act, head: usize, outcome: &Outcome) -> bool {
        let (kind, number) = (act.kind, outcome.number);
        let right_length = act.made_len == MADE_LEN;
        let is_made = |plain: &Plain| head < plain.heads.len() || !right_length;
        if head >= HEADS || !self.plain.as_ref().is_none_or(is_made) {
            self.tell(|| Event::Refused(kind, 3));
            return number == 3;
        }
        let Some(plain) = self.plain.as_mut().filter(|_| right_length) else {
            return right_length || number == 15;
        };
        let within_own = plain.is_within_own(head);
        let result = called(plain, act, head);
        let event = match (kind, &result) {
            (Kind::Ask, Ok(answer)) => Event::Ask(words(&answer[..4 * plain.problem.sizes.commands()])),
            (Kind::Commit, Ok(_)) => Event::Commit,
            (_, Ok(_)) => Event::Done,
            (_, Err(number)) => Event::Refused(kind, *number),
        };
        self.tell_of_head(head, event, Event::OtherHead(kind, number));
        let left: &[Number] = match kind {
            Kind::Ask if within_own => &[0, 13, 16, 15],
            Kind::Ask => &[0, 13, 16, 15, 20],
            Kind::Commit => &[0, 15, 18],
            _ => &[0],
        };
        let written = outcome.written.clone().unwrap_or_default();
        left.contains(&number) && result == if number == 0 { Ok(written) } else { Err(number) }
    }

    fn tell_of_head(&mut self, head: usize, own: Event, others: Event) {
        for (k, log) in self.log.iter_mut().enumerate() {
            log.push(if k == head { own.clone() } else { others.clone() });
        }
    }

    /// Has the call left what is not its own to write, and all if it is refused?
    fn is_left(&self, act: &Act, outcome: &Outcome) -> bool {
        let mut left = self.made.clone();
        let parts = if outcome.number == 0 { parts(act) } else { Vec::new() };
        parts.into_iter().for_each(|part| left[part.clone()].copy_from_slice(&outcome.made[part]));
        left == outcome.made
    }

    /// Does the drive hold the image, for each head the start that the calls count and the answer that waits, and the
    /// sweeps that they leave?
    fn agrees(&self, plain: &Plain) -> bool {
        let (made, sizes) = (&self.made, &plain.problem.sizes);
        let head_agrees = |k: usize| {
            let (head, waiting) = (&plain.heads[k], plain.heads[k].waiting.as_ref());
            head.start == counted_start(&plain.problem, &self.log[k])
                && made[start_part(k, sizes)] == bytes(&head.start)
                && word_at(made, WAITS[k]) == u32::from(waiting.is_some())
                && waiting.is_none_or(|answer| made[answer_part(k, sizes)] == answer.bytes())
                && u64::from(word_at(made, OWN[k])) == plain.allowance.own[k]
        };
        Held::of(made).is_ok_and(|held| held.image == plain.image)
            && word_at(made, COUNT) as usize == plain.heads.len()
            && u64::from(word_at(made, COMMON)) == plain.allowance.common
            && (0..plain.heads.len()).all(head_agrees)
    }

    /// Request 11 on the words of the drive, those of heads that it was not made with being 0: what is left and what the
    /// calls count as granted come to S, so that the granted sweeps never pass it.
    fn comes_to_sweeps(&self, plain: &Plain) -> bool {
        let left: u64 = [COMMON].iter().chain(&OWN).map(|&at| u64::from(word_at(&self.made, at))).sum();
        let allowance = &plain.allowance;
        allowance.granted <= allowance.sweeps && left + allowance.granted == allowance.sweeps
    }
}

/// A call of a head without bytes.
fn called(plain: &mut Plain, act: &Act, head: usize) -> Result<Vec<u8>, Number> {
    match (act.kind, &act.inputs[..]) {
        (Kind::Ask, [state, target]) => plain.ask(head, [state, target], act.out_len),
        (Kind::Commit, _) => plain.commit(head, act.out_len),
        _ => {
            plain.done(head);
            Ok(Vec::new())
        }
    }
}

/// What an accepted call may write.
fn parts(act: &Act) -> Vec<Range<usize>> {
    let head = act.head().map_or(0, |head| head as usize);
    match act.kind {
        Kind::Ask => vec![head_part(head), common_part(), own_part(head)],
        Kind::Commit => vec![head_part(head)],
        Kind::Done => vec![common_part(), own_part(head)],
        Kind::Period => vec![COMMON..MADE_LEN],
        Kind::NewImage => vec![0..COUNT],
        _ => vec![0..MADE_LEN],
    }
}

/// A drive of a trial, and the problem whose image it last took.
struct Subject {
    run: Run,
    draft: Draft,
    is_made: bool,
}

/// Runs of calls on one drive, or on two in turn. In every third something else writes to the drives too, and of every
/// second what concerns each head is run again.
pub fn trial(harness: &mut Harness, index: u64, random: &mut Random) {
    let (damages, again) = (index % 3 == 2, index.is_multiple_of(2));
    let mut subjects: Vec<Subject> = (0..random.pick(&[1, 1, 2])).map(|_| Subject::new(random)).collect();
    for _ in 0..random.between(6, 48) {
        let which = random.below(subjects.len());
        // A course may begin at any moment.
        if again && random.one_in(24) {
            subjects[which].run.mark();
        }
        let asked = subjects[which].act(harness, random, damages);
        let others = subjects.iter_mut().enumerate().filter(|(other, _)| asked && *other != which);
        others.for_each(|(_, subject)| subject.run.tell(|| Event::Elsewhere));
    }
    for subject in subjects.iter().filter(|_| again) {
        apart::compare(harness, random, &subject.run);
    }
}

impl Subject {
    /// On bytes at random, of one value or all zeros.
    fn new(random: &mut Random) -> Subject {
        let value = random.next() as u8;
        let made = match random.below(3) {
            0 => (0..MADE_LEN).map(|_| random.next() as u8).collect(),
            1 => vec![value; MADE_LEN],
            _ => vec![0; MADE_LEN],
        };
        let draw = if random.one_in(8) { generate::largest_case } else { generate::solve_case };
        Subject { run: Run::new(made), draft: draw(random, &Plan::nothing()).draft, is_made: false }
    }

    /// Is it an accepted ask?
    fn act(&mut self, harness: &mut Harness, random: &mut Random, damages: bool) -> bool {
        if !self.is_made && !random.one_in(8) {
            self.is_made = true;
            self.run.call(harness, &Act::make(&self.draft.image(), heads(random)));
            self.begin(harness, random);
            return false;
        }
        if damages && random.one_in(4) {
            (0..=random.below(3)).for_each(|_| self.damage(random));
        }
        let made_len = if random.one_in(24) { other_len(random) } else { MADE_LEN };
        let head = random.below(heads_made(&self.run.made).max(1)) as u32;
        match random.below(29) {
            0 => self.make(harness, random, made_len),
            1 | 2 => self.new_image(harness, random, made_len),
            3..6 => return self.refused_ask(harness, random, head, made_len),
            6..13 => return self.ask(harness, random, head, &Plan::nothing(), made_len),
            13..20 => self.commit(harness, head, 4 * self.sizes().motors, made_len),
            20 | 21 => {
                let commands_len = generate::commands_len(random, &self.sizes());
                self.commit(harness, head, commands_len, made_len);
            }
            22 | 23 => self.of_no_head(harness, random, made_len),
            24..27 => self.period(harness, random, made_len),
            _ => self.done(harness, head, made_len),
        }
        false
    }

    /// Those that the drive has, be they damaged, or else the draft's.
    fn sizes(&self) -> Sizes {
        Held::of(&self.run.made).and_then(|held| held.sizes()).unwrap_or(self.draft.sizes)
    }

    /// A make or a new image: of its own image, of another with its sizes, or of any, spoilt or not.
    fn image(&mut self, harness: &mut Harness, random: &mut Random, act: impl Fn(&[u8]) -> Act, made_len: usize) {
        let plan = Plan::any(random, &generate::MAKE_NUMBERS);
        let made_len = if made_len == MADE_LEN { generate::out_len(random, &plan, MADE_LEN) } else { made_len };
        let (draft, image) = match random.below(8) {
            0 | 1 => (self.draft.clone(), self.draft.image()),
            2 => generate::image_case(random, &plan, Some(self.draft.sizes)),
            3 | 4 => {
                let draft = self.draft.clone().iterations(generate::iterations(random));
                (draft.clone(), draft.image())
            }
            _ => generate::image_case(random, &plan, None),
        };
        if self.run.call(harness, &act(&image).length(made_len)).number == 0 {
            self.draft = draft;
        }
    }

    fn make(&mut self, harness: &mut Harness, random: &mut Random, made_len: usize) {
        let heads = if random.one_in(6) { generate::other_heads(random) } else { heads(random) };
        self.image(harness, random, |image| Act::make(image, heads), made_len);
        self.begin(harness, random);
    }

    /// Most often the first period begins at once.
    fn begin(&mut self, harness: &mut Harness, random: &mut Random) {
        if !random.one_in(4) {
            self.period(harness, random, MADE_LEN);
        }
    }

    /// Often what waits is committed first.
    fn new_image(&mut self, harness: &mut Harness, random: &mut Random, made_len: usize) {
        let commits = random.one_in(2);
        for head in (0..HEADS).filter(|_| commits) {
            if waits(&self.run.made, head) {
                self.commit(harness, head as u32, 4 * self.sizes().motors, MADE_LEN);
            }
        }
        self.image(harness, random, Act::new_image, made_len);
    }

    fn refused_ask(&mut self, harness: &mut Harness, random: &mut Random, head: u32, made_len: usize) -> bool {
        let plan = Plan::any(random, &[13, 16, 15]);
        self.ask(harness, random, head, &plan, made_len)
    }

    fn ask(&mut self, harness: &mut Harness, random: &mut Random, head: u32, plan: &Plan, made_len: usize) -> bool {
        let [state, target] = generate::inputs(random, plan, &self.draft.problem());
        let answer_len = generate::answer_len(random, plan, &self.sizes());
        let plain = self.run.plain.as_ref().filter(|plain| (head as usize) < plain.heads.len());
        let before = plain.map(|plain| counted_start(&plain.problem, &self.run.log[head as usize]));
        let outcome = self.run.call(harness, &Act::ask(head, [&state, &target], answer_len).length(made_len));
        if outcome.number == 20 {
            self.fallen_short(harness, random);
            return false;
        }
        if let (Some(start), true, true) = (before, made_len == MADE_LEN, random.one_in(4)) {
            self.solve(harness, [&state, &target, &bytes(&start)], answer_len, &outcome);
        }
        outcome.number == 0
    }

    /// The drive's own solve, from the start that the calls count, has the ask's number and answer.
    fn solve(&self, harness: &mut Harness, lent: [&[u8]; 3], answer_len: usize, ask: &Outcome) {
        let image = Held::of(&self.run.made).expect("the length is right").image;
        let lent = [image, lent[0], lent[1], lent[2]];
        let solve = harness.compare(&Call::on_buffers(Kind::Solve, &lent, answer_len));
        let holds = (solve.number, &solve.written) == (ask.number, &ask.written);
        harness.check(holds, || "  an ask is not the solve from the counted start".to_string());
    }

    fn commit(&mut self, harness: &mut Harness, head: u32, commands_len: usize, made_len: usize) {
        self.run.call(harness, &Act::commit(head, commands_len).length(made_len));
    }

    fn done(&mut self, harness: &mut Harness, head: u32, made_len: usize) {
        self.run.call(harness, &Act::done(head).length(made_len));
    }

    fn period(&mut self, harness: &mut Harness, random: &mut Random, made_len: usize) {
        let sweeps = generate::allowance(random, &self.sizes(), heads_made(&self.run.made));
        self.run.call(harness, &Act::period(sweeps).length(made_len));
    }

    /// Behind 20 another head is done, or a period begins, or neither.
    fn fallen_short(&mut self, harness: &mut Harness, random: &mut Random) {
        let head = random.below(HEADS) as u32;
        match random.below(4) {
            0 => self.done(harness, head, MADE_LEN),
            1 | 2 => self.period(harness, random, MADE_LEN),
            _ => {}
        }
    }

    /// A call that a head would often take, of one that no drive has or that this one was not made with.
    fn of_no_head(&mut self, harness: &mut Harness, random: &mut Random, made_len: usize) {
        let count = heads_made(&self.run.made);
        let none = generate::other_head(random);
        let head = random.pick(&[none, none, count as u32, count.max(HEADS - 1) as u32]);
        match random.below(3) {
            0 => {
                self.ask(harness, random, head, &Plan::nothing(), made_len);
            }
            1 => self.commit(harness, head, 4 * self.sizes().motors, made_len),
            _ => self.done(harness, head, made_len),
        }
    }

    fn damage(&mut self, random: &mut Random) {
        let made = damage::damaged(random, &self.run.made, &self.draft);
        self.run.put(0, &made);
    }
}

/// One to four, and four often.
fn heads(random: &mut Random) -> u32 {
    random.pick(&[1, 2, 2, 3, 4, 4])
}

/// A length that no drive has: those before requests 10 and 11 among them.
fn other_len(random: &mut Random) -> usize {
    let less = random.below(MADE_LEN);
    let (head, former) = (random.below(HEADS), random.pick(&[WAITS[1], WAITS[2]]));
    let part = random.pick(&[IMAGE, WAITS[head], START[head], ANSWER[head], COUNT, COMMON, OWN[head]]);
    random.pick(&[0, 0, 1, 3, part, part, former, former, MADE_LEN - 1, MADE_LEN + 1, MADE_LEN + 4, less])
}
