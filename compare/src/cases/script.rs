//! Scripts: calls on a made drive, or on two, and what each of them is to do.

use super::sample;
use crate::draft::Draft;
use crate::drive::{Act, Drive, Kind};
use crate::harness::Harness;
use crate::image::{Number, Sizes, bytes, words};
use crate::made::{COMMON, COUNT, HEADS, MADE_LEN, START, head_part, own_part};
use crate::runs::Run;
use crate::solve::answer_len;

/// Calls in their order.
pub struct Script {
    name: String,
    steps: Vec<Step>,
    /// The drive and the head of the next call, and the sizes of each drive.
    drive: usize,
    head: u32,
    sizes: [Sizes; 2],
    /// The fewest heads that a drive is made with.
    fewest: Option<u32>,
}

struct Step {
    drive: usize,
    /// None where something else writes.
    act: Option<Act>,
    number: Number,
    written: Option<Vec<u8>>,
    /// The starts that the drive then holds, its bytes, all or those before the number of heads, and the common sweeps
    /// and what each head has left, where they are worked out.
    starts: [Option<Vec<i64>>; HEADS],
    whole: Option<Vec<u8>>,
    left: Option<Vec<i64>>,
    put: Put,
}

/// What is written otherwise, and where.
#[derive(Default)]
struct Put {
    at: usize,
    bytes: Vec<u8>,
}

impl Put {
    fn end(&self) -> usize {
        self.at + self.bytes.len()
    }
}

/// What no call has written.
fn unmade() -> Vec<u8> {
    vec![0xEE; MADE_LEN]
}

impl Script {
    pub fn new(name: &str) -> Script {
        let sizes = [sample().sizes; 2];
        Script { name: name.to_string(), steps: Vec::new(), drive: 0, head: 0, sizes, fewest: None }
    }

    /// A drive that was just made, of two heads and with the most sweeps.
    pub fn of(name: &str, draft: &Draft) -> Script {
        Script::new(name).make(draft)
    }

    /// A drive that was just made, of so many heads and without a period.
    pub fn with(name: &str, heads: u32, draft: &Draft) -> Script {
        Script::new(name).make_of(heads, draft)
    }

    fn sizes(&self) -> &Sizes {
        &self.sizes[self.drive]
    }

    fn push(mut self, act: Option<Act>, number: Number) -> Script {
        let (drive, starts, put) = (self.drive, Default::default(), Put::default());
        self.steps.push(Step { drive, act, number, written: None, starts, whole: None, left: None, put });
        self
    }

    fn last(&mut self) -> &mut Step {
        self.steps.last_mut().expect("there is a step")
    }

    fn act(&mut self) -> &mut Act {
        self.last().act.as_mut().expect("the last step is a call")
    }

    /// Of two heads, and the first period has so many sweeps that no ask of requests 9 and 10 falls short.
    pub fn make(self, draft: &Draft) -> Script {
        self.make_of(2, draft).period(65535)
    }

    /// Before the first period there are no sweeps.
    pub fn make_of(mut self, heads: u32, draft: &Draft) -> Script {
        self.fewest = self.fewest.or(Some(heads)).min(Some(heads));
        self.image(draft, |image| Act::make(image, heads), &[(COUNT, &[heads.into()])])
    }

    /// Number of heads and sweeps stay.
    pub fn new_image(self, draft: &Draft) -> Script {
        let mut script = self.image(draft, Act::new_image, &[]);
        script.last().whole.as_mut().expect("it is worked out").truncate(COUNT);
        script
    }

    /// All bytes are then those of the image's length and of the image, and zeros, but for these.
    fn image(mut self, draft: &Draft, act: impl Fn(&[u8]) -> Act, others: &[(usize, &[i64])]) -> Script {
        self.sizes[self.drive] = draft.sizes;
        let image = draft.image();
        let script = self.push(Some(act(&image)), 0);
        script.whole(&[&[(0, &[image.len() as i64][..]), (4, &words(&image))], others].concat())
    }

    pub fn no_make(self, image: &[u8], number: Number) -> Script {
        self.push(Some(Act::make(image, 2)), number)
    }

    pub fn no_new_image(self, image: &[u8], number: Number) -> Script {
        self.push(Some(Act::new_image(image)), number)
    }

    pub fn period(self, sweeps: u16) -> Script {
        self.no_period(sweeps, 0)
    }

    pub fn no_period(self, sweeps: u16, number: Number) -> Script {
        self.push(Some(Act::period(sweeps)), number)
    }

    pub fn done(self) -> Script {
        self.no_done(0)
    }

    pub fn no_done(self, number: Number) -> Script {
        let act = Act::done(self.head);
        self.push(Some(act), number)
    }

    /// The answer's commands and bounds, and D.
    pub fn ask(self, state: &[i64], row: &[i64], distance: u64) -> Script {
        let mut script = self.no_ask(state, 0);
        script.last().written = Some([bytes(row), distance.to_be_bytes().to_vec()].concat());
        script
    }

    pub fn no_ask(self, state: &[i64], number: Number) -> Script {
        let act = Act::ask(self.head, [&bytes(state), &[]], answer_len(self.sizes().commands()));
        self.push(Some(act), number)
    }

    /// The commands that it issues, and the next start.
    pub fn commit(self, commands: &[i64], start: &[i64]) -> Script {
        self.no_commit(0).issues(commands).start(start)
    }

    pub fn issues(mut self, commands: &[i64]) -> Script {
        self.last().written = Some(bytes(commands));
        self
    }

    pub fn no_commit(self, number: Number) -> Script {
        let act = Act::commit(self.head, 4 * self.sizes().motors);
        self.push(Some(act), number)
    }

    /// The target of the last call, which is an ask.
    pub fn to(mut self, target: &[i64]) -> Script {
        self.act().inputs[1] = bytes(target);
        self
    }

    /// The start of this head behind the last call.
    pub fn start(mut self, start: &[i64]) -> Script {
        let head = self.head as usize;
        self.last().starts[head] = Some(start.to_vec());
        self
    }

    /// The bytes behind the last call: words at their places, and zeros.
    pub fn whole(mut self, parts: &[(usize, &[i64])]) -> Script {
        let mut whole = vec![0; 3120];
        for &(at, part) in parts {
            whole[at..at + 4 * part.len()].copy_from_slice(&bytes(part));
        }
        self.last().whole = Some(whole);
        self
    }

    /// The common sweeps behind the last call, and what each head made has left.
    pub fn left(mut self, common: i64, own: &[i64]) -> Script {
        self.last().left = Some([&[common], own].concat());
        self
    }

    /// The heads of the last call, which is a make.
    pub fn heads(mut self, heads: u32) -> Script {
        self.act().number = Some(heads);
        self
    }

    /// The length of the last call's output buffer.
    pub fn room(mut self, out_len: usize) -> Script {
        self.act().out_len = out_len;
        self
    }

    /// The length of the drive in the last call.
    pub fn length(mut self, made_len: usize) -> Script {
        self.act().made_len = made_len;
        self
    }

    /// Further calls are on this drive.
    pub fn on(mut self, drive: usize) -> Script {
        self.drive = drive;
        self
    }

    /// Further calls are of this head.
    pub fn head(mut self, head: u32) -> Script {
        self.head = head;
        self
    }

    pub fn put(self, at: usize, bytes: &[u8]) -> Script {
        let mut script = self.push(None, 0);
        script.last().put = Put { at, bytes: bytes.to_vec() };
        script
    }

    pub fn put_word(self, at: usize, word: i64) -> Script {
        self.put(at, &bytes(&[word]))
    }

    /// It tells the heads apart by more than their calls.
    pub fn fixed(mut self) -> Script {
        self.fewest = Some(1);
        self
    }

    /// The same with each head that every drive has in the place of the next, and the last in that of the first.
    pub fn turned(self) -> Option<Script> {
        let heads = self.fewest.map_or(2, |heads| heads as usize);
        let places = [0, 1, 2, 3].map(|head| if head < heads { (head + 1) % heads } else { head });
        (heads > 1).then(|| self.placed("the heads turned", places))
    }

    /// The same on drives of four heads, head 3 being in the place of head 0 and head 2 in that of head 1. Not so where
    /// a head is one too many, or the number of heads something else's.
    pub fn of_four(mut self) -> Option<Script> {
        for step in &mut self.steps {
            let act = step.act.as_mut();
            if act.as_ref().is_some_and(|act| matches!(act.head(), Some(2 | 3))) || step.put.end() > COUNT {
                return None;
            }
            if let Some(act) = act.filter(|act| act.kind == Kind::Make) {
                act.number = Some(4);
            }
            step.whole.iter_mut().for_each(|whole| whole.truncate(COUNT));
        }
        Some(self.placed("of four heads", [3, 2, 1, 0]))
    }

    fn placed(mut self, name: &str, places: [usize; HEADS]) -> Script {
        self.name += &format!(", {name}");
        self.steps.iter_mut().for_each(|step| step.place(places));
        self
    }
}

impl Step {
    /// Gives what is said of each head to another.
    fn place(&mut self, places: [usize; HEADS]) {
        if let Some(act) = self.act.as_mut().filter(|act| act.kind.has_head()) {
            let place = |head: u32| places.get(head as usize).map_or(head, |&place| place as u32);
            act.number = act.number.map(place);
        }
        let starts = std::mem::take(&mut self.starts);
        starts.into_iter().zip(places).for_each(|(start, place)| self.starts[place] = start);
        self.whole = self.whole.as_deref().map(|whole| placed(whole, places));
        self.left = self.left.as_deref().map(|left| {
            let mut new = left.to_vec();
            (1..left.len()).for_each(|i| new[1 + places[i - 1]] = left[i]);
            new
        });
        let Put { at, bytes } = &mut self.put;
        if bytes.len() == MADE_LEN {
            *bytes = placed(bytes, places);
        }
        for part in [head_part, own_part] {
            if let Some(head) = (0..HEADS).find(|&head| part(head).contains(at)) {
                *at = *at - part(head).start + part(places[head]).start;
            }
        }
    }
}

/// The bytes of a drive, all or those before the number of heads, with each head's in the place of another's.
fn placed(made: &[u8], places: [usize; HEADS]) -> Vec<u8> {
    let mut new = made.to_vec();
    for (head, place) in places.into_iter().enumerate() {
        new[head_part(place)].copy_from_slice(&made[head_part(head)]);
        if made.len() == MADE_LEN {
            new[own_part(place)].copy_from_slice(&made[own_part(head)]);
        }
    }
    new
}

/// Runs a script, and holds each call to the script's own figures. A refused one leaves the drive.
pub fn run_script(harness: &mut Harness, script: &Script) {
    let mut drives = [unmade(), unmade()].map(Run::new);
    for (i, step) in script.steps.iter().enumerate() {
        let run = &mut drives[step.drive];
        let Some(act) = &step.act else {
            run.put(step.put.at, &step.put.bytes);
            continue;
        };
        let before = run.made.clone();
        let outcome = run.call(harness, act);
        let has_start = |head: usize| {
            let start = step.starts[head].as_deref();
            start.is_none_or(|start| run.made[START[head]..].starts_with(&bytes(start)))
        };
        let holds = outcome.number == step.number
            && outcome.written == step.written
            && (outcome.number == 0 || run.made == before)
            && (0..HEADS).all(has_start)
            && step.whole.as_ref().is_none_or(|whole| run.made.starts_with(whole))
            && step.left.as_ref().is_none_or(|left| run.made[COMMON..].starts_with(&bytes(left)));
        harness.check(holds, || format!("  the script's call {}: {}", i + 1, script.name));
    }
}

/// Numbers and output buffers.
pub type Answers = Vec<(Number, Vec<u8>)>;

/// What a drive's calls answer in a script, without a look at the made drives' bytes.
pub fn answers(drive: &dyn Drive, script: &Script) -> Answers {
    let mut drives = [unmade(), unmade()];
    let mut answers = Vec::new();
    for step in &script.steps {
        let made = &mut drives[step.drive];
        let Some(act) = &step.act else {
            made[step.put.at..step.put.end()].copy_from_slice(&step.put.bytes);
            continue;
        };
        let call = act.on(made);
        let (mut lent, mut out) = (call.made.clone(), vec![0xA5; call.out_len]);
        answers.push((drive.call_made(call.kind, &call.numbers, &mut lent, &call.lent(), &mut out), out));
        if lent.len() == MADE_LEN {
            *made = lent;
        }
    }
    answers
}
