//! A problem in the making: sizes and body words, written as an image or a sheet.

use crate::double::of_count;
use crate::image::{HIGH, LOW, Problem, Sizes, bytes};
use crate::rules::Rules;
use crate::sheet::{Frame, hex};

#[derive(Clone, Debug)]
pub struct Draft {
    pub sizes: Sizes,
    pub body: Vec<i64>,
}

impl Draft {
    pub fn new(sizes: Sizes) -> Draft {
        Draft { sizes, body: vec![0; sizes.body_words()] }
    }

    /// The entries of a section in sheet order.
    pub fn section(&mut self, kind: u8) -> &mut [i64] {
        let (start, length) = self.sizes.extent(kind);
        &mut self.body[start..start + length]
    }

    /// The same draft with other words in a section.
    pub fn with(mut self, kind: u8, words: &[i64]) -> Draft {
        self.section(kind).copy_from_slice(words);
        self
    }

    pub fn iterations(mut self, iterations: usize) -> Draft {
        self.sizes.iterations = iterations;
        self
    }

    pub fn problem(&self) -> Problem {
        Problem::new(self.sizes, &self.body, Rules::default())
    }

    /// The image in words, also those that do not fit 32 bits.
    pub fn words(&self) -> Vec<i64> {
        [&self.sizes.words(), &self.body[..]].concat()
    }

    /// The image's words before request 3: the first step's limits stand for every step's.
    pub fn former_words(&self) -> Vec<i64> {
        let body = self.sizes.places().zip(&self.body);
        let kept = body.filter(|((section, _, column), _)| is_former(section.kind, *column)).map(|(_, &word)| word);
        self.sizes.words().into_iter().chain(kept).collect()
    }

    pub fn image(&self) -> Vec<u8> {
        bytes(&self.words())
    }

    /// The sheet's frames; a body word's double comes from value, which is given the word's index.
    pub fn frames(&self, mut value: impl FnMut(usize) -> u64) -> Vec<Frame> {
        let Sizes { motors, steps, states, bits, width, iterations, targets } = self.sizes;
        let [motors, steps, states, targets] = [motors, steps, states, targets].map(|size| size as u8);
        let [high, low] = (iterations as u16).to_be_bytes();
        let mut frames = vec![[1, motors, steps, states, bits as u8, width as u8, targets, high, low, 0, 0]];
        for (i, (section, row, column)) in self.sizes.places().enumerate() {
            let mut frame = [section.kind, row as u8, column as u8, 0, 0, 0, 0, 0, 0, 0, 0];
            frame[3..].copy_from_slice(&value(i).to_be_bytes());
            frames.push(frame);
        }
        frames
    }

    /// The sheet whose doubles are the words exactly.
    pub fn sheet(&self) -> Vec<u8> {
        text(&self.frames(|i| of_count(self.body[i], self.sizes.bits)))
    }
}

/// Was there such a line and such a word before request 3? Limits had column 0 alone.
fn is_former(kind: u8, column: usize) -> bool {
    !matches!(kind, LOW | HIGH) || column == 0
}

/// Leaves the lines of the layout before request 3, with the first step's limits.
pub fn keep_former(frames: &mut Vec<Frame>) {
    frames.retain(|&[kind, _, column, ..]| is_former(kind, column.into()));
}

pub fn text(frames: &[Frame]) -> Vec<u8> {
    let line = |frame: &Frame| hex(frame) + "\n";
    frames.iter().map(line).collect::<String>().into_bytes()
}
