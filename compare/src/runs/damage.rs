//! What else than the calls may write to a made drive: at random, and byte by byte.

use crate::draft::Draft;
use crate::drive::Act;
use crate::generate::{self, Plan};
use crate::harness::Harness;
use crate::image::{HEADER_WORDS, HIGH, LOW, Sizes, bytes};
use crate::made::{ANSWER, COMMON, COUNT, HEADS, IMAGE, IMAGE_ROOM, MADE_LEN, OWN, START};
use crate::made::{answer_part, put_waits, put_word, start_part, waits_part, word_at};
use crate::random::Random;
use crate::solve::answer_len;

/// The drive with something else in one of its parts, or in several.
pub fn damaged(random: &mut Random, made: &[u8], draft: &Draft) -> Vec<u8> {
    let mut made = made.to_vec();
    let (part, head) = (random.below(16), random.below(HEADS));
    // The length word of the largest image may say more than it.
    match if is_largest(draft) && random.one_in(3) { 0 } else { part } {
        0 => damage_length(random, &mut made),
        1 | 2 => {
            let number = random.pick(&generate::MAKE_NUMBERS);
            let image = generate::image_of(random, &Plan::only(number), &mut draft.clone());
            put_image(&mut made, &image);
        }
        3 => put_waits(&mut made, head, random.pick(&[0, 1, 2, 256, 1 << 31, u32::MAX])),
        4 => damage_words(random, &mut made, START[head], draft),
        5 | 6 => {
            damage_words(random, &mut made, ANSWER[head], draft);
            put_waits(&mut made, head, random.pick(&[0, 1, 1]));
        }
        7 => exchange_limits(&mut made, draft),
        8 => made[IMAGE..IMAGE + 8].rotate_left(4),
        9 => random_behind(random, &mut made, IMAGE + 4 * HEADER_WORDS),
        10 => put_image(&mut made, &draft.image()),
        11 | 12 => put_word(&mut made, COUNT, random.pick(&[0, 1, 2, 3, 4, 4, 5, 256, 257, 1 << 31, u32::MAX])),
        13 | 14 => damage_sweeps(random, &mut made, head, draft),
        _ => damage_part(random, &mut made, head, &draft.sizes),
    }
    made
}

fn is_largest(draft: &Draft) -> bool {
    draft.sizes.image_bytes() == IMAGE_ROOM.len()
}

fn damage_length(random: &mut Random, made: &mut [u8]) {
    let length = word_at(made, 0);
    let room = IMAGE_ROOM.len() as u32;
    let near = [length ^ 4, length ^ 1, length.wrapping_add(4), length.wrapping_sub(4), length | 1 << 24];
    let fixed = [0, 31, 32, room - 4, room, room + 1, room + 4, 1 << 31, u32::MAX, u32::MAX - 3];
    let other = if random.one_in(2) { random.pick(&near) } else { random.pick(&fixed) };
    // The largest image has a length that every larger word stands for.
    let larger = length == room && random.one_in(2);
    made[..IMAGE].copy_from_slice(&if larger { u32::MAX } else { other }.to_be_bytes());
}

/// The common sweeps and those of a head, about what an ask costs, together at the end of 32 bits, or anywhere.
fn damage_sweeps(random: &mut Random, made: &mut [u8], head: usize, draft: &Draft) {
    let sweeps = draft.sizes.iterations as u32;
    let part = random.below(sweeps as usize + 1) as u32;
    let (any, beside) = (random.next() as u32, random.between(-2, 2) as u32);
    let pairs = [
        (part, sweeps - part),
        (part, (sweeps - part).saturating_sub(1)),
        (u32::MAX - part, part.wrapping_add(beside)),
        (part, u32::MAX - part.wrapping_add(beside)),
        (u32::MAX, u32::MAX),
        (1 << 31, 1 << 31),
        (any, any.wrapping_neg()),
        (0, 65536),
        (65536 + part, 0),
    ];
    let (own, common) = random.pick(&pairs);
    put_word(made, OWN[head], own);
    put_word(made, COMMON, common);
}

/// As far as it fits.
fn put_image(made: &mut [u8], image: &[u8]) {
    made[..IMAGE].copy_from_slice(&(image.len() as u32).to_be_bytes());
    made[IMAGE_ROOM].iter_mut().zip(image).for_each(|(to, byte)| *to = *byte);
}

/// Words of the start, or of the answer's commands, about their limits or anywhere.
fn damage_words(random: &mut Random, made: &mut [u8], at: usize, draft: &Draft) {
    let problem = draft.problem();
    let all = random.one_in(2);
    for k in 0..problem.lower.len() {
        let (low, high) = (problem.lower[k], problem.upper[k]);
        let any = random.next() as i32 as i64;
        let word = random.pick(&[low, low - 1, low + 1, high, high - 1, high + 1, any]);
        if all || random.one_in(problem.lower.len()) {
            made[at + 4 * k..at + 4 * k + 4].copy_from_slice(&bytes(&[word]));
        }
    }
}

/// The lows in the place of the highs, and the reverse.
fn exchange_limits(made: &mut [u8], draft: &Draft) {
    let mut other = draft.clone();
    let [lows, highs] = [LOW, HIGH].map(|kind| other.section(kind).to_vec());
    put_image(made, &other.with(LOW, &highs).with(HIGH, &lows).image());
}

/// The length and the sizes stay, and all else is at random.
fn random_behind(random: &mut Random, made: &mut [u8], from: usize) {
    made[from..].iter_mut().for_each(|byte| *byte = random.next() as u8);
}

/// Some bytes of a part that is in use, or anywhere.
fn damage_part(random: &mut Random, made: &mut [u8], head: usize, sizes: &Sizes) {
    let parts = [
        0..IMAGE,
        IMAGE..IMAGE + sizes.image_bytes(),
        waits_part(head),
        start_part(head, sizes),
        answer_part(head, sizes),
        COUNT..MADE_LEN,
        0..MADE_LEN,
    ];
    let part = parts[random.below(parts.len())].clone();
    generate::damage(random, &mut made[part]);
}

/// A drive of some heads with all answers waiting, one byte of which is changed, to every value where the byte is in use:
/// an ask and a commit of each head on it, one not made among them, and a done of each and a period. And the same of one
/// with all used up, for another image.
pub fn trial(harness: &mut Harness, [draft, other]: [&Draft; 2], heads: usize, index: usize) {
    let sizes = &draft.sizes;
    let all = |act: fn(&Draft, u32) -> Act, heads: usize| (0..heads as u32).map(|head| act(draft, head)).collect();
    let (asks, commits): (Vec<Act>, Vec<Act>) = (all(edge_ask, heads), all(edge_commit, heads));
    let made = after(vec![0; MADE_LEN], &[Act::make(&draft.image(), heads as u32), Act::period(65535)]);
    let used_up = after(after(made, &asks), &commits);
    // Behind an ask of each head its share is 1 short of another, and so the common part counts.
    let short = (2 * heads * sizes.iterations - 1) as u16;
    let waiting = after(after(used_up.clone(), &[Act::period(short)]), &asks);
    let acts = [all(edge_ask, HEADS), all(edge_commit, HEADS)].concat();
    let others = [all(|_, head| Act::done(head), HEADS), vec![Act::period(1000)]].concat();
    let image = Act::new_image(&other.image());
    let values = values(&waiting, heads, sizes, index);
    let first = *values.start();
    for value in values {
        let with = |made: &[u8]| [&made[..index], &[value], &made[index + 1..]].concat();
        // These do not heed what is before the words of request 11: one value is enough there.
        let others = others.iter().filter(|_| index >= COUNT || value == first);
        for act in acts.iter().chain(others) {
            harness.compare(&act.on(&with(&waiting)));
        }
        harness.compare(&image.on(&with(&used_up)));
    }
}

/// All values, or one other than the byte has where it is not in use.
fn values(made: &[u8], heads: usize, sizes: &Sizes, index: usize) -> std::ops::RangeInclusive<u8> {
    let of_head = |head| [waits_part(head), start_part(head, sizes), answer_part(head, sizes)];
    let mut used = (0..heads).flat_map(of_head).chain([0..IMAGE + sizes.image_bytes(), COUNT..MADE_LEN]);
    if used.any(|part| part.contains(&index)) { 0..=255 } else { !made[index]..=!made[index] }
}

fn edge_commit(draft: &Draft, head: u32) -> Act {
    Act::commit(head, 4 * draft.sizes.motors)
}

/// Heads 0 and 2 ask with all inputs at their highs, and heads 1 and 3 at their lows.
fn edge_ask(draft: &Draft, head: u32) -> Act {
    let problem = draft.problem();
    let edge = |ranges: Vec<(i64, i64)>| {
        let words: Vec<i64> = ranges.iter().map(|range| if head % 2 == 0 { range.1 } else { range.0 }).collect();
        bytes(&words)
    };
    let (state, target) = (edge(problem.state_ranges()), edge(problem.target_ranges()));
    Act::ask(head, [&state, &target], answer_len(draft.sizes.commands()))
}

/// The drive that these calls leave.
fn after(made: Vec<u8>, acts: &[Act]) -> Vec<u8> {
    acts.iter().fold(made, |made, act| act.on(&made).outcome().made)
}
