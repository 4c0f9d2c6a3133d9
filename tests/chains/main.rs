//! Decodes many small chains with the compiled `link_decode` and compares the answer and every place of the four buffers with a plain listing of all
//! paths, written from documents 01 and 02 alone; then long chains, the bounds on blocks, sections and states, large distances, chains with most
//! symbols erased, all sets of wrong symbols, short buffers, and marked cases 7 and 8.

#[path = "../common/mod.rs"]
mod common;

mod masks;

use common::archive::{self, Answer, Frame};
use common::decoding;
use common::frames::{self, Lengths, copies};
use common::tables::{Table, across, large_tables};
use common::{Differing, MOST_STATES, Numbers};
use std::collections::BTreeMap;

/// The last state.
const LAST: u8 = MOST_STATES as u8 - 1;

#[derive(Default)]
struct Tally {
    chains: usize,
    outcomes: BTreeMap<u32, usize>,
    ties: usize,
    with_erasures: usize,
    with_wrong: usize,
}

impl Tally {
    /// Compares the compiled answer and buffers with the plain ones, and the distance with the ones in the masks.
    fn compare(&mut self, differing: &mut Differing, frame: &Frame, lengths: Lengths, small: bool) -> Answer {
        let mut wanted = frames::buffers(lengths);
        let mut got = wanted.clone();
        let (answer, passed) = decoding::decode(frame, &mut wanted);
        if let Some((blocks, found)) = passed {
            if small {
                let listed = decoding::by_paths(&blocks, frame.start, frame.end);
                differing.compare(&listed, &found, || format!("the two plain ways: {frame:?}"));
            }
            self.ties += (found.least > 1) as usize;
            self.with_erasures += frame.erased.iter().any(|&m| m != 0) as usize;
        }
        let given = archive::decode(frame, &mut got);
        if given.number == 0 {
            let ones = got.ones(frame.indices.len());
            differing.compare(&given.value(), &ones, || format!("the ones in the masks: {frame:?}"));
            self.with_wrong += (ones > 0) as usize;
        }
        self.chains += 1;
        *self.outcomes.entry(answer.number).or_default() += 1;
        differing.compare(&(&answer, wanted), &(&given, got), || format!("{frame:?}"));
        answer
    }

    fn report(&self, what: &str) {
        let Tally {
            chains,
            outcomes,
            ties,
            with_erasures,
            with_wrong,
        } = self;
        print!("{what}: {chains} chains, outcomes {outcomes:?}, {ties} with ties, {with_erasures} with erasures, ");
        println!("{with_wrong} with wrong symbols");
    }
}

fn small_chains(differing: &mut Differing, numbers: &mut Numbers) {
    let (mut right, mut spoiled) = (Tally::default(), Tally::default());
    for _ in 0..10_000 {
        let k = numbers.from_to(1, 3);
        let mut frame = frames::chain(k, 5, 2000, numbers);
        let mut lengths = frames::lengths_for(frame.indices.len(), numbers);
        right.compare(differing, &frame, lengths, true);
        for _ in 0..numbers.from_to(1, 3) {
            frames::spoil(&mut frame, &mut lengths, numbers);
            spoiled.compare(differing, &frame, lengths, true);
        }
    }
    right.report("small chains");
    spoiled.report("small chains with one to three faults");
}

fn long_chains(differing: &mut Differing, numbers: &mut Numbers) {
    let mut tally = Tally::default();
    for _ in 0..200 {
        let k = numbers.from_to(1, 16);
        let blocks = numbers.from_to(6, 256);
        let frame = frames::chain(k, blocks, usize::MAX, numbers);
        let lengths = frames::lengths_for(blocks, numbers);
        tally.compare(differing, &frame, lengths, false);
    }
    tally.report("long chains");
}

/// Chains over the largest sections that merging leaves, from every state.
fn large_sections(differing: &mut Differing, numbers: &mut Numbers) {
    let mut tally = Tally::default();
    for table in large_tables() {
        for start in 0..table.states {
            let mut frame = copies(&table, 1, 6, 0);
            (frame.start, frame.end) = (start, numbers.below(table.states as usize) as u8);
            for received in &mut frame.received {
                *received = table.words[numbers.below(1024)].1 ^ numbers.below(2) as u16;
            }
            tally.compare(differing, &frame, frames::lengths_of(6), false);
        }
    }
    tally.report("sections of 1,024 words");
}

fn bounds(differing: &mut Differing) {
    let mut tally = Tally::default();
    let table = across(LAST + 1);
    let lengths = [MOST_STATES * 257 + 3, 260, 259, 258];
    for (k, blocks, start, end, number, value) in [
        (1, 256, LAST, 0, 0, 1),
        (1, 257, LAST, 0, 9, 257),
        (16, 256, LAST, LAST, 0, 0),
        (17, 256, LAST, 0, 8, 17),
        (16, 3, LAST + 1, 0, 9, 3),
        (16, 3, 0, LAST + 1, 9, 3),
        (16, 0, LAST, 0, 9, 0),
    ] {
        let mut frame = copies(&table, k, blocks, 1);
        (frame.start, frame.end) = (start, end);
        let answer = tally.compare(differing, &frame, lengths, false);
        differing.compare(&Answer::new(number, &[value]), &answer, || "a bound".to_string());
    }
    tally.report(&format!(
        "256 and 257 blocks, 16 and 17 sections, states {LAST} and {MOST_STATES}"
    ));
}

/// Long chains of 8 symbols a block, received far from their words: distances up to 2,048, and states with no path beside them, whose words differ in
/// no symbol from what is received.
fn far_chains(differing: &mut Differing, numbers: &mut Numbers) {
    let mut tally = Tally::default();
    let table = Table {
        q: 4,
        n: 8,
        states: LAST + 1,
        words: vec![(0, 0, 0), (1, 0x5555, 1), (2, 0xFFFF, LAST), (LAST, 0xFFFF, LAST)],
    };
    for (blocks, end) in [64, 128, 129, 256]
        .into_iter()
        .flat_map(|b| [0, 1, LAST].map(|end| (b, end)))
    {
        for (start, noisy) in [0, 1, 2, LAST]
            .into_iter()
            .flat_map(|s| [false, true].map(|noisy| (s, noisy)))
        {
            let mut frame = copies(&table, 1, blocks, 0);
            (frame.start, frame.end) = (start, end);
            for received in frame.received.iter_mut().filter(|_| noisy) {
                *received = [0, 0x5555, 0xFFFF, numbers.below(0x10000) as u16][numbers.below(4)];
            }
            let answer = tally.compare(differing, &frame, frames::lengths_of(blocks), false);
            if (start, end, noisy) == (1, 1, false) {
                let wanted = Answer::new(0, &[8 * blocks]);
                differing.compare(&wanted, &answer, || "each symbol wrong".to_string());
            }
        }
    }
    tally.report("distances up to 2,048");
}

/// Chains with most symbols erased. If an erased symbol cost 1, as document 01 had it, or 3, the winning path would have the same words, and its
/// distance would be greater by that for each erased symbol.
fn bursts(differing: &mut Differing, numbers: &mut Numbers) {
    let (mut tally, mut erased) = (Tally::default(), 0);
    for i in 0..4_000 {
        let blocks = if i % 40 == 0 { 256 } else { 5 };
        let most_paths = if blocks == 5 { 2000 } else { usize::MAX };
        let k = numbers.from_to(1, 3);
        let mut frame = frames::chain(k, blocks, most_paths, numbers);
        frames::erase_most(&mut frame, numbers);
        let lengths = frames::lengths_for(frame.indices.len(), numbers);
        tally.compare(differing, &frame, lengths, blocks == 5);
        let symbols: u32 = frame.erased.iter().map(|mask| mask.count_ones()).sum();
        let best_by = |erasure| {
            let blocks = decoding::blocks_by(erasure, &frame).expect("no fault");
            decoding::by_words(&blocks, frame.start, frame.end).best
        };
        for erasure in [1, 3] {
            let dearer = best_by(0).map(|(distance, words)| (distance + erasure * symbols, words));
            differing.compare(&dearer, &best_by(erasure), || {
                format!("erasures at {erasure}: {frame:?}")
            });
        }
        erased += symbols;
    }
    tally.report("bursts of erasures");
    println!("{erased} symbols erased; the winning path compared with those at 1 and at 3 for each");
}

/// Marked cases 7 and 8, with their answers as documents 01 and 02 have them.
fn marked_cases(differing: &mut Differing) {
    let table = Table {
        q: 2,
        n: 2,
        states: 1,
        words: vec![(0, 0, 0), (0, 5, 0)],
    };
    for (received, erased, distance, labels, masks) in [
        (vec![1, 5], vec![0, 0], 1, vec![0, 5], vec![0b01, 0b00]),
        (vec![0], vec![1], 0, vec![0], vec![0b00]),
    ] {
        let mut frame = copies(&table, 1, labels.len(), 0);
        (frame.received, frame.erased) = (received, erased);
        let mut got = frames::buffers(frames::lengths_of(labels.len()));
        let answer = archive::decode(&frame, &mut got);
        let goals = vec![0; labels.len()];
        let wanted = (Answer::new(0, &[distance]), labels, goals, masks, distance as u32);
        let given = (answer, got.labels, got.goals, got.masks, got.costs[0]);
        differing.compare(&wanted, &given, || format!("a marked case: {frame:?}"));
        Tally::default().compare(differing, &frame, [MOST_STATES * wanted.1.len() + 5, 4, 5, 6], true);
    }
    println!("marked cases 7 and 8");
}

fn main() {
    let mut numbers = Numbers::new();
    let mut differing = Differing::default();
    small_chains(&mut differing, &mut numbers);
    long_chains(&mut differing, &mut numbers);
    large_sections(&mut differing, &mut numbers);
    bounds(&mut differing);
    far_chains(&mut differing, &mut numbers);
    bursts(&mut differing, &mut numbers);
    masks::run(&mut differing, &mut numbers);
    marked_cases(&mut differing);
    differing.finish();
}
