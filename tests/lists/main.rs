//! Lists the best paths of many small chains with the compiled `link_decode_list` and compares the answer and every place of the four buffers with a
//! plain listing of all paths, sorted, written from documents 01 and 02 alone; then chains whose paths mostly cost the same, chains with few paths, long
//! chains, large sections, large distances, the bounds, lists known beforehand, and faults beside each other.

#[path = "../common/mod.rs"]
mod common;

mod known;
mod refusals;

use common::archive::{self, Answer, Frame};
use common::codes::benchmarked;
use common::decoding::Block;
use common::frames::{self, Lengths, copies};
use common::several::{self, MOST_PATHS, Path};
use common::tables::{Table, Word, across, large_tables};
use common::{Differing, MOST_STATES, Numbers};
use std::collections::BTreeMap;

/// The last state.
const LAST: u8 = MOST_STATES as u8 - 1;

#[derive(Default)]
struct Tally {
    calls: usize,
    outcomes: BTreeMap<u32, usize>,
    paths: usize,
    ties: usize,
    cut: usize,
    fewer: usize,
}

impl Tally {
    /// Compares the compiled answer and buffers with the plain ones; those of a small chain with the list of all paths too.
    fn compare(
        &mut self,
        differing: &mut Differing,
        frame: &Frame,
        paths: usize,
        lengths: Lengths,
        small: bool,
    ) -> Answer {
        let mut wanted = frames::list_buffers(lengths);
        let mut got = wanted.clone();
        let (answer, passed) = several::decode_list(frame, paths, &mut wanted);
        if let Some((blocks, list)) = passed {
            if small {
                let listed = several::by_paths(&blocks, frame.start, frame.end, paths);
                differing.compare(&listed, &list, || format!("the two plain ways: {frame:?}"));
            }
            let wrong = first_wrong(&blocks, frame, &list);
            differing.compare(&None, &wrong, || format!("the paths of the list: {frame:?}"));
            self.count(&blocks, frame, paths, &list);
        }
        let given = archive::decode_list(frame, paths, &mut got);
        self.calls += 1;
        *self.outcomes.entry(answer.number).or_default() += 1;
        differing.compare(&(&answer, wanted), &(&given, got), || {
            format!("{paths} paths: {frame:?}")
        });
        answer
    }

    /// Whether paths of a list have one distance, whether the first that is left out has that of the last, and whether there are fewer than asked for.
    fn count(&mut self, blocks: &[Block], frame: &Frame, paths: usize, list: &[Path]) {
        let more = several::by_ways(blocks, frame.start, frame.end, paths + 1);
        self.paths += list.len();
        self.ties += !list.is_sorted_by(|a, b| a.0 < b.0) as usize;
        self.cut += more.get(paths).is_some_and(|next| next.0 == list[paths - 1].0) as usize;
        self.fewer += (!list.is_empty() && list.len() < paths) as usize;
    }

    fn report(&self, what: &str) {
        let Tally {
            calls,
            outcomes,
            paths,
            ties,
            cut,
            fewer,
        } = self;
        println!("{what}: {calls} calls, outcomes {outcomes:?}");
        println!(
            "  {paths} paths listed, {ties} lists with ties, {cut} cut between paths of one distance, {fewer} with fewer than asked for"
        );
    }
}

/// The first path of a list that is none of the chain's, has another distance, or does not come behind the one before it.
fn first_wrong(blocks: &[Block], frame: &Frame, list: &[Path]) -> Option<usize> {
    let is_path = |(distance, words): &Path| {
        let step = |from: Option<(u8, u32)>, (block, word): (&Block, &Word)| {
            let (state, sum) = from.filter(|&(state, _)| state == word.0)?;
            let own = block.iter().find(|(other, _)| other == word)?;
            Some((word.2, sum + own.1)).filter(|_| state == word.0)
        };
        let whole = blocks.iter().zip(words).fold(Some((frame.start, 0)), step);
        words.len() == blocks.len() && whole == Some((frame.end, *distance))
    };
    (0..list.len()).find(|&p| !is_path(&list[p]) || p > 0 && list[p - 1] >= list[p])
}

/// What the archive lists in buffers of just the lengths needed.
fn listed(frame: &Frame, paths: usize) -> (Answer, archive::ListBuffers) {
    let mut buffers = frames::list_buffers(frames::list_lengths_of(frame.indices.len(), paths));
    (archive::decode_list(frame, paths, &mut buffers), buffers)
}

/// The cost table is that of decoding, the first path is decoding's, and a list of fewer is the start of the longest.
fn beside_decoding(differing: &mut Differing, frame: &Frame) {
    let blocks = frame.indices.len();
    let mut best = frames::buffers(frames::lengths_of(blocks));
    let decoded = archive::decode(frame, &mut best);
    let (longest, whole) = listed(frame, MOST_PATHS);
    differing.compare(&decoded.number, &longest.number, || {
        format!("whether there is a path: {frame:?}")
    });
    if decoded.number == 0 {
        let wanted = (&[decoded.values[0]][..], &best.labels[..], &best.goals[..]);
        differing.compare(&wanted, &whole.first(1, blocks), || {
            format!("the first path: {frame:?}")
        });
    }
    for paths in 1..=MOST_PATHS {
        let (answer, list) = listed(frame, paths);
        let count = longest.value().min(paths);
        let wanted = (longest.number, count, &best.costs, whole.first(count, blocks));
        let got = (answer.number, answer.value(), &list.costs, list.first(count, blocks));
        differing.compare(&wanted, &got, || {
            format!("the start of the list, {paths} paths: {frame:?}")
        });
    }
}

fn small_chains(differing: &mut Differing, numbers: &mut Numbers) {
    let (mut right, mut spoiled) = (Tally::default(), Tally::default());
    for i in 0..10_000 {
        let k = numbers.from_to(1, 3);
        let mut frame = frames::chain(k, 6, 2000, numbers);
        let mut paths = numbers.from_to(1, MOST_PATHS);
        let mut lengths = frames::list_lengths_for(frame.indices.len(), paths, numbers);
        right.compare(differing, &frame, paths, lengths, true);
        if i % 4 == 0 {
            beside_decoding(differing, &frame);
        }
        for _ in 0..numbers.from_to(1, 3) {
            frames::spoil_list(&mut frame, &mut lengths, &mut paths, numbers);
            spoiled.compare(differing, &frame, paths, lengths, true);
        }
    }
    right.report("small chains");
    spoiled.report("small chains with one to three faults");
}

/// Chains with most symbols erased, so that most paths cost the same.
fn bursts(differing: &mut Differing, numbers: &mut Numbers) {
    let mut tally = Tally::default();
    for _ in 0..4_000 {
        let k = numbers.from_to(1, 3);
        let mut frame = frames::chain(k, 6, 2000, numbers);
        frames::erase_most(&mut frame, numbers);
        let paths = numbers.from_to(1, MOST_PATHS);
        let lengths = frames::list_lengths_for(frame.indices.len(), paths, numbers);
        tally.compare(differing, &frame, paths, lengths, true);
    }
    tally.report("bursts of erasures");
}

/// Chains of a few words between a few states, which have few paths, for every number of paths that can be asked for.
fn few_paths(differing: &mut Differing, numbers: &mut Numbers) {
    let mut tally = Tally::default();
    for _ in 0..1_000 {
        let k = numbers.from_to(1, 2);
        let frame = frames::chain(k, 3, 12, numbers);
        for paths in 1..=MOST_PATHS {
            let lengths = frames::list_lengths_for(frame.indices.len(), paths, numbers);
            tally.compare(differing, &frame, paths, lengths, true);
        }
    }
    tally.report("few paths");
}

fn long_chains(differing: &mut Differing, numbers: &mut Numbers) {
    let mut tally = Tally::default();
    for i in 0..400 {
        let k = numbers.from_to(1, 16);
        let blocks = if i % 4 == 0 { 256 } else { numbers.from_to(7, 256) };
        let frame = frames::chain(k, blocks, usize::MAX, numbers);
        let paths = if i % 2 == 0 {
            MOST_PATHS
        } else {
            numbers.from_to(1, MOST_PATHS)
        };
        let lengths = frames::list_lengths_for(blocks, paths, numbers);
        tally.compare(differing, &frame, paths, lengths, false);
        if i % 10 == 0 {
            beside_decoding(differing, &frame);
        }
    }
    tally.report("long chains");
}

/// Long chains over the codes of the benchmark, and chains over the largest sections that merging leaves.
fn large_sections(differing: &mut Differing, numbers: &mut Numbers) {
    let mut tally = Tally::default();
    let codes = benchmarked().map(|(_, table)| (table, 256));
    for (table, blocks) in codes.into_iter().chain(large_tables().map(|table| (table, 6))) {
        for paths in [1, 5, MOST_PATHS] {
            let (first, last) = (table.words[0], table.words[numbers.below(table.words.len())]);
            let frame = frames::over(&[table.clone()], [first.0, last.2], blocks, usize::MAX, numbers);
            tally.compare(differing, &frame, paths, frames::list_lengths_of(blocks, paths), false);
        }
    }
    tally.report("codes over 256 blocks, and sections of 1,024 words");
}

/// Distances up to 2,048, with states beside the path from which none leads on and whose words differ in no symbol from what is received.
fn far_chains(differing: &mut Differing, numbers: &mut Numbers) {
    let mut tally = Tally::default();
    let words = vec![
        (0, 0, 0),
        (1, 0, 2),
        (1, 0x5555, 1),
        (1, 0xFFFF, 1),
        (2, 0, 2),
        (LAST, 0, LAST),
    ];
    let table = Table {
        q: 4,
        n: 8,
        states: LAST + 1,
        words,
    };
    for (blocks, noisy) in [1, 2, 128, 255, 256].into_iter().flat_map(|b| [(b, false), (b, true)]) {
        let mut frame = copies(&table, 1, blocks, 0);
        (frame.start, frame.end) = (1, 1);
        for received in frame.received.iter_mut().filter(|_| noisy) {
            *received = [0, 0x5555, 0xFFFF, numbers.below(0x10000) as u16][numbers.below(4)];
        }
        for paths in [1, 2, MOST_PATHS] {
            tally.compare(differing, &frame, paths, frames::list_lengths_of(blocks, paths), false);
        }
        if !noisy {
            let (_, list) = listed(&frame, 1);
            differing.compare(&(8 * blocks as u32), &list.distances[0], || {
                "each symbol wrong".to_string()
            });
        }
    }
    tally.report("distances up to 2,048");
}

fn bounds(differing: &mut Differing) {
    let mut tally = Tally::default();
    let table = across(LAST + 1);
    let lengths = [MOST_STATES * 257 + 3, 19, 16 * 257 + 2, 16 * 257 + 1];
    for (k, blocks, ends, paths, number, value) in [
        (1, 256, [LAST, 0], 16, 0, 16),
        (1, 256, [LAST, 0], 1, 0, 1),
        (1, 256, [LAST, 0], 0, 13, 0),
        (1, 256, [LAST, 0], 17, 13, 17),
        (1, 257, [LAST, 0], 16, 9, 257),
        (1, 257, [LAST, 0], 17, 9, 257),
        (16, 256, [LAST, LAST], 16, 0, 16),
        (17, 256, [LAST, 0], 0, 8, 17),
        (16, 3, [LAST + 1, 0], 17, 9, 3),
        (16, 3, [0, LAST + 1], 16, 9, 3),
        (16, 0, [LAST, 0], 0, 9, 0),
        (1, 1, [LAST, 0], u32::MAX as usize, 13, u32::MAX as usize),
        (1, 1, [LAST, 0], 1 << 32, 13, u32::MAX as usize),
        (1, 1, [LAST, 0], usize::MAX, 13, u32::MAX as usize),
    ] {
        let mut frame = copies(&table, k, blocks, 1);
        [frame.start, frame.end] = ends;
        let answer = tally.compare(differing, &frame, paths, lengths, false);
        differing.compare(&Answer::new(number, &[value]), &answer, || "a bound".to_string());
    }
    tally.report(&format!(
        "0, 1, 16, 17 and many paths, 256 and 257 blocks, 16 and 17 sections, states {LAST} and {MOST_STATES}"
    ));
}

fn main() {
    let mut numbers = Numbers::new();
    let mut differing = Differing::default();
    small_chains(&mut differing, &mut numbers);
    bursts(&mut differing, &mut numbers);
    few_paths(&mut differing, &mut numbers);
    long_chains(&mut differing, &mut numbers);
    large_sections(&mut differing, &mut numbers);
    far_chains(&mut differing, &mut numbers);
    bounds(&mut differing);
    known::run(&mut differing);
    refusals::run(&mut differing);
    differing.finish();
}
