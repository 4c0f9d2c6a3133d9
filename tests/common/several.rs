//! Several best paths as document 02's request 6 says them: the checks in order, then every path of the chain listed and sorted. A second way, which
//! goes from the last block to the first and keeps the best ways on from each state, serves chains whose paths are too many to list; on small chains it
//! is held to the first.

use super::MOST_STATES;
use super::archive::{Answer, Frame, ListBuffers};
use super::decoding::{self, Block};
use super::tables::Word;

/// The most paths of a list.
pub const MOST_PATHS: usize = 16;

/// A path's distance and its words.
pub type Path = (u32, Vec<Word>);

/// The blocks of a chain, and its best paths.
pub type Passed = (Vec<Block>, Vec<Path>);

/// The best paths from the list of all: those of one distance are left in their order.
pub fn by_paths(blocks: &[Block], start: u8, end: u8, most: usize) -> Vec<Path> {
    let mut all = decoding::paths(blocks, start, end);
    all.sort_by_key(|path| path.0);
    all.truncate(most);
    all
}

/// A way on from a state: its distance, its first word, and which of the ways on from there it takes. Of two ways with one distance and one first
/// word, the ways on from there have one distance too, and stand in their order. So ways are ordered as their paths are.
type Way = (u32, Word, usize);

/// The best ways on from each state before a block, where those behind it are known.
fn ways_before(block: &Block, behind: &[Vec<Way>], most: usize) -> Vec<Vec<Way>> {
    let mut ways = vec![Vec::new(); MOST_STATES];
    for &(word, distance) in block {
        let onward = behind[word.2 as usize].iter().enumerate();
        ways[word.0 as usize].extend(onward.map(|(which, way)| (distance + way.0, word, which)));
    }
    for some in &mut ways {
        some.sort();
        some.truncate(most);
    }
    ways
}

/// The same by ways: from the last block to the first, then each path forward.
pub fn by_ways(blocks: &[Block], start: u8, end: u8, most: usize) -> Vec<Path> {
    // behind the last block the only way is none, whatever word stands for it
    let mut rows = vec![vec![Vec::new(); MOST_STATES]];
    rows[0][end as usize].push((0, (0, 0, 0), 0));
    for block in blocks.iter().rev() {
        rows.push(ways_before(block, &rows[rows.len() - 1], most));
    }
    rows.reverse();
    let path = |first: usize| {
        let (mut state, mut which, mut words) = (start, first, Vec::new());
        for row in &rows[..blocks.len()] {
            let (_, word, next) = row[state as usize][which];
            words.push(word);
            (state, which) = (word.2, next);
        }
        (rows[0][start as usize][first].0, words)
    };
    (0..rows[0][start as usize].len()).map(path).collect()
}

/// The blocks' words with their distances, or refusal 8, 9, 13 or 10.
fn blocks_of(frame: &Frame, paths: usize, buffers: &ListBuffers) -> Result<Vec<Block>, Answer> {
    let blocks = decoding::blocks_by(0, frame)?;
    if !(1..=MOST_PATHS).contains(&paths) {
        return Err(Answer::new(13, &[paths]));
    }
    decoding::long_enough([
        (buffers.costs.len(), MOST_STATES * blocks.len()),
        (buffers.distances.len(), paths),
        (buffers.labels.len(), paths * blocks.len()),
        (buffers.goals.len(), paths * blocks.len()),
    ])?;
    Ok(blocks)
}

/// What listing leaves in the buffers, and its answer: 11 or success.
fn write(costs: &[u32], list: &[Path], buffers: &mut ListBuffers) -> Answer {
    buffers.costs[..costs.len()].copy_from_slice(costs);
    let mut place = 0;
    for (p, (distance, words)) in list.iter().enumerate() {
        buffers.distances[p] = *distance;
        for word in words {
            (buffers.labels[place], buffers.goals[place]) = (word.1, word.2);
            place += 1;
        }
    }
    match list.len() {
        0 => Answer::new(11, &[]),
        count => Answer::new(0, &[count]),
    }
}

/// What listing so many paths leaves in the buffers, its answer, and after every check is passed the blocks and the paths.
pub fn decode_list(frame: &Frame, paths: usize, buffers: &mut ListBuffers) -> (Answer, Option<Passed>) {
    match blocks_of(frame, paths, buffers) {
        Ok(blocks) => {
            let costs = decoding::by_words(&blocks, frame.start, frame.end).costs;
            let list = by_ways(&blocks, frame.start, frame.end, paths);
            (write(&costs, &list, buffers), Some((blocks, list)))
        }
        Err(answer) => (answer, None),
    }
}
