//! Decoding as document 01 says it, but that an erased symbol costs 0, that there are 16 states at most, and that a mask a block says which symbols were
//! wrong (document 02, requests 1, 2 and 5): the checks in order, then every path of the chain listed and measured. A second way, over the words of one
//! block after another, serves chains whose paths are too many to list; on small chains it is held to the first.

use super::MOST_STATES;
use super::archive::{Answer, Buffers, Frame};
use super::sections::{Section, usable};
use super::tables::{Word, symbols};

/// No path.
const NONE: u32 = u32::MAX;

/// One block: each word of its section with its distance to what was received, in word order.
pub type Block = Vec<(Word, u32)>;

/// What the search for the best path finds.
#[derive(Clone, PartialEq, Debug)]
pub struct Found {
    pub costs: Vec<u32>,
    pub best: Option<(u32, Vec<Word>)>,
    /// How many paths have the least distance.
    pub least: usize,
}

fn erased(mask: u8, n: u8, t: u8) -> bool {
    mask >> (n - 1 - t) & 1 == 1
}

/// An erased symbol costs `erasure`; another one costs 1 where it differs.
fn distance(label: u16, received: u16, mask: u8, n: u8, erasure: u32) -> u32 {
    let pairs = symbols(label, n).into_iter().zip(symbols(received, n));
    let cost = |(t, (sent, got))| {
        if erased(mask, n, t) {
            erasure
        } else {
            (sent != got) as u32
        }
    };
    (0..n).zip(pairs).map(cost).sum()
}

/// One bit for each symbol, the first symbol highest: 1 where the word's symbol differs from the received one and is not erased.
fn wrong(label: u16, received: u16, mask: u8, n: u8) -> u8 {
    let (sent, got) = (symbols(label, n), symbols(received, n));
    let mut bits = 0;
    for t in 0..n {
        let differs = sent[t as usize] != got[t as usize];
        bits = 2 * bits + (differs && !erased(mask, n, t)) as u8;
    }
    bits
}

/// Whether a label or a mask does not fit a section of q and n.
fn bad_block(received: u16, mask: u8, q: u16, n: u8) -> bool {
    let digits = symbols(received, n);
    let bad_digit = (0..n).any(|t| digits[t as usize] >= q || erased(mask, n, t) && digits[t as usize] != 0);
    mask as u32 >= 1 << n || received as u32 >= 4u32.pow(n as u32) || bad_digit
}

/// The K sections, or refusal 8.
pub fn sections_of(frame: &Frame) -> Result<Vec<Section>, Answer> {
    if !(1..=16).contains(&frame.k) {
        return Err(Answer::new(8, &[frame.k]));
    }
    let mut rest = &frame.sections[..];
    let mut found = Vec::new();
    for i in 0..frame.k {
        let (section, length) = usable(rest).ok_or(Answer::new(8, &[i]))?;
        rest = &rest[length..];
        found.push(section);
    }
    if rest.is_empty() {
        Ok(found)
    } else {
        Err(Answer::new(8, &[frame.k]))
    }
}

/// Refusal 10 for the first buffer that is shorter than what it needs.
pub fn long_enough(lengths: [(usize, usize); 4]) -> Result<(), Answer> {
    match lengths.into_iter().find(|(length, needed)| length < needed) {
        Some((_, needed)) => Err(Answer::new(10, &[needed])),
        None => Ok(()),
    }
}

/// The blocks' words with their distances if an erased symbol costs `erasure`, or refusal 8 or 9.
pub fn blocks_by(erasure: u32, frame: &Frame) -> Result<Vec<Block>, Answer> {
    let sections = sections_of(frame)?;
    let count = frame.indices.len();
    let lengths_equal = frame.received.len() == count && frame.erased.len() == count;
    let ends_outside = frame.start.max(frame.end) as usize >= MOST_STATES;
    if !(1..=256).contains(&count) || !lengths_equal || ends_outside {
        return Err(Answer::new(9, &[count]));
    }
    for b in 0..count {
        let fits = |s: &Section| !bad_block(frame.received[b], frame.erased[b], s.q, s.n as u8);
        if !sections.get(frame.indices[b] as usize).is_some_and(fits) {
            return Err(Answer::new(9, &[b]));
        }
    }
    let words: Vec<Vec<Word>> = sections.iter().map(Section::words).collect();
    let block = |b: usize| {
        let i = frame.indices[b] as usize;
        let measured = |&w: &Word| {
            (
                w,
                distance(w.1, frame.received[b], frame.erased[b], sections[i].n as u8, erasure),
            )
        };
        words[i].iter().map(measured).collect()
    };
    Ok((0..count).map(block).collect())
}

/// The blocks' words with their distances, or refusal 8, 9 or 10.
fn blocks_of(frame: &Frame, buffers: &Buffers) -> Result<Vec<Block>, Answer> {
    let blocks = blocks_by(0, frame)?;
    long_enough([
        (buffers.costs.len(), MOST_STATES * blocks.len()),
        (buffers.labels.len(), blocks.len()),
        (buffers.goals.len(), blocks.len()),
        (buffers.masks.len(), blocks.len()),
    ])?;
    Ok(blocks)
}

/// Every path from a state through the blocks to the end state, with its distance, in the order of their words.
pub fn paths(blocks: &[Block], state: u8, end: u8) -> Vec<(u32, Vec<Word>)> {
    let Some((first, rest)) = blocks.split_first() else {
        return if state == end {
            vec![(0, Vec::new())]
        } else {
            Vec::new()
        };
    };
    let mut found = Vec::new();
    for &(word, distance) in first.iter().filter(|(word, _)| word.0 == state) {
        for (further, words) in paths(rest, word.2, end) {
            found.push((distance + further, [vec![word], words].concat()));
        }
    }
    found
}

/// The cost table and the first path of least distance, from the list of all paths.
pub fn by_paths(blocks: &[Block], start: u8, end: u8) -> Found {
    let least = |b: usize, s: u8| paths(&blocks[b..], s, end).iter().map(|p| p.0).min().unwrap_or(NONE);
    let costs = (0..blocks.len())
        .flat_map(|b| (0..MOST_STATES).map(move |s| least(b, s as u8)))
        .collect();
    let all = paths(blocks, start, end);
    let best = all.iter().min().cloned();
    let ties = all.iter().filter(|p| Some(p.0) == best.as_ref().map(|b| b.0)).count();
    Found {
        costs,
        best,
        least: ties,
    }
}

/// The place of a state before a block in the cost table.
fn place(block: usize, state: u8) -> usize {
    MOST_STATES * block + state as usize
}

/// The same by words: the cost table from the last block to the first, then in each block the first word that keeps to the least distance.
pub fn by_words(blocks: &[Block], start: u8, end: u8) -> Found {
    let count = blocks.len();
    let mut costs = vec![NONE; MOST_STATES * (count + 1)];
    let mut ways = vec![0usize; MOST_STATES * (count + 1)];
    costs[place(count, end)] = 0;
    ways[place(count, end)] = 1;
    for b in (0..count).rev() {
        for &(word, distance) in &blocks[b] {
            let (here, after) = (place(b, word.0), place(b + 1, word.2));
            let cost = costs[after].saturating_add(distance);
            let ways_here = if cost < costs[here] { 0 } else { ways[here] };
            if cost <= costs[here] && cost != NONE {
                ways[here] = ways_here.saturating_add(ways[after]);
                costs[here] = cost;
            }
        }
    }
    let (mut state, mut words) = (start, Vec::new());
    for b in 0..count {
        let here = costs[place(b, state)];
        let keeps = |&&(w, d): &&(Word, u32)| w.0 == state && costs[place(b + 1, w.2)].saturating_add(d) == here;
        let Some(&(word, _)) = blocks[b].iter().find(keeps).filter(|_| here != NONE) else {
            break;
        };
        words.push(word);
        state = word.2;
    }
    let distance = costs[start as usize];
    costs.truncate(MOST_STATES * count);
    Found {
        costs,
        best: (distance != NONE).then_some((distance, words)),
        least: ways[start as usize],
    }
}

/// What decoding leaves in the buffers, and its answer: 11 or success.
fn write(frame: &Frame, found: &Found, buffers: &mut Buffers) -> Answer {
    buffers.costs[..found.costs.len()].copy_from_slice(&found.costs);
    let Some((distance, words)) = &found.best else {
        return Answer::new(11, &[]);
    };
    let sections = sections_of(frame).expect("usable sections");
    for (b, word) in words.iter().enumerate() {
        let n = sections[frame.indices[b] as usize].n as u8;
        buffers.labels[b] = word.1;
        buffers.goals[b] = word.2;
        buffers.masks[b] = wrong(word.1, frame.received[b], frame.erased[b], n);
    }
    Answer::new(0, &[*distance as usize])
}

/// What decoding leaves in the buffers, its answer, and after every check is passed the blocks and what was found in them.
pub fn decode(frame: &Frame, buffers: &mut Buffers) -> (Answer, Option<(Vec<Block>, Found)>) {
    match blocks_of(frame, buffers) {
        Ok(blocks) => {
            let found = by_words(&blocks, frame.start, frame.end);
            (write(frame, &found, buffers), Some((blocks, found)))
        }
        Err(answer) => (answer, None),
    }
}
