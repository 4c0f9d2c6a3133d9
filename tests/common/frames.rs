//! Chains made at random: their sections, what is received over them, and faults put into them.

use super::archive::{Buffers, Frame, ListBuffers};
use super::decoding::sections_of;
use super::merging::{section_of, witness};
use super::sections::Section;
use super::tables::{Table, Word, drawn, scattered, symbols};
use super::{MOST_STATES, Numbers};
use std::collections::BTreeSet;

/// Lengths of the cost table, the labels, the goals and the masks; for a list, of the cost table, the distances, the labels and the goals.
pub type Lengths = [usize; 4];

/// Ascending states that stand for 0, 1, 2 ..; neighbours of a chain meet only if they share them.
pub fn some_states(count: usize, numbers: &mut Numbers) -> Vec<u8> {
    if numbers.one_in(2) {
        return (0..count as u8).collect();
    }
    let mut states = BTreeSet::new();
    while states.len() < count {
        states.insert(numbers.below(MOST_STATES) as u8);
    }
    states.into_iter().collect()
}

/// Puts ascending states in the place of 0, 1, 2 .., and some bound above them in the place of S.
pub fn move_states(table: &mut Table, states: &[u8], numbers: &mut Numbers) {
    let moved = |w: &Word| (states[w.0 as usize], w.1, states[w.2 as usize]);
    table.words = table.words.iter().map(moved).collect();
    let highest = table.words.iter().map(|w| w.0.max(w.2)).max().expect("a word");
    table.states = numbers.from_to(highest as usize + 1, MOST_STATES) as u8;
}

/// A rectangular table of at most `most` words over some states.
fn some_table(states: &[u8], most: usize, numbers: &mut Numbers) -> Table {
    loop {
        let q = numbers.from_to(2, 4) as u8;
        let longest = [3, 3, 3, 5][numbers.below(4)];
        let n = numbers.from_to(1, longest) as u8;
        let fewest = [1, states.len(), states.len()][numbers.below(3)];
        let count = numbers.from_to(fewest, states.len()) as u8;
        let mut table = if numbers.one_in(2) {
            drawn(q, n, count, numbers)
        } else {
            scattered(q, n, count, numbers)
        };
        if table.words.is_empty() || table.words.len() > most || witness(&table).is_some() {
            continue;
        }
        move_states(&mut table, states, numbers);
        return table;
    }
}

/// A received label and an erasure mask that fit a table: a word's label with some symbols replaced, and some erased.
fn receive(table: &Table, numbers: &mut Numbers) -> (u16, u8) {
    let (mut received, mut mask) = (0, 0);
    let rate = numbers.from_to(2, 6);
    let erasing = numbers.one_in(3);
    let sent = table.words[numbers.below(table.words.len())].1;
    for symbol in symbols(sent, table.n) {
        let erased = erasing && numbers.one_in(rate);
        let other = numbers.below(table.q as usize) as u16;
        let got = if numbers.one_in(rate) { other } else { symbol };
        received = 4 * received + if erased { 0 } else { got };
        mask = 2 * mask + erased as u8;
    }
    (received, mask)
}

/// A chain without faults, of at most `blocks` blocks and, unless they are many, few enough paths to list.
pub fn chain(k: usize, blocks: usize, most_paths: usize, numbers: &mut Numbers) -> Frame {
    let count = numbers.from_to(1, 4);
    let states = some_states(count, numbers);
    let apart = numbers.one_in(8);
    let tables: Vec<Table> = (0..k)
        .map(|_| {
            let own = if apart {
                some_states(count, numbers)
            } else {
                states.clone()
            };
            some_table(&own, 40, numbers)
        })
        .collect();
    let ends = [0, 1].map(|_| states[numbers.below(count)]);
    over(&tables, ends, blocks, most_paths, numbers)
}

/// A chain without faults over some tables, whose sections are renumbered.
pub fn over(tables: &[Table], ends: [u8; 2], blocks: usize, most_paths: usize, numbers: &mut Numbers) -> Frame {
    let mut frame = Frame {
        sections: Vec::new(),
        k: tables.len(),
        indices: Vec::new(),
        received: Vec::new(),
        erased: Vec::new(),
        start: ends[0],
        end: ends[1],
    };
    for table in tables {
        let (section, _) = Section::read(&section_of(table)).expect("a whole section");
        frame.sections.extend(section.renumbered(numbers).numbers());
    }
    let mut paths = 1;
    while frame.indices.len() < blocks {
        let i = numbers.below(tables.len());
        paths = tables[i].words.len().saturating_mul(paths);
        if paths > most_paths && !frame.indices.is_empty() {
            break;
        }
        let (received, mask) = receive(&tables[i], numbers);
        frame.indices.push(i as u8);
        frame.received.push(received);
        frame.erased.push(mask);
    }
    frame
}

/// A chain over copies of one section from state 0 to state 0, all blocks received alike.
pub fn copies(table: &Table, k: usize, blocks: usize, received: u16) -> Frame {
    Frame {
        sections: section_of(table).repeat(k),
        k,
        indices: (0..blocks).map(|b| (b % k) as u8).collect(),
        received: vec![received; blocks],
        erased: vec![0; blocks],
        start: 0,
        end: 0,
    }
}

/// Erases about three of four symbols of a chain without faults, and in about a third of its blocks all.
pub fn erase_most(frame: &mut Frame, numbers: &mut Numbers) {
    let sections = sections_of(frame).expect("usable sections");
    for b in 0..frame.indices.len() {
        let all = numbers.one_in(3);
        let symbols = 0..sections[frame.indices[b] as usize].n;
        for place in symbols.filter(|_| all || !numbers.one_in(4)) {
            frame.erased[b] |= 1 << place;
            frame.received[b] &= !(3 << (2 * place));
        }
    }
}

/// Replaces an element of a list, if it has any.
fn put<T>(list: &mut [T], value: T, numbers: &mut Numbers) {
    if !list.is_empty() {
        list[numbers.below(list.len())] = value;
    }
}

/// Puts a fault of any kind into a chain or its buffers' lengths; some leave it without fault.
pub fn spoil(frame: &mut Frame, lengths: &mut Lengths, numbers: &mut Numbers) {
    let low_bits = numbers.below(16);
    let number = (numbers.below(65_536) >> low_bits) as u16;
    let byte = (numbers.below(256) >> (low_bits / 2)) as u8;
    match numbers.below(14) {
        0 => frame.k = [0, 17, usize::MAX, 5_000_000_000][numbers.below(4)],
        1 => frame.k = (frame.k + numbers.below(3)).saturating_sub(1),
        2 => frame.sections.push(number),
        3 => drop(frame.sections.pop()),
        4 => put(&mut frame.sections, number, numbers),
        5 => put(&mut frame.indices, byte, numbers),
        6 => put(&mut frame.received, number, numbers),
        7 => put(&mut frame.erased, byte, numbers),
        8 => drop(frame.received.pop()),
        9 => frame.erased.push(0),
        10 => frame.start = byte,
        11 => frame.end = byte,
        _ => {
            let which = numbers.below(lengths.len());
            lengths[which] = lengths[which].saturating_sub(numbers.from_to(1, 20));
        }
    }
}

/// The lengths that the four buffers need.
pub fn lengths_of(blocks: usize) -> Lengths {
    [MOST_STATES * blocks, blocks, blocks, blocks]
}

/// Lengths of buffers for some blocks, some places longer than needed.
pub fn lengths_for(blocks: usize, numbers: &mut Numbers) -> Lengths {
    lengths_of(blocks).map(|needed| needed + numbers.below(10))
}

pub fn buffers(lengths: Lengths) -> Buffers {
    let [costs, labels, goals, masks] = lengths;
    Buffers::new(costs, labels, goals, masks)
}

/// The same for a list of so many paths.
pub fn list_lengths_of(blocks: usize, paths: usize) -> Lengths {
    [MOST_STATES * blocks, paths, paths * blocks, paths * blocks]
}

pub fn list_lengths_for(blocks: usize, paths: usize, numbers: &mut Numbers) -> Lengths {
    list_lengths_of(blocks, paths).map(|needed| needed + numbers.below(10))
}

pub fn list_buffers(lengths: Lengths) -> ListBuffers {
    let [costs, distances, labels, goals] = lengths;
    ListBuffers::new(costs, distances, labels, goals)
}

/// Numbers of paths that no list has.
pub const NO_LIST: [usize; 6] = [0, 17, 255, u32::MAX as usize, 5_000_000_000, usize::MAX];

/// Puts a fault of any kind into a chain, its buffers' lengths or the number of paths that are asked for.
pub fn spoil_list(frame: &mut Frame, lengths: &mut Lengths, paths: &mut usize, numbers: &mut Numbers) {
    if numbers.one_in(6) {
        *paths = NO_LIST[numbers.below(NO_LIST.len())];
    } else {
        spoil(frame, lengths, numbers);
    }
}
