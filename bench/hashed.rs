//! Merging as one would write it with hash maps: at each inner depth the endings of each beginning are collected, and beginnings with the same endings
//! share a vertex. A table is not rectangular at a depth if an ending stands at two vertices.

use super::access::Checked;
use super::reading::{Words, read};
use link_kit::Merged;
use std::collections::{BTreeSet, HashMap};

type Ending = (u16, u8);

/// The vertex of each word at an inner depth, if the depth is rectangular.
fn vertices(words: &Words, t: usize) -> Option<Vec<u16>> {
    let mut endings: HashMap<(u8, u16), Vec<Ending>> = HashMap::new();
    for i in 0..words.count {
        endings
            .entry(words.beginning::<Checked>(i, t))
            .or_default()
            .push(words.ending::<Checked>(i, t));
    }
    let mut numbers: HashMap<&[Ending], u16> = HashMap::new();
    let mut owners: HashMap<Ending, u16> = HashMap::new();
    let mut row = Vec::with_capacity(words.count);
    for i in 0..words.count {
        let next = numbers.len() as u16;
        let vertex = *numbers
            .entry(&endings[&words.beginning::<Checked>(i, t)])
            .or_insert(next);
        if *owners.entry(words.ending::<Checked>(i, t)).or_insert(vertex) != vertex {
            return None;
        }
        row.push(vertex);
    }
    Some(row)
}

/// The occurring states of an outer depth, and each word's vertex there.
fn outer(states: &[u8]) -> (Vec<u16>, Vec<u16>) {
    let occurring: BTreeSet<u8> = states.iter().copied().collect();
    let ranks: HashMap<u8, u16> = occurring.iter().copied().zip(0..).collect();
    let row = states.iter().map(|state| ranks[state]).collect();
    (occurring.into_iter().map(u16::from).collect(), row)
}

/// The edges of each step in order.
fn edges(words: &Words, rows: &[Vec<u16>]) -> Vec<BTreeSet<(u16, u16, u16)>> {
    let step = |t: usize| (0..words.count).map(move |i| (rows[t][i], words.symbol::<Checked>(i, t), rows[t + 1][i]));
    (0..words.n).map(|t| step(t).collect()).collect()
}

pub fn merge(file: &[u8], map: &mut [u16], section: &mut [u16]) -> Merged {
    let words = match read::<Checked>(file) {
        Ok(words) => words,
        Err(refusal) => return refusal,
    };
    let (w, n) = (words.count, words.n);
    if map.len() < w * (n + 1) {
        return Merged::ShortMap(w * (n + 1));
    }
    let (roots, first) = outer(&words.roots[..w]);
    let (goals, last) = outer(&words.goals[..w]);
    let mut rows = vec![first];
    for t in 1..n {
        let Some(row) = vertices(&words, t) else {
            map[..w * (n + 1)].fill(0);
            return Merged::NotRectangular(t, 0, 0, 0);
        };
        rows.push(row);
    }
    rows.push(last);
    map[..w * (n + 1)].copy_from_slice(&rows.concat());
    let steps = edges(&words, &rows);
    let mut numbers = vec![words.q, n as u16, words.states];
    numbers.extend(rows.iter().map(|row| row.iter().max().map_or(0, |highest| highest + 1)));
    numbers.extend(steps.iter().map(|step| step.len() as u16));
    numbers.extend(roots.iter().chain(&goals));
    numbers.extend(steps.iter().flatten().flat_map(|edge| [edge.0, edge.2]));
    numbers.extend(steps.iter().flatten().map(|edge| edge.1));
    if section.len() < numbers.len() {
        return Merged::ShortSection(numbers.len());
    }
    section[..numbers.len()].copy_from_slice(&numbers);
    Merged::Section(numbers.len())
}
