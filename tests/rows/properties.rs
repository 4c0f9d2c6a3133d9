//! What holds of everything that was made from rows, whatever the plain merging says: merging the written file leaves the same, all counts are powers
//! of 2, and words share an inner vertex exactly if their beginnings have the same syndrome by a parity check.

use super::common::Differing;
use super::common::merging;
use super::common::rows::{Buffers, Generator};
use super::common::sections::Section;
use std::collections::BTreeSet;

/// A parity check of some rows: lists of bits, as numbers, each with an even number of ones in common with every row, which are independent and as many as
/// can be. The rows are reduced from their first bits on; each other bit then gives one list.
fn parity_check(rows: &[u16], width: usize) -> Vec<u16> {
    let mut reduced: Vec<u16> = Vec::new();
    let mut pivots: Vec<u16> = Vec::new();
    let mut rest = rows.to_vec();
    for bit in (0..width).rev().map(|k| 1u16 << k) {
        let Some(place) = rest.iter().position(|row| row & bit != 0) else {
            continue;
        };
        let pivot = rest.swap_remove(place);
        for row in rest.iter_mut().chain(&mut reduced).filter(|row| **row & bit != 0) {
            *row ^= pivot;
        }
        reduced.push(pivot);
        pivots.push(bit);
    }
    let all = (0..width).map(|k| 1u16 << k);
    let check = |bit: u16| {
        let having = reduced.iter().zip(&pivots).filter(|(row, _)| *row & bit != 0);
        having.fold(bit, |check, (_, pivot)| check | pivot)
    };
    all.filter(|bit| !pivots.contains(bit)).map(check).collect()
}

fn odd(bits: u16) -> bool {
    bits.count_ones() % 2 == 1
}

/// The syndrome of a word's beginning: for each list of the check whether it has an odd number of ones in common with it.
fn syndrome(check: &[u16], beginning: u16) -> Vec<bool> {
    check.iter().map(|list| odd(list & beginning)).collect()
}

/// The words of a file as bits of a row, in the file's order.
fn words(generator: &Generator, file: &[u8]) -> Vec<u16> {
    let count = (file.len() - 5) / 4;
    let (pairs, labels) = file[5..].split_at(2 * count);
    let word = |(pair, label): (&[u8], &[u8])| {
        let packed = u16::from_le_bytes([label[0], label[1]]);
        let symbols = (0..generator.n)
            .rev()
            .fold(0, |bits, t| 2 * bits + (packed >> (2 * t) & 1));
        ((pair[0] as u16) << generator.n | symbols) << generator.state_bits | pair[1] as u16
    };
    pairs.chunks(2).zip(labels.chunks(2)).map(word).collect()
}

/// How many syndromes, vertices and pairs of them occur at an inner depth: the same number of each, if words share both or neither.
fn syndromes(differing: &mut Differing, generator: &Generator, left: &Buffers) {
    let words = words(generator, &left.file);
    let check = parity_check(&generator.rows, generator.width());
    let lists = generator.width() - generator.rows.len();
    let stray = words
        .iter()
        .any(|&word| syndrome(&check, word).iter().any(|&is_odd| is_odd));
    differing.compare(&(lists, false), &(check.len(), stray), || {
        format!("the check of {generator:?}")
    });
    for t in 1..generator.n {
        let behind = generator.n - t + generator.state_bits;
        let beginnings = words.iter().map(|word| syndrome(&check, word >> behind << behind));
        let vertices = &left.map[t * words.len()..(t + 1) * words.len()];
        let pairs: BTreeSet<(Vec<bool>, u16)> = beginnings.zip(vertices.iter().copied()).collect();
        let one: BTreeSet<&Vec<bool>> = pairs.iter().map(|pair| &pair.0).collect();
        let other: BTreeSet<u16> = pairs.iter().map(|pair| pair.1).collect();
        differing.compare(&(pairs.len(), pairs.len()), &(one.len(), other.len()), || {
            format!("syndromes and vertices at depth {t} of {generator:?}")
        });
    }
}

/// All of it for what a call left in buffers that are just as long as needed.
pub fn hold(differing: &mut Differing, generator: &Generator, left: &Buffers) {
    let merged = merging::compiled(&left.file, left.map.len(), left.section.len());
    let again = (merged.answer.number, &merged.map, &merged.section);
    differing.compare(&(0, &left.map, &left.section), &again, || {
        format!("merging the file of {generator:?}")
    });
    let (section, length) = Section::read(&left.section).expect("a whole section");
    let edges = section.steps.iter().map(Vec::len);
    let counts: Vec<usize> = section
        .vertices
        .iter()
        .map(|&count| count as usize)
        .chain(edges)
        .collect();
    let powers = counts.iter().all(|count| count.is_power_of_two());
    differing.compare(&(left.section.len(), true), &(length, powers), || {
        format!("counts {counts:?} of {generator:?}")
    });
    syndromes(differing, generator, left);
}
