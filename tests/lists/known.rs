//! Lists that are known beforehand: over the labels 00 and 11 a path is a number, with a bit for each block, the first block highest, and the order of
//! paths is that of their numbers.

use super::common::Differing;
use super::common::archive::{Answer, Frame};
use super::common::codes::case_3;
use super::common::faults::case_7;
use super::common::frames::copies;
use super::common::several::MOST_PATHS;
use super::listed;

/// A path by its distance and the blocks in which it has the label 11.
type Known = (u32, Vec<usize>);

/// Compares the list for each number of paths with the first of the known ones.
fn hold(differing: &mut Differing, frame: &Frame, known: &[Known]) {
    let blocks = frame.indices.len();
    for paths in 1..=MOST_PATHS {
        let (answer, list) = listed(frame, paths);
        let first = &known[..known.len().min(paths)];
        let distances: Vec<u32> = first.iter().map(|path| path.0).collect();
        let (mut labels, goals) = (vec![0; first.len() * blocks], vec![0; first.len() * blocks]);
        for (p, (_, ones)) in first.iter().enumerate() {
            ones.iter().for_each(|b| labels[p * blocks + b] = 5);
        }
        let wanted = (
            Answer::new(0, &[first.len()]),
            (&distances[..], &labels[..], &goals[..]),
        );
        differing.compare(&wanted, &(answer, list.first(first.len(), blocks)), || {
            format!("{paths} paths, known: {frame:?}")
        });
    }
}

/// The blocks whose bits a number has.
fn ones(number: usize, blocks: usize) -> Vec<usize> {
    let low = blocks.min(usize::BITS as usize);
    (0..low)
        .rev()
        .filter(|bit| number >> bit & 1 == 1)
        .map(|bit| blocks - 1 - bit)
        .collect()
}

/// With all symbols erased, all paths have distance 0.
fn all_alike(differing: &mut Differing, blocks: usize) {
    let mut frame = copies(&case_3(), 1, blocks, 0);
    frame.erased.fill(0b11);
    let count = 1 << blocks.min(5);
    let known: Vec<Known> = (0..count).map(|number| (0, ones(number, blocks))).collect();
    hold(differing, &frame, &known);
}

/// Received as 00 throughout, a path has two symbols wrong for each 11.
fn by_ones(differing: &mut Differing, blocks: usize) {
    let frame = copies(&case_3(), 1, blocks, 0);
    let mut numbers: Vec<usize> = (0..1 << blocks).collect();
    numbers.sort_by_key(|number| number.count_ones());
    let known: Vec<Known> = numbers
        .iter()
        .map(|&number| (2 * number.count_ones(), ones(number, blocks)))
        .collect();
    hold(differing, &frame, &known);
}

/// The same over so many blocks that the second to the sixteenth have one 11, later blocks first.
fn one_each(differing: &mut Differing, blocks: usize) {
    let frame = copies(&case_3(), 1, blocks, 0);
    let mut known = vec![(0, Vec::new())];
    known.extend((1..MOST_PATHS).map(|p| (2, vec![blocks - p])));
    hold(differing, &frame, &known);
}

pub fn run(differing: &mut Differing) {
    // the first block costs 1 either way
    hold(
        differing,
        &case_7(),
        &[(1, vec![1]), (1, vec![0, 1]), (3, vec![]), (3, vec![0])],
    );
    (1..=256).for_each(|blocks| all_alike(differing, blocks));
    (1..=10).for_each(|blocks| by_ones(differing, blocks));
    (15..=256).for_each(|blocks| one_each(differing, blocks));
    println!("lists known beforehand: paths of the labels 00 and 11");
}
