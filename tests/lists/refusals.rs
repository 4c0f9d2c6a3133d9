//! Faults of a chain beside numbers of paths that no list has and buffers that are too short, with answers known beforehand: only the first in the order
//! of checks is answered, and no place of any buffer changes that is not said to.

use super::Tally;
use super::common::archive::{self, Answer, ListBuffers};
use super::common::faults::{BLOCKS, FAULTS, Fault, around, case_7};
use super::common::frames::{self, Lengths, NO_LIST};
use super::common::{Differing, MOST_STATES};
use link_kit::NO_COST;

/// The four paths of the chain: their distances, and their labels one behind another.
const DISTANCES: [u32; 4] = [1, 1, 3, 3];
const LABELS: [u16; 4 * BLOCKS] = [0, 5, 5, 5, 0, 0, 5, 0];

/// The outcome of a fault with buffers of some lengths: 8 and 9 come before the number of paths, that before the buffers, and a path is looked for last.
fn outcome(number: u32, value: usize, paths: usize, lengths: Lengths) -> Answer {
    if number == 8 || number == 9 {
        return Answer::new(number, &[value]);
    }
    if NO_LIST.contains(&paths) {
        return Answer::new(13, &[paths]);
    }
    let needs = lengths.into_iter().zip(frames::list_lengths_of(BLOCKS, paths));
    match needs.into_iter().find(|(length, needed)| length < needed) {
        Some((_, needed)) => Answer::new(10, &[needed]),
        None if number == 0 => Answer::new(0, &[paths.min(DISTANCES.len())]),
        None => Answer::new(11, &[]),
    }
}

/// What the buffers then hold.
fn left(answer: &Answer, mut buffers: ListBuffers) -> ListBuffers {
    if answer.number == 0 || answer.number == 11 {
        buffers.costs[..MOST_STATES * BLOCKS].fill(NO_COST);
    }
    if answer.number == 0 {
        let (count, words) = (answer.value(), answer.value() * BLOCKS);
        (buffers.costs[0], buffers.costs[MOST_STATES]) = (1, 0);
        buffers.distances[..count].copy_from_slice(&DISTANCES[..count]);
        buffers.labels[..words].copy_from_slice(&LABELS[..words]);
        buffers.goals[..words].fill(0);
    }
    buffers
}

fn beside_others(tally: &mut Tally, differing: &mut Differing, fault: Fault, paths: usize) {
    let (spoil, number, value) = fault;
    let mut frame = case_7();
    spoil(&mut frame);
    let asked = if NO_LIST.contains(&paths) { 3 } else { paths };
    for lengths in around(frames::list_lengths_of(BLOCKS, asked)) {
        tally.compare(differing, &frame, paths, lengths, true);
        let before = frames::list_buffers(lengths);
        let mut got = before.clone();
        let given = archive::decode_list(&frame, paths, &mut got);
        let answer = outcome(number, value, paths, lengths);
        let wanted = left(&answer, before);
        differing.compare(&(answer, wanted), &(given, got), || {
            format!("{paths} paths, buffers of {lengths:?}: {frame:?}")
        });
    }
}

pub fn run(differing: &mut Differing) {
    let mut tally = Tally::default();
    for fault in FAULTS {
        for paths in [1, 2, 3, 4, 5, 16].into_iter().chain(NO_LIST) {
            beside_others(&mut tally, differing, fault, paths);
        }
    }
    tally.report("numbers of paths and short buffers beside other faults");
}
