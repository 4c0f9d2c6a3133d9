//! The masks of wrong symbols (document 02, request 5), with answers known beforehand: every set of wrong symbols beside every set of erased ones; and
//! buffers too short for a chain beside its faults, as only the first in the order of checks is answered and no place of any buffer changes.

use super::Tally;
use super::common::archive::{self, Answer, Buffers};
use super::common::faults::{BLOCKS, FAULTS, Fault, around, case_7};
use super::common::frames::{self, Lengths, copies};
use super::common::tables::{Table, symbols};
use super::common::{Differing, MOST_STATES, Numbers};
use link_kit::NO_COST;

/// Whether a set of symbols has symbol t of n: the first symbol is the highest bit.
fn has(set: usize, n: u8, t: u8) -> bool {
    set >> (n - 1 - t) & 1 == 1
}

/// A label with some symbols replaced by other ones, and some erased.
fn received(label: u16, n: u8, wrong: usize, erased: usize, numbers: &mut Numbers) -> u16 {
    let mut received = 0;
    for (t, symbol) in (0..n).zip(symbols(label, n)) {
        let other = (symbol + numbers.from_to(1, 3) as u16) % 4;
        let got = if has(wrong, n, t) { other } else { symbol };
        received = 4 * received + if has(erased, n, t) { 0 } else { got };
    }
    received
}

/// A chain over one word of n symbols with a block for each set of wrong symbols; the mask of a block is its set without what is erased.
fn all_wrong(tally: &mut Tally, differing: &mut Differing, n: u8, erased: usize, numbers: &mut Numbers) {
    let label = numbers.below(4usize.pow(n as u32)) as u16;
    let words = vec![(0, label, 0)];
    let (q, states, blocks) = (4, 1, 1 << n);
    let mut frame = copies(&Table { q, n, states, words }, 1, blocks, 0);
    frame.erased.fill(erased as u8);
    for (wrong, place) in frame.received.iter_mut().enumerate() {
        *place = received(label, n, wrong, erased, numbers);
    }
    let lengths = frames::lengths_for(blocks, numbers);
    tally.compare(differing, &frame, lengths, false);
    let mut got = frames::buffers(lengths);
    let mut wanted = got.masks.clone();
    let masks = (0..blocks).map(|wrong| (wrong & !erased) as u8);
    wanted.splice(..blocks, masks);
    archive::decode(&frame, &mut got);
    differing.compare(&wanted, &got.masks, || format!("the masks: {frame:?}"));
}

/// The outcome with buffers of some lengths: those under 8 and 9 are checked before them, and a path is looked for after them.
fn outcome(number: u32, value: usize, lengths: Lengths) -> Answer {
    let short = |(length, needed): (usize, usize)| (length < needed).then_some(needed);
    match lengths.into_iter().zip(frames::lengths_of(BLOCKS)).find_map(short) {
        Some(needed) if number == 0 || number == 11 => Answer::new(10, &[needed]),
        _ => Answer::new(number, &[value]),
    }
}

/// What the buffers then hold.
fn left(number: u32, mut buffers: Buffers) -> Buffers {
    if number == 0 || number == 11 {
        buffers.costs[..MOST_STATES * BLOCKS].fill(NO_COST);
    }
    if number == 0 {
        (buffers.costs[0], buffers.costs[MOST_STATES]) = (1, 0);
        buffers.labels[..BLOCKS].copy_from_slice(&[0, 5]);
        buffers.goals[..BLOCKS].copy_from_slice(&[0, 0]);
        buffers.masks[..BLOCKS].copy_from_slice(&[0b01, 0b00]);
    }
    buffers
}

fn short_buffers(tally: &mut Tally, differing: &mut Differing, fault: Fault) {
    let (spoil, number, value) = fault;
    let mut frame = case_7();
    spoil(&mut frame);
    for lengths in around(frames::lengths_of(BLOCKS)) {
        tally.compare(differing, &frame, lengths, true);
        let before = frames::buffers(lengths);
        let mut got = before.clone();
        let given = archive::decode(&frame, &mut got);
        let answer = outcome(number, value, lengths);
        let wanted = left(answer.number, before);
        differing.compare(&(answer, wanted), &(given, got), || {
            format!("buffers of {lengths:?}: {frame:?}")
        });
    }
}

pub fn run(differing: &mut Differing, numbers: &mut Numbers) {
    let (mut sets, mut short) = (Tally::default(), Tally::default());
    for n in 1..=8 {
        for erased in 0..1 << n {
            all_wrong(&mut sets, differing, n, erased, numbers);
        }
    }
    sets.report("all sets of wrong symbols, for all sets of erased ones");
    for fault in FAULTS {
        short_buffers(&mut short, differing, fault);
    }
    short.report("short buffers beside other faults");
}
