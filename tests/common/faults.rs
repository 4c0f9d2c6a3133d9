//! The chain of marked case 7, faults put into it with the outcome of each, and buffers of all lengths around those that are needed: so each fault can
//! stand beside each other one, as only the first in the order of checks is answered.

use super::MOST_STATES;
use super::archive::Frame;
use super::codes::case_3;
use super::frames::{Lengths, copies};

/// How many blocks the chain has.
pub const BLOCKS: usize = 2;

/// The section of the labels 00 and 11, received as 01 and 11.
pub fn case_7() -> Frame {
    let mut frame = copies(&case_3(), 1, BLOCKS, 0);
    frame.received = vec![1, 5];
    frame
}

pub type Fault = (fn(&mut Frame), u32, usize);

/// What is changed in the chain, and the outcome's number and value if no buffer is short; where it is 0, the value is the distance.
pub const FAULTS: [Fault; 14] = [
    (|_| (), 0, 1),
    // no word leads to the end state
    (|frame| frame.end = 1, 11, 0),
    (|frame| frame.k = 0, 8, 0),
    (|frame| frame.k = 17, 8, 17),
    // q is 5
    (|frame| frame.sections[0] = 5, 8, 0),
    (|frame| frame.sections.push(0), 8, 1),
    (|frame| frame.received.truncate(1), 9, BLOCKS),
    (|frame| frame.erased.push(0), 9, BLOCKS),
    (|frame| frame.start = MOST_STATES as u8, 9, BLOCKS),
    (|frame| frame.end = MOST_STATES as u8, 9, BLOCKS),
    (|frame| frame.indices[0] = 1, 9, 0),
    // a symbol that is q, an erased symbol whose digit is not 0, and a mask of three bits
    (|frame| frame.received[1] = 2, 9, 1),
    (|frame| frame.erased[1] = 1, 9, 1),
    (|frame| frame.erased[0] = 4, 9, 0),
];

/// Each buffer empty, one place short, as long as needed and longer, beside each of the others.
pub fn around(needed: Lengths) -> impl Iterator<Item = Lengths> {
    (0..4usize.pow(4)).map(move |choices| {
        let mut rest = choices;
        needed.map(|needed| {
            let choice = rest % 4;
            rest /= 4;
            [0, needed - 1, needed, needed + 7][choice]
        })
    })
}
