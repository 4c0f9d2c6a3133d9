//! Tables and sections of up to 70 states, and chains between as many. Document 01 took 64 states; document 02's second request takes 16, so that what
//! has more is refused as outside its bounds, with nothing written, and the cost table needs 16 places a block.

use super::Tally;
use super::common::archive::Answer;
use super::common::frames::{lengths_of, list_lengths_of, over};
use super::common::merging::section_of;
use super::common::tables::{Table, across};
use super::common::{MOST_STATES, Numbers};

const BLOCKS: usize = 3;
const PATHS: usize = 5;

/// All calls with so many states, and the refusal that each has where they are too many, and only there.
fn all_calls(tally: &mut Tally, states: u8, numbers: &mut Numbers) {
    let (table, largest) = (across(states), across(MOST_STATES as u8));
    let mut chain = |tables: &[Table], start, end| over(tables, [start, end], BLOCKS, usize::MAX, numbers);
    let behind = chain(&[largest.clone(), table.clone()], 0, 0);
    let from_last = chain(&[largest.clone()], states - 1, 0);
    let to_last = chain(&[largest], 0, states - 1);
    let listed = list_lengths_of(BLOCKS, PATHS);
    let (section, widest) = (section_of(&table), section_of(&across(MOST_STATES as u8)));
    tally.file(&table.file());
    let answers = [
        (tally.merge(&table.file(), 9 * 1024, 30_000), Answer::new(2, &[2])),
        (tally.read_back(&section, 4200), Answer::new(8, &[0])),
        (tally.same_section(&section, &widest), Answer::new(8, &[0])),
        (tally.same_section(&widest, &section), Answer::new(8, &[1])),
        (tally.decode(&behind, lengths_of(BLOCKS)), Answer::new(8, &[1])),
        (tally.decode(&from_last, lengths_of(BLOCKS)), Answer::new(9, &[BLOCKS])),
        (tally.decode(&to_last, lengths_of(BLOCKS)), Answer::new(9, &[BLOCKS])),
        (tally.decode_list(&behind, PATHS, listed), Answer::new(8, &[1])),
        (tally.decode_list(&from_last, PATHS, listed), Answer::new(9, &[BLOCKS])),
        (tally.decode_list(&to_last, PATHS, listed), Answer::new(9, &[BLOCKS])),
    ];
    for (answer, refusal) in answers {
        let (wanted, got) = (states as usize > MOST_STATES, answer == refusal);
        let what = || format!("{states} states: {answer:?}, its refusal {refusal:?}");
        tally.differing.compare(&wanted, &got, what);
    }
}

/// A cost table of 16 places a block is long enough, and one place less is not.
fn costs(tally: &mut Tally, numbers: &mut Numbers) {
    let frame = over(&[across(MOST_STATES as u8)], [0, 0], BLOCKS, usize::MAX, numbers);
    for (costs, answer) in [(48, None), (47, Some(Answer::new(10, &[48])))] {
        let given = tally.decode(&frame, [costs, BLOCKS, BLOCKS, BLOCKS]);
        let refused = Some(given).filter(|given| given.number != 0);
        let what = || format!("a cost table of {costs} places");
        tally.differing.compare(&answer, &refused, what);
    }
}

pub fn run(tally: &mut Tally, numbers: &mut Numbers) {
    for states in 1..=70 {
        all_calls(tally, states, numbers);
    }
    costs(tally, numbers);
}
