//! Faults of rows, each beside each other one and beside buffers that are too short, with answers known beforehand: only the first in the order of checks
//! is answered, and no place of any buffer changes that is not said to.

use super::common::Differing;
use super::common::archive::Answer;
use super::common::rows::{Buffers, Generator, Lengths};
use super::{ROOMY, Tally, around};

/// The rows of marked case 9, and what its buffers need.
const ROWS: [u16; 4] = [0b10_111_00, 0b01_001_00, 0b00_101_10, 0b00_110_01];
const NEEDED: Lengths = [69, 64, 114];

/// Which check finds a fault, in their order: a size outside its bounds, a row too wide, a row that is a sum of earlier ones.
#[derive(Clone, Copy, PartialEq, Eq, PartialOrd, Ord, Debug)]
enum Check {
    Sizes,
    Width,
    Sum,
}

/// What is changed, the check that finds it, and the row that it then names; of sizes it names the number of rows.
type Fault = (fn(&mut Generator), Check, usize);

/// In the order in which two of them are put in: what is a sum may then get a bit too many, and rows may be taken away.
const FAULTS: [Fault; 20] = [
    (|g| g.rows[0] = 0, Check::Sum, 0),
    (|g| g.rows[1] = g.rows[0], Check::Sum, 1),
    (|g| g.rows[2] = g.rows[0] ^ g.rows[1], Check::Sum, 2),
    (|g| g.rows[3] = g.rows[0] ^ g.rows[1] ^ g.rows[2], Check::Sum, 3),
    (|g| g.rows[3] = 0, Check::Sum, 3),
    (|g| g.rows[0] |= 1 << 7, Check::Width, 0),
    (|g| g.rows[2] |= 1 << 8, Check::Width, 2),
    (|g| g.rows[3] |= 1 << 15, Check::Width, 3),
    (|g| g.state_bits = 5, Check::Sizes, 0),
    (|g| g.state_bits = 256, Check::Sizes, 0),
    (|g| g.state_bits = (1 << 32) + 2, Check::Sizes, 0),
    // twice as many bits are no more than 0 to a machine that leaves out what it has no room for
    (|g| g.state_bits = 1 << 63, Check::Sizes, 0),
    (|g| g.n = 0, Check::Sizes, 0),
    (|g| g.n = 9, Check::Sizes, 0),
    (|g| g.n = 256 + 3, Check::Sizes, 0),
    (|g| g.n = usize::MAX, Check::Sizes, 0),
    (|g| g.rows.clear(), Check::Sizes, 0),
    (|g| g.rows.resize(11, 0), Check::Sizes, 0),
    (|g| g.rows.resize(256 + 4, 0), Check::Sizes, 0),
    (|g| g.rows.resize(65_536 + 4, 0), Check::Sizes, 0),
];

/// The answer to two faults, or to one that is put in twice, in buffers of any lengths.
fn refusal(generator: &Generator, faults: [Fault; 2]) -> Answer {
    let first = faults.iter().map(|fault| (fault.1, fault.2)).min();
    match first.expect("two faults") {
        (Check::Sizes, _) => Answer::new(14, &[generator.rows.len()]),
        (Check::Width, row) => Answer::new(14, &[row]),
        (Check::Sum, row) => Answer::new(15, &[row]),
    }
}

/// The answer without any fault.
fn outcome(lengths: Lengths) -> Answer {
    let short = (0..3).find(|&buffer| lengths[buffer] < NEEDED[buffer]);
    short.map_or(Answer::new(0, &[NEEDED[2]]), |buffer| {
        Answer::new([10, 5, 7][buffer], &[NEEDED[buffer]])
    })
}

/// A call with an answer known beforehand: it writes what was made only where that is said.
fn hold(
    tally: &mut Tally,
    differing: &mut Differing,
    generator: &Generator,
    made: &Result<Buffers, Answer>,
    lengths: Lengths,
    wanted: Answer,
) {
    let (answer, left) = tally.compare(differing, generator, made, lengths);
    let before = Buffers::new(lengths);
    let changed = [
        left.file != before.file,
        left.map != before.map,
        left.section != before.section,
    ];
    let writes = [wanted.number == 0, [0, 7].contains(&wanted.number), wanted.number == 0];
    differing.compare(&(wanted, writes), &(answer, changed), || {
        format!("known, buffers of {lengths:?}: {generator:?}")
    });
}

pub fn run(differing: &mut Differing) {
    let mut tally = Tally::default();
    let right = Generator::new(2, 3, &ROWS);
    let made = right.made();
    tally.generators += 1;
    for lengths in around(NEEDED) {
        hold(&mut tally, differing, &right, &made, lengths, outcome(lengths));
    }
    for (i, one) in FAULTS.into_iter().enumerate() {
        for other in FAULTS[i..].iter().copied() {
            let mut generator = right.clone();
            (one.0)(&mut generator);
            (other.0)(&mut generator);
            tally.generators += 1;
            let (made, refusal) = (generator.made(), refusal(&generator, [one, other]));
            for lengths in around(NEEDED).chain([ROOMY]) {
                hold(&mut tally, differing, &generator, &made, lengths, refusal.clone());
            }
        }
    }
    tally.report("faults beside each other and beside short buffers");
}
