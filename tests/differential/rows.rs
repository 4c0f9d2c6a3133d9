//! The sums of generator rows, drawn and spoiled, and what the kit makes of them through all its other functions: the file, merged and listed, the section,
//! read back, and chains over several such sections.

use super::Tally;
use super::common::Numbers;
use super::common::archive::Answer;
use super::common::rows::{Buffers, Generator, Lengths, compiled, expected};
use super::common::tables::Table;

impl Tally {
    fn rows(&mut self, generator: &Generator, made: &Result<Buffers, Answer>, lengths: Lengths) -> Buffers {
        let (wanted, got) = (expected(made, lengths), compiled(generator, lengths));
        *self.rows.entry(wanted.0.number).or_default() += 1;
        self.differing
            .compare(&wanted, &got, || format!("merging rows {generator:?}"));
        got.1
    }
}

/// Rows of some size, of which every third time one is a sum of two others, or too wide.
fn some_rows(round: usize, numbers: &mut Numbers) -> Generator {
    let (state_bits, n) = (numbers.from_to(0, 4), numbers.from_to(1, 8));
    let width = 2 * state_bits + n;
    let count = numbers.from_to(1, width.min(8));
    let mut generator = Generator::independent(state_bits, n, count, numbers);
    if round % 3 == 0 {
        let place = numbers.below(count);
        let [one, other] = [0; 2].map(|_| generator.rows[numbers.below(count)]);
        generator.rows[place] = [one ^ other, 1 << numbers.from_to(width - 1, 15)][numbers.below(2)];
    }
    generator
}

/// Each buffer as long as needed, longer or a little too short.
fn some_lengths(needed: Lengths, numbers: &mut Numbers) -> Lengths {
    needed.map(|length| length + [0, 0, 0, 0, 7][numbers.below(5)] - numbers.one_in(5) as usize)
}

/// Its numbers are its own, so that all other calls are what they are without it.
pub fn run(tally: &mut Tally) {
    let mut numbers = Numbers::seeded(7);
    let mut neighbours: Vec<Table> = Vec::new();
    for round in 0..400 {
        let generator = some_rows(round, &mut numbers);
        let made = generator.made();
        let needed = made.as_ref().map_or([100; 3], Buffers::lengths);
        tally.rows(&generator, &made, some_lengths(needed, &mut numbers));
        let left = tally.rows(&generator, &made, needed);
        let Ok(table) = generator.table() else {
            continue;
        };
        tally.file(&left.file);
        tally.sections(&table, &mut numbers);
        neighbours.push(table);
        let older = neighbours.len().saturating_sub(3);
        neighbours.drain(..older);
        tally.chain(&neighbours, numbers.from_to(1, 12), &mut numbers);
    }
}
