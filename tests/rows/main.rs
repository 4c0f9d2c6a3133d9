//! Merges the sums of many rows with the compiled `link_merge_rows` and compares the answer and every place of the three buffers with the table of these
//! sums, merged plainly, written from documents 01 and 02 alone: all rows of few bits, rows of every size, drawn, dependent, alone in their bits or too
//! wide, sizes outside their bounds, and faults beside each other. Of what is made, it also looks at the parity check.

#[path = "../common/mod.rs"]
mod common;

mod faults;
mod properties;
mod samples;

use common::archive::Answer;
use common::rows::{Buffers, Generator, Lengths, MOST_ROWS, MOST_STATE_BITS, MOST_SYMBOLS, compiled, expected};
use common::{Differing, Numbers};
use std::collections::BTreeMap;

/// More than anything needs.
const ROOMY: Lengths = [4_200, 9_300, 25_000];

#[derive(Default)]
struct Tally {
    generators: usize,
    outcomes: BTreeMap<u32, usize>,
    words: usize,
}

impl Tally {
    fn compare(
        &mut self,
        differing: &mut Differing,
        generator: &Generator,
        made: &Result<Buffers, Answer>,
        lengths: Lengths,
    ) -> (Answer, Buffers) {
        let (wanted, got) = (expected(made, lengths), compiled(generator, lengths));
        *self.outcomes.entry(wanted.0.number).or_default() += 1;
        differing.compare(&wanted, &got, || format!("buffers of {lengths:?}: {generator:?}"));
        got
    }

    /// Compares with buffers of some lengths, and holds what was made to its properties. Rows that are refused are so whatever the buffers are.
    fn try_rows(&mut self, differing: &mut Differing, generator: &Generator, numbers: &mut Numbers) -> Answer {
        self.generators += 1;
        let made = generator.made();
        let Ok(front) = &made else {
            self.compare(differing, generator, &made, [0; 3]);
            return self.compare(differing, generator, &made, ROOMY).0;
        };
        let needed = front.lengths();
        self.words += (needed[0] - 5) / 4;
        for lengths in around(needed) {
            // of many words not all, as there are many places to compare
            if needed[0] < 100 || numbers.one_in(4) {
                self.compare(differing, generator, &made, lengths);
            }
        }
        let (answer, left) = self.compare(differing, generator, &made, needed);
        if answer.number == 0 {
            properties::hold(differing, generator, &left);
        }
        answer
    }

    fn report(&self, what: &str) {
        let Tally {
            generators,
            outcomes,
            words,
        } = self;
        println!("{what}: {generators} generators with {words} words, outcomes {outcomes:?}");
    }
}

/// Each buffer empty, one place short, as long as needed and longer, beside each of the others.
fn around(needed: Lengths) -> impl Iterator<Item = Lengths> {
    (0..64).map(move |choices| {
        let choice = |place: usize| choices >> (2 * place) & 3;
        let length = |place: usize| [0, needed[place] - 1, needed[place], needed[place] + 3][choice(place)];
        [length(0), length(1), length(2)]
    })
}

/// All rows of up to three bits, and too wide ones with a bit more, up to three rows.
fn all_small(differing: &mut Differing, numbers: &mut Numbers) {
    let mut tally = Tally::default();
    for (state_bits, n) in [(0, 1), (0, 2), (0, 3), (1, 1)] {
        let values = 2 << (2 * state_bits + n);
        for count in 1..=3 {
            for choice in 0..usize::pow(values, count) {
                let rows: Vec<u16> = (0..count).map(|j| (choice / values.pow(j) % values) as u16).collect();
                tally.try_rows(differing, &Generator::new(state_bits, n, &rows), numbers);
            }
        }
    }
    tally.report("all rows of 1 to 3 bits and of one bit too many");
}

/// All sizes that are in bounds: state bits, n, and how many rows.
fn sizes() -> impl Iterator<Item = (usize, usize, usize)> {
    let some = (0..=MOST_STATE_BITS).flat_map(|bits| (1..=MOST_SYMBOLS).map(move |n| (bits, n)));
    some.flat_map(|(bits, n)| (1..=MOST_ROWS).map(move |count| (bits, n, count)))
}

/// Independent rows of every size that has some; as many rows as bits have all words.
fn independent(differing: &mut Differing, numbers: &mut Numbers) {
    let mut tally = Tally::default();
    for (state_bits, n, count) in sizes().filter(|&(bits, n, count)| count <= 2 * bits + n) {
        for _ in 0..[8, 8, 8, 8, 8, 8, 6, 4, 2, 2][count - 1] {
            let generator = Generator::independent(state_bits, n, count, numbers);
            let answer = tally.try_rows(differing, &generator, numbers);
            differing.compare(&0, &answer.number, || format!("independent rows: {generator:?}"));
        }
    }
    tally.report("independent rows of every size");
}

/// Rows with one bit each, in some order.
fn unit_rows(differing: &mut Differing, numbers: &mut Numbers) {
    let mut tally = Tally::default();
    for (state_bits, n, count) in sizes().filter(|&(bits, n, count)| count <= 2 * bits + n) {
        let mut units: Vec<u16> = (0..2 * state_bits + n).map(|k| 1 << k).collect();
        numbers.shuffle(&mut units);
        tally.try_rows(differing, &Generator::new(state_bits, n, &units[..count]), numbers);
    }
    tally.report("rows with one bit each");
}

/// Rows that tie each bit of the last half to one in front of it, so that there are as many vertices as can be, with other rows added to them; then some
/// with one bit.
fn tied(width: usize, count: usize, numbers: &mut Numbers) -> Vec<u16> {
    let half = width / 2;
    let mut front: Vec<usize> = (width - half..width).collect();
    numbers.shuffle(&mut front);
    let mut rows: Vec<u16> = (0..half).map(|k| 1 << k | 1 << front[k]).collect();
    for k in 1..half {
        rows[k] ^= [0, rows[numbers.below(k)]][numbers.below(2)];
    }
    rows.extend((0..count - half).map(|k| 1 << k));
    rows
}

fn tied_rows(differing: &mut Differing, numbers: &mut Numbers) {
    let mut tally = Tally::default();
    for (state_bits, n, count) in sizes() {
        let width = 2 * state_bits + n;
        if !(width / 2..=width).contains(&count) {
            continue;
        }
        // there are most vertices without those of one bit
        for _ in 0..if count == width / 2 { 6 } else { 1 } {
            let rows = tied(width, count, numbers);
            let answer = tally.try_rows(differing, &Generator::new(state_bits, n, &rows), numbers);
            differing.compare(&0, &answer.number, || format!("tied rows: {rows:?}"));
        }
    }
    tally.report("rows that tie two bits");
}

/// Rows of every size of which one, at each place, is a sum of some before it: of none, which is zeros, of one, which stands twice then, or of more.
fn dependent(differing: &mut Differing, numbers: &mut Numbers) {
    let mut tally = Tally::default();
    for (state_bits, n, count) in sizes() {
        let width = 2 * state_bits + n;
        for j in 0..count.min(width + 1) {
            let mut generator = Generator::independent(state_bits, n, count.min(width), numbers);
            generator.rows.resize_with(count, || numbers.below(1 << width) as u16);
            let chosen = [0, 1 << numbers.below(j.max(1)), numbers.below(1 << j)][numbers.below(3)];
            let earlier = (0..j).filter(|k| chosen >> k & 1 == 1);
            generator.rows[j] = earlier.fold(0, |sum, k| sum ^ generator.rows[k]);
            let answer = tally.try_rows(differing, &generator, numbers);
            differing.compare(&Answer::new(15, &[j]), &answer, || format!("row {j}: {generator:?}"));
        }
    }
    tally.report("one row a sum of some before it");
}

/// Rows of every size as they come, some of them too wide.
fn any_rows(differing: &mut Differing, numbers: &mut Numbers) {
    let mut tally = Tally::default();
    for (state_bits, n, count) in sizes() {
        for turn in 0..if count < 9 { 6 } else { 3 } {
            // every other time with more bits than that
            let width = 2 * state_bits + n;
            let bits = [width, numbers.from_to(width, 16)][turn % 2];
            let rows: Vec<u16> = (0..count).map(|_| numbers.below(1 << bits) as u16).collect();
            tally.try_rows(differing, &Generator::new(state_bits, n, &rows), numbers);
        }
    }
    tally.report("any rows of every size");
}

fn main() {
    let mut numbers = Numbers::new();
    let mut differing = Differing::default();
    samples::run(&mut differing);
    all_small(&mut differing, &mut numbers);
    independent(&mut differing, &mut numbers);
    unit_rows(&mut differing, &mut numbers);
    tied_rows(&mut differing, &mut numbers);
    dependent(&mut differing, &mut numbers);
    any_rows(&mut differing, &mut numbers);
    faults::run(&mut differing);
    differing.finish();
}
