//! Block sheets of drawn chains, of chains with spoiled tables, of large tables and of an input with each byte changed: what `link_block_sheet`
//! leaves, compared with the sheet written plainly from document 02 alone.

use super::common::archive::{self, byte_pattern};
use super::common::codes::benchmarked;
use super::common::merging::witness;
use super::common::sheet::{Input, MOST_BLOCKS, MOST_SECTIONS, in_turn, one_step, some_indices, text_of};
use super::common::tables::{Table, drawn, large_tables, scattered, sparse};
use super::common::{Differing, Numbers, listing, shapes};
use super::{Outcomes, malformed, sheet_known};
use link_kit::ANY_SHEET;

/// What was compared of one kind of input: the calls by outcome, and the texts by the number that they refuse with, 0 for a sheet.
#[derive(Default)]
pub struct Tally {
    inputs: usize,
    called: Outcomes,
    printed: Outcomes,
    differing: Differing,
}

impl Tally {
    /// The sheet in buffers around the text's length, of none and of the longest. Gives the text.
    pub fn input(&mut self, input: &[u8]) -> String {
        self.inputs += 1;
        let text = text_of(input);
        *self.printed.entry(refused_with(&text)).or_default() += 1;
        for length in [0, text.len() - 1, text.len(), text.len() + 1, ANY_SHEET] {
            let mut wanted = byte_pattern(length);
            let mut got = wanted.clone();
            let answer = listing::put(&text, &mut wanted);
            let given = archive::block_sheet(input, &mut got);
            *self.called.entry(answer.number).or_default() += 1;
            self.differing
                .compare(&(&answer, wanted), &(&given, got), || shown(input));
        }
        text
    }

    /// The same for an input whose text is known, so that the plain sheet is compared as well.
    pub fn known(&mut self, input: &[u8], known: &str) {
        let text = self.input(input);
        let what = || format!("written plainly, {}", shown(input));
        self.differing.compare(&known, &text.as_str(), what);
    }

    fn report(&self, what: &str) {
        println!("block sheets, {what}: {} inputs", self.inputs);
        println!("  sheet: outcomes {:?}, texts {:?}", self.called, self.printed);
    }
}

/// The number that a text refuses with, 0 for a sheet.
fn refused_with(text: &str) -> u32 {
    let mut words = text.split_whitespace();
    match words.next() {
        Some("refused") => words.next().and_then(|word| word.parse().ok()).expect("a number"),
        _ => 0,
    }
}

/// An input for a line that says what differs; of a long one its front.
fn shown(input: &[u8]) -> String {
    let front = &input[..input.len().min(200)];
    format!("the sheet of {} bytes, {front:02x?}", input.len())
}

/// A table of some kind that can be merged.
fn accepted(numbers: &mut Numbers) -> Table {
    loop {
        let table = match numbers.below(5) {
            0 => shapes::linear(numbers),
            1 => shapes::product(numbers),
            2 => shapes::closed(numbers),
            3 => drawn(3, 3, 3, numbers),
            _ => scattered(4, 3, 3, numbers),
        };
        if !table.words.is_empty() && witness(&table).is_none() {
            return table;
        }
    }
}

/// How many blocks: one, few, many, or as many as there can be.
fn some_blocks(numbers: &mut Numbers) -> usize {
    let most = [1, 12, MOST_BLOCKS][numbers.below(3)];
    let fewest = [1, 1, most][numbers.below(3)];
    numbers.from_to(fewest, most)
}

fn chains(tally: &mut Tally, numbers: &mut Numbers) {
    let tables: Vec<Table> = (0..300).map(|_| accepted(numbers)).collect();
    for round in 0..800 {
        let k = round % MOST_SECTIONS + 1;
        let taken: Vec<&Table> = (0..k).map(|_| &tables[numbers.below(tables.len())]).collect();
        chain(tally, &taken, round / MOST_SECTIONS, numbers);
    }
}

/// A chain over tables that can be merged; with a word less or more in one of them; with one of them spoiled; and with one more.
fn chain(tally: &mut Tally, tables: &[&Table], kind: usize, numbers: &mut Numbers) {
    let (k, blocks) = (tables.len(), some_blocks(numbers));
    let files = tables.iter().map(|table| table.file()).collect();
    let input = Input::over(files, some_indices(k, blocks, numbers));
    tally.input(&input.bytes());
    let place = numbers.below(k);
    let mut near = input.clone();
    near.tables[place] = [shapes::one_out, shapes::one_in][numbers.below(2)](tables[place], numbers).file();
    tally.input(&near.bytes());
    let mut spoiled = input;
    malformed::spoil(&mut spoiled.tables[place], kind % malformed::KINDS, numbers);
    tally.input(&spoiled.bytes());
    let other = numbers.below(k);
    malformed::spoil(&mut spoiled.tables[other], numbers.below(malformed::KINDS), numbers);
    tally.input(&spoiled.bytes());
}

fn uses(tally: &mut Tally, numbers: &mut Numbers) {
    for k in 1..=MOST_SECTIONS {
        let files: Vec<Vec<u8>> = (0..k).map(|_| accepted(numbers).file()).collect();
        [1, 2, k, 255, 256].map(|blocks| used(tally, &files, blocks));
    }
}

/// As many blocks as that, all through the first section, all through the last, and through each in turn.
fn used(tally: &mut Tally, files: &[Vec<u8>], blocks: usize) {
    let k = files.len();
    for indices in [vec![0; blocks], vec![k as u8 - 1; blocks], in_turn(k, blocks)] {
        tally.input(&Input::over(files.to_vec(), indices).bytes());
    }
}

/// An input with one byte changed, each in turn.
fn changes(tally: &mut Tally) {
    let bytes = sheet_known::small().bytes();
    (0..bytes.len()).for_each(|place| changed(tally, &bytes, place));
}

/// The byte at a place with each of its bits changed, one more and one less, and with values around the bounds.
fn changed(tally: &mut Tally, bytes: &[u8], place: usize) {
    let old = bytes[place];
    let bits = (0..8).map(|bit| old ^ 1 << bit);
    let others = [old.wrapping_add(1), old.wrapping_sub(1), 0, 1, 2, 3, 5, 9, 16, 17, 255];
    for new in bits.chain(others) {
        let mut input = bytes.to_vec();
        input[place] = new;
        tally.input(&input);
    }
}

/// Sixteen tables of up to 1,024 words and 256 blocks, through each in turn and all through the one with as many edges as a table can have.
fn largest(tally: &mut Tally) {
    let mut tables = vec![sparse(&mut Numbers::new())];
    tables.extend(large_tables());
    tables.extend(benchmarked().map(|(_, table)| table));
    let mut files: Vec<Vec<u8>> = tables.iter().map(Table::file).collect();
    files.resize(MOST_SECTIONS, one_step());
    tally.input(&Input::over(files.clone(), in_turn(MOST_SECTIONS, MOST_BLOCKS)).bytes());
    tally.input(&Input::over(files, vec![0; MOST_BLOCKS]).bytes());
}

/// A kind of inputs, and what compares them.
type Kind = (&'static str, fn(&mut Tally, &mut Numbers));

const KINDS: [Kind; 7] = [
    ("drawn chains", chains),
    ("sections used by all blocks and by none", uses),
    ("large tables", |tally, _| largest(tally)),
    ("one byte changed", |tally, _| changes(tally)),
    ("cut at every byte", |tally, _| sheet_known::cuts(tally)),
    ("faults, and each two at once", |tally, _| sheet_known::faults(tally)),
    ("around the bounds", |tally, _| sheet_known::bounds(tally)),
];

pub fn run(all: &mut Differing, numbers: &mut Numbers) {
    for (what, kind) in KINDS {
        let mut tally = Tally::default();
        kind(&mut tally, numbers);
        tally.report(what);
        all.add(&tally.differing);
    }
}
