//! Reads sections back with the compiled `link_read_back` and compares every byte: those that small tables merge to, the same renumbered, cut short,
//! continued and with numbers changed, sections that break one rule of a usable section each, and sections of many words.

#[path = "../common/mod.rs"]
mod common;

mod broken;

use common::sections::{self, Section};
use common::tables::{Table, large_tables, small_tables};
use common::wide::with_words;
use common::{Differing, Numbers, archive, merging};
use std::collections::BTreeMap;

#[derive(Default)]
pub struct Tally {
    sections: usize,
    outcomes: BTreeMap<u32, usize>,
    differing: Differing,
}

impl Tally {
    /// Compares the compiled answer and every byte of a buffer of some length with the plain ones.
    fn compare(&mut self, numbers: &[u16], file_length: usize) -> archive::Answer {
        let mut wanted = archive::byte_pattern(file_length);
        let mut got = wanted.clone();
        let answer = sections::read_back(numbers, &mut wanted);
        let given = archive::read_back(numbers, &mut got);
        self.sections += 1;
        *self.outcomes.entry(answer.number).or_default() += 1;
        self.differing
            .compare(&(&answer, wanted), &(&given, got), || format!("{numbers:?}"));
        answer
    }

    /// Compares what reading back leaves with an answer and bytes known beforehand.
    fn expect(&mut self, numbers: &[u16], answer: archive::Answer, file: &[u8]) {
        let mut wanted = archive::byte_pattern(file.len() + 9);
        let mut got = wanted.clone();
        wanted[..file.len()].copy_from_slice(file);
        let given = archive::read_back(numbers, &mut got);
        self.sections += 1;
        *self.outcomes.entry(answer.number).or_default() += 1;
        self.differing
            .compare(&(answer, wanted), &(given, got), || format!("{numbers:?}"));
    }

    fn same(&mut self, wanted: u32, got: u32, what: &str) {
        self.differing.compare(&wanted, &got, || what.to_string());
    }

    fn report(&self, what: &str) {
        println!("{what}: {} sections, outcomes {:?}", self.sections, self.outcomes);
    }
}

/// The section that merging a rectangular table leaves.
fn merged(tally: &mut Tally, table: &Table) -> Vec<u16> {
    let mut map = vec![0; table.map_length()];
    let mut section = vec![0; 30_000];
    let answer = archive::merge(&table.file(), &mut map, &mut section);
    tally.same(0, answer.number, "a rectangular table is accepted");
    section.truncate(answer.value());
    section
}

/// A table's section gives its file again, also when it is numbered in another way, and a short buffer is refused.
fn read_again(tally: &mut Tally, table: &Table, numbers: &mut Numbers) {
    let section = merged(tally, table);
    let file = table.file();
    let success = archive::Answer::new(0, &[file.len()]);
    tally.expect(&section, success.clone(), &file);
    let (read, _) = Section::read(&section).expect("merging leaves whole sections");
    let other = read.renumbered(numbers).numbers();
    tally.expect(&other, success, &file);
    for length in [0, numbers.below(file.len()), file.len() - 1, file.len()] {
        tally.compare(&other, length);
    }
}

/// A table's section cut short, continued, and with a number changed.
fn spoiled(tally: &mut Tally, table: &Table, numbers: &mut Numbers) {
    let mut section = merging::section_of(table);
    tally.compare(&section[..numbers.below(section.len())], 4200);
    tally.compare(&section[..section.len() - 1], 3);
    section.push(numbers.below(3) as u16);
    tally.compare(&section, 4200);
    section.pop();
    for _ in 0..20 {
        let mut other = section.clone();
        let place = numbers.below(other.len());
        let near = (other[place] as usize + numbers.from_to(1, 3)).saturating_sub(2) as u16;
        other[place] = if numbers.one_in(8) {
            numbers.below(65_536) as u16
        } else {
            near
        };
        tally.compare(&other, 4200);
    }
}

/// Sections of 1,024 words, of more, and of over 16 million.
fn many_words(tally: &mut Tally) {
    let most = tally.compare(&with_words(3, 16, 4, 1).numbers(), 4200);
    tally.same(4101, most.values[0], "1,024 words are written");
    for section in [
        with_words(2, 16, 4, 16),
        with_words(4, 16, 4, 1),
        with_words(8, 1, 1, 1),
        with_words(8, 16, 4, 16),
    ] {
        for length in [0, 4200] {
            let refused = tally.compare(&section.numbers(), length);
            tally.same(12, refused.number, "more than 1,024 words are refused");
        }
    }
}

fn main() {
    let mut numbers = Numbers::new();
    let small = small_tables(&mut numbers);
    let mut tables = [small.all, small.drawn, small.deep, small.scattered].concat();
    tables.retain(|table| merging::witness(table).is_none());
    let large = large_tables();
    let (mut again, mut changed, mut many) = (Tally::default(), Tally::default(), Tally::default());
    for table in tables.iter().chain(&large) {
        read_again(&mut again, table, &mut numbers);
        spoiled(&mut changed, table, &mut numbers);
    }
    many_words(&mut many);
    let rules = broken::run();
    println!("{} accepted tables, {} large", tables.len(), large.len());
    again.report("read back, renumbered, short buffers");
    changed.report("cut short, continued, one number changed");
    many.report("of many words");
    rules.report("one rule broken");
    let mut all = Differing::default();
    for tally in [again, changed, many, rules] {
        all.comparisons += tally.differing.comparisons;
        all.differing += tally.differing.differing;
    }
    all.finish();
}
