//! Tables of many shapes, generator rows and files with every kind of fault through all eight functions of the archive: merging, also of the sums of rows,
//! the listing, reading back what was merged, comparing it with other sections, decoding chains of it to the best path and to several, and block sheets,
//! each compared in its answer and in every place of every buffer with plain code written from documents 01 and 02 alone.

#[path = "../common/mod.rs"]
mod common;

mod malformed;
mod rows;
mod sheet;
mod sheet_known;
mod states;

use common::archive::{self, Buffers, byte_pattern};
use common::codes::{Sum, benchmarked, full_linear};
use common::frames::Lengths;
use common::several::{self, MOST_PATHS};
use common::shapes;
use common::tables::{Table, large_tables};
use common::{Differing, Numbers, decoding, frames, listing, merging, same, sections};
use std::collections::BTreeMap;

type Outcomes = BTreeMap<u32, usize>;

/// What was compared of one shape, by outcome.
#[derive(Default)]
struct Tally {
    files: usize,
    rows: Outcomes,
    merged: Outcomes,
    listed: Outcomes,
    read_back: Outcomes,
    compared: Outcomes,
    /// How many were the same, and the section of the table before.
    alike: usize,
    before: Vec<u16>,
    decoded: Outcomes,
    ties: usize,
    several: Outcomes,
    paths: usize,
    differing: Differing,
}

impl Tally {
    /// Merges with roomy buffers, each one place short and both as long as needed; then all of it for the listing. Says whether the file is accepted.
    fn file(&mut self, file: &[u8]) -> bool {
        self.files += 1;
        let roomy = self.merge(file, 9 * 1024, 30_000);
        let words = file.len().saturating_sub(5) / 4;
        let places = words * (*file.get(1).unwrap_or(&0) as usize + 1);
        self.merge(file, places.saturating_sub(1), 30_000);
        self.merge(file, places, roomy.value().saturating_sub(1));
        self.merge(file, places, roomy.value());
        self.listing(file);
        roomy.number == 0
    }

    fn merge(&mut self, file: &[u8], map_length: usize, section_length: usize) -> archive::Answer {
        let wanted = merging::expected(file, map_length, section_length);
        let got = merging::compiled(file, map_length, section_length);
        *self.merged.entry(wanted.answer.number).or_default() += 1;
        self.differing.compare(&wanted, &got, || format!("merging {file:02x?}"));
        wanted.answer
    }

    /// The listing in buffers of every length around the text's, of none and of the longest.
    fn listing(&mut self, file: &[u8]) {
        let text = listing::text_of(file);
        for length in (text.len() - 3..=text.len() + 3).chain([0, 1, 1024]) {
            let mut wanted = byte_pattern(length);
            let mut got = wanted.clone();
            let answer = listing::put(&text, &mut wanted);
            let given = archive::listing(file, &mut got);
            *self.listed.entry(answer.number).or_default() += 1;
            self.differing.compare(&(&answer, wanted), &(&given, got), || {
                format!("the listing of {file:02x?}")
            });
        }
    }

    /// Reads sections back: a table's own, numbered in another way, and spoiled; with roomy buffers and with short ones. Compares them with its own, and its
    /// own with that of the table before.
    fn sections(&mut self, table: &Table, numbers: &mut Numbers) {
        let own = merging::section_of(table);
        let (section, _) = sections::Section::read(&own).expect("a whole section");
        let length = table.file().len();
        self.read_back(&own, length);
        self.read_back(&own, length - 1);
        let mut other = section.renumbered(numbers).numbers();
        self.read_back(&other, length + 7);
        self.same_section(&own, &other);
        for _ in 0..4 {
            let (a, b) = (numbers.below(other.len()), numbers.below(other.len()));
            match numbers.below(4) {
                0 => other.swap(a, b),
                1 => other[a] = other[b],
                2 => other[a] ^= 1 << numbers.below(4),
                _ => drop(other.remove(a)),
            }
            self.read_back(&other, 4200);
            self.same_section(&own, &other);
        }
        let before = std::mem::replace(&mut self.before, own.clone());
        self.same_section(&own, &before);
    }

    fn same_section(&mut self, a: &[u16], b: &[u16]) -> archive::Answer {
        let wanted = same::same_section(a, b);
        let given = archive::same_section(a, b);
        *self.compared.entry(wanted.number).or_default() += 1;
        self.alike += (wanted == archive::Answer::new(0, &[1])) as usize;
        self.differing
            .compare(&wanted, &given, || format!("comparing {a:?} with {b:?}"));
        wanted
    }

    fn read_back(&mut self, section: &[u16], file_length: usize) -> archive::Answer {
        let mut wanted = byte_pattern(file_length);
        let mut got = wanted.clone();
        let answer = sections::read_back(section, &mut wanted);
        let given = archive::read_back(section, &mut got);
        *self.read_back.entry(answer.number).or_default() += 1;
        self.differing.compare(&(&answer, wanted), &(&given, got), || {
            format!("reading back {section:?}")
        });
        answer
    }

    /// Decodes a chain over some tables between states of theirs, then with a fault in it.
    fn chain(&mut self, tables: &[Table], blocks: usize, numbers: &mut Numbers) {
        let some_word = |numbers: &mut Numbers| {
            let table = &tables[numbers.below(tables.len())];
            table.words[numbers.below(table.words.len())]
        };
        let ends = [some_word(numbers).0, some_word(numbers).2];
        let mut frame = frames::over(tables, ends, blocks, usize::MAX, numbers);
        let mut lengths = frames::lengths_for(blocks, numbers);
        self.decode(&frame, lengths);
        self.several(frame.clone());
        frames::spoil(&mut frame, &mut lengths, numbers);
        self.decode(&frame, lengths);
    }

    /// Lists some of a chain's best paths, then with a fault in it. Its numbers are its own, so that all other calls are what they are without it.
    fn several(&mut self, mut frame: archive::Frame) {
        let mut numbers = Numbers::seeded(self.several.values().sum());
        let mut paths = numbers.from_to(1, MOST_PATHS);
        let mut lengths = frames::list_lengths_for(frame.indices.len(), paths, &mut numbers);
        self.decode_list(&frame, paths, lengths);
        frames::spoil_list(&mut frame, &mut lengths, &mut paths, &mut numbers);
        self.decode_list(&frame, paths, lengths);
    }

    fn decode(&mut self, frame: &archive::Frame, lengths: Lengths) -> archive::Answer {
        let mut wanted: Buffers = frames::buffers(lengths);
        let mut got = wanted.clone();
        let (answer, passed) = decoding::decode(frame, &mut wanted);
        let given = archive::decode(frame, &mut got);
        self.ties += passed.is_some_and(|(_, found)| found.least > 1) as usize;
        *self.decoded.entry(answer.number).or_default() += 1;
        self.differing
            .compare(&(&answer, wanted), &(&given, got), || format!("decoding {frame:?}"));
        answer
    }

    fn decode_list(&mut self, frame: &archive::Frame, paths: usize, lengths: Lengths) -> archive::Answer {
        let mut wanted = frames::list_buffers(lengths);
        let mut got = wanted.clone();
        let (answer, passed) = several::decode_list(frame, paths, &mut wanted);
        let given = archive::decode_list(frame, paths, &mut got);
        self.paths += passed.map_or(0, |(_, list)| list.len());
        *self.several.entry(answer.number).or_default() += 1;
        self.differing.compare(&(&answer, wanted), &(&given, got), || {
            format!("listing {paths} paths of {frame:?}")
        });
        answer
    }

    fn report(&self, what: &str) {
        println!("{what}: {} files", self.files);
        if !self.rows.is_empty() {
            println!("  merge rows: outcomes {:?}", self.rows);
        }
        for (call, outcomes) in [
            ("merge", &self.merged),
            ("listing", &self.listed),
            ("read back", &self.read_back),
        ] {
            println!("  {call}: outcomes {outcomes:?}");
        }
        println!("  same section: outcomes {:?}, {} the same", self.compared, self.alike);
        println!("  decode: outcomes {:?}, {} with ties", self.decoded, self.ties);
        println!("  decode list: outcomes {:?}, {} paths", self.several, self.paths);
    }
}

/// Tables of one shape, their near misses and spoiled files; those accepted are read back and decoded over, alone and behind one another.
fn shape(tally: &mut Tally, rounds: usize, make: impl Fn(&mut Numbers) -> Table, numbers: &mut Numbers) {
    let mut neighbours: Vec<Table> = Vec::new();
    for round in 0..rounds {
        let mut table = make(numbers);
        if numbers.one_in(3) {
            let states = frames::some_states(table.states as usize, numbers);
            frames::move_states(&mut table, &states, numbers);
        }
        let (less, more) = (shapes::one_out(&table, numbers), shapes::one_in(&table, numbers));
        for tried in [table, less, more] {
            if tally.file(&tried.file()) {
                tally.sections(&tried, numbers);
                neighbours.push(tried);
            }
        }
        let older = neighbours.len().saturating_sub(4);
        neighbours.drain(..older);
        if let Some(last) = neighbours.last().cloned() {
            let blocks = numbers.from_to(1, 12);
            tally.chain(&neighbours, blocks, numbers);
            tally.chain(&[last.clone()], blocks, numbers);
            spoiled(tally, &last, round, numbers);
        }
    }
}

/// A file with one fault, each kind in turn, and with another one behind it.
fn spoiled(tally: &mut Tally, table: &Table, kind: usize, numbers: &mut Numbers) {
    let mut file = table.file();
    malformed::spoil(&mut file, kind % malformed::KINDS, numbers);
    tally.file(&file);
    malformed::spoil(&mut file, numbers.below(malformed::KINDS), numbers);
    tally.file(&file);
}

/// Tables of up to 1,024 words, and one word too many.
fn largest(tally: &mut Tally, numbers: &mut Numbers) {
    let mut tables = large_tables().to_vec();
    tables.extend(benchmarked().map(|(_, table)| table));
    tables.push(full_linear(4, 8, 2, Sum::Modulo, 5, numbers));
    for table in &tables {
        tally.file(&table.file());
        tally.file(&shapes::one_out(table, numbers).file());
        tally.file(&shapes::one_in(table, numbers).file());
        tally.sections(table, numbers);
        tally.chain(&[table.clone()], 40, numbers);
    }
    tally.chain(&tables, 100, numbers);
    tally.file(&shapes::one_too_many().file());
}

fn main() {
    let mut numbers = Numbers::new();
    let mut all = Differing::default();
    let mut finish = |what: &str, tally: Tally| {
        tally.report(what);
        all.add(&tally.differing);
    };
    let makers: [(&str, fn(&mut Numbers) -> Table); 3] = [
        ("linear codes", shapes::linear),
        ("products of beginnings and endings", shapes::product),
        ("closed under completion", shapes::closed),
    ];
    for (what, make) in makers {
        let mut tally = Tally::default();
        shape(&mut tally, 500, make, &mut numbers);
        finish(what, tally);
    }
    let mut tally = Tally::default();
    largest(&mut tally, &mut numbers);
    finish("large tables", tally);
    let mut tally = Tally::default();
    states::run(&mut tally, &mut numbers);
    finish("1 to 70 states", tally);
    let mut tally = Tally::default();
    rows::run(&mut tally);
    finish("sums of rows", tally);
    sheet::run(&mut all, &mut numbers);
    all.finish();
}
