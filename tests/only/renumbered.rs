//! Sections of accepted tables with their inner vertices renumbered: usable, with the same words, and the same section in just one way.

use super::common::codes::{Sum, benchmarked, case_3, full_linear, rate_1_2_of_4};
use super::common::sections::{Section, whole};
use super::common::tables::{Table, large_tables, sparse};
use super::common::{Numbers, archive, merging, same, shapes};
use super::{Tally, matchings, verdict};

/// The section that merging a table leaves.
fn merged(tally: &mut Tally, table: &Table) -> Section {
    let left = merging::compiled(&table.file(), table.map_length(), link_kit::ANY_SECTION);
    tally.hold(0, left.answer.number, "an accepted table is merged");
    whole(&left.section[..left.answer.value()]).expect("merging leaves a usable section")
}

/// Any other numbering is usable, reads back to the table, and is the same section as ours, both ways round. Gives ours and the other.
fn try_table(tally: &mut Tally, table: &Table, numbers: &mut Numbers) -> (Section, Section) {
    let ours = merged(tally, table);
    let other = ours.renumbered(numbers);
    let (own, drawn) = (ours.numbers(), other.numbers());
    tally.hold(true, whole(&drawn).is_some(), "a renumbered section is usable");
    let mut file = vec![0; link_kit::ANY_FILE];
    let length = archive::read_back(&drawn, &mut file).value();
    tally.hold(
        &table.file()[..],
        &file[..length],
        "a renumbered section reads back to the table",
    );
    for (a, b) in [(&own, &drawn), (&drawn, &own), (&own, &own), (&drawn, &drawn)] {
        tally.expect(a, b, verdict(true));
    }
    let plain = (
        same::same_by_listing(&ours, &other),
        same::same_by_beginnings(&ours, &other),
    );
    tally.hold((true, true), plain, "the words of a renumbered section");
    (ours, other)
}

/// How many ways were tried one by one, and how many of them fit: one for each section.
#[derive(Default)]
struct Trials {
    sections: usize,
    ways: usize,
    fit: usize,
}

impl Trials {
    fn add(&mut self, tally: &mut Tally, tried: Option<matchings::Tried>, what: &str) {
        if let Some(tried) = tried {
            self.sections += 1;
            self.ways += tried.ways;
            self.fit += tried.fit;
            tally.hold(1, tried.fit, what);
        }
    }
}

/// Tables with few inner vertices, where all ways to renumber them and all maps between vertices are tried.
pub fn small(tables: &[Table], numbers: &mut Numbers) -> Tally {
    let mut tally = Tally::default();
    let (mut orders, mut maps) = (Trials::default(), Trials::default());
    for table in tables {
        let (ours, other) = try_table(&mut tally, table, numbers);
        orders.add(
            &mut tally,
            matchings::renumberings(&ours, &other),
            "numberings that make the one section the other",
        );
        let found = matchings::matchings(&ours, &other);
        maps.add(
            &mut tally,
            found.map(|(tried, _)| tried),
            "maps that carry edges to edges",
        );
        tally.hold(1, found.map_or(1, |(_, matching)| matching), "matchings");
    }
    let Trials { sections, ways, fit } = orders;
    println!("all {ways} numberings of the inner vertices of {sections} sections: {fit} fit");
    let Trials { sections, ways, fit } = maps;
    println!(
        "all {ways} maps from the vertices of {sections} sections to those of the same renumbered: {fit} carry edges to edges"
    );
    tally
}

/// Codes, tables of many shapes, and the largest tables.
pub fn codes(numbers: &mut Numbers) -> Tally {
    let mut tally = Tally::default();
    let mut tables: Vec<Table> = large_tables().to_vec();
    tables.extend(benchmarked().map(|(_, table)| table));
    tables.extend([case_3(), rate_1_2_of_4(2), rate_1_2_of_4(4), sparse(numbers)]);
    tables.push(full_linear(4, 8, 2, Sum::Modulo, 5, numbers));
    let drawn = (0..300).map(|round| [shapes::linear, shapes::product, shapes::closed][round % 3](numbers));
    tables.extend(
        drawn
            .filter(|table| merging::witness(table).is_none())
            .collect::<Vec<_>>(),
    );
    for table in &tables {
        try_table(&mut tally, table, numbers);
    }
    tally
}
