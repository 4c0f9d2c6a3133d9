//! Sections of small tables held against one another: they are the same exactly if the tables have the same words.

use super::common::Numbers;
use super::common::merging::section_of;
use super::common::sections::{Section, whole};
use super::common::tables::Table;
use super::{Tally, matchings, verdict};

/// Of so many tables with the same q, n, S at most, each is held against each.
const ALL: usize = 300;

/// A table's section, and the same renumbered.
struct Pair<'a> {
    table: &'a Table,
    ours: Section,
    own: Vec<u16>,
    other: Section,
    drawn: Vec<u16>,
}

impl<'a> Pair<'a> {
    fn new(table: &'a Table, numbers: &mut Numbers) -> Pair<'a> {
        let own = section_of(table);
        let ours = whole(&own).expect("a usable section");
        let other = ours.renumbered(numbers);
        let drawn = other.numbers();
        Pair {
            table,
            ours,
            own,
            other,
            drawn,
        }
    }

    /// The numbers in front of the edges: sizes, counts and end states.
    fn front(&self) -> &[u16] {
        let edges: usize = self.ours.steps.iter().map(Vec::len).sum();
        &self.own[..self.own.len() - 3 * edges]
    }
}

/// Tables with the same q, n, S, with each other where they are few, else with the next and those with the same numbers in front of the edges.
pub fn run(tables: &[Table], numbers: &mut Numbers) -> Tally {
    let mut tally = Tally::default();
    let sizes = |table: &Table| (table.q, table.n, table.states);
    let mut tables = tables.to_vec();
    tables.sort_by_key(sizes);
    let (mut alike, mut maps) = (0, Maps::default());
    for group in tables.chunk_by(|a, b| sizes(a) == sizes(b)) {
        let pairs: Vec<Pair> = group.iter().map(|table| Pair::new(table, numbers)).collect();
        for (i, a) in pairs.iter().enumerate() {
            for (j, b) in pairs.iter().enumerate() {
                let same_front = a.front() == b.front();
                if group.len() > ALL && j != i + 1 && !same_front {
                    continue;
                }
                let is_same = a.table.words == b.table.words;
                alike += (same_front && !is_same) as usize;
                tally.expect(&a.own, &b.drawn, verdict(is_same));
                if same_front && numbers.one_in(16) {
                    try_maps(&mut tally, &mut maps, a, b, is_same);
                }
            }
        }
    }
    println!("{alike} pairs of small tables have other words and the same numbers in front of the edges");
    let Maps { same, ways, fit } = maps;
    println!(
        "all {ways} maps between the vertices of some with the same numbers in front, {same} of them with the same words: {fit} match"
    );
    tally
}

/// What was tried one by one: pairs with the same words, maps between the vertices of these and of other pairs, and how many maps match.
#[derive(Default)]
struct Maps {
    same: usize,
    ways: usize,
    fit: usize,
}

/// Two sections have a matching exactly if they have the same words, and then one.
fn try_maps(tally: &mut Tally, maps: &mut Maps, a: &Pair, b: &Pair, is_same: bool) {
    if let Some((found, matching)) = matchings::matchings(&a.ours, &b.other) {
        maps.same += is_same as usize;
        maps.ways += found.ways;
        maps.fit += matching;
        tally.hold(is_same as usize, matching, "matchings of two sections");
    }
}
