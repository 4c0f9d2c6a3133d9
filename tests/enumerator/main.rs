//! A plain enumerator of small tables, written from document 01 alone: for each table it works out the answer, the map and the section by the
//! definitions, slowly, and compares every number with the compiled `link_merge`.

#[path = "../common/mod.rs"]
mod common;

use common::merging::{Left, compiled, expected};
use common::tables::{Table, small_tables};
use common::{Differing, Numbers};
use std::collections::BTreeMap;

#[derive(Default)]
struct Tally {
    tables: usize,
    outcomes: BTreeMap<u32, usize>,
}

fn compare(
    tally: &mut Tally,
    differing: &mut Differing,
    file: &[u8],
    map_length: usize,
    section_length: usize,
) -> Left {
    let wanted = expected(file, map_length, section_length);
    let got = compiled(file, map_length, section_length);
    *tally.outcomes.entry(wanted.answer.number).or_default() += 1;
    differing.compare(&wanted, &got, || format!("{file:02x?}"));
    wanted
}

/// Compares a table with roomy buffers, with a map and with a section one place short.
fn try_table(tally: &mut Tally, differing: &mut Differing, table: &Table) {
    tally.tables += 1;
    let needed = table.map_length();
    let file = table.file();
    let roomy = compare(tally, differing, &file, needed + 2, 2000).answer;
    compare(tally, differing, &file, needed - 1, 2000);
    if roomy.number == 0 {
        compare(tally, differing, &file, needed, roomy.value());
        compare(tally, differing, &file, needed, roomy.value() - 1);
    }
}

/// Compares a table's file with one byte changed, and cut short at a place.
fn try_spoiled(tally: &mut Tally, differing: &mut Differing, table: &Table, numbers: &mut Numbers) {
    let mut file = table.file();
    let place = numbers.below(file.len());
    compare(tally, differing, &file[..place], 100, 2000);
    file[place] = numbers.below(8) as u8;
    compare(tally, differing, &file, 100, 2000);
}

fn main() {
    let mut numbers = Numbers::new();
    let mut differing = Differing::default();
    let small = small_tables(&mut numbers);
    for (what, tables) in [
        ("all with q 2, n and S 1 and 2", &small.all),
        ("drawn with q 3 and 4, n 3, S 3", &small.drawn),
        ("drawn with q 2, n 6, S 2", &small.deep),
        ("scattered with q 3 and 4, n 3, S 3", &small.scattered),
    ] {
        let mut tally = Tally::default();
        for table in tables {
            try_table(&mut tally, &mut differing, table);
            try_spoiled(&mut tally, &mut differing, table, &mut numbers);
        }
        println!("{what}: {} tables, outcomes {:?}", tally.tables, tally.outcomes);
    }
    differing.finish();
}
