//! The benchmark: merging, refusing, merging the sums of rows, comparing sections, decoding and listing several paths by the kit, by its own algorithm in
//! plain Rust with bounds checks and without, and, for merging, with hash maps, side by side in one run; then what the kit is held to. Started with the words
//! of a call it does just that call in all its ways, for their instructions to be counted.

#[path = "../tests/common/mod.rs"]
mod common;

mod access;
mod hashed;
mod measuring;
mod plain_decode;
mod plain_list;
mod plain_merge;
mod plain_rows;
mod plain_same;
mod plain_section;
mod plain_witness;
mod reading;
mod refusals;
mod report;
mod ways;

use common::codes::{benchmarked, case_3};
use common::merging::section_of;
use common::sections::{Section, usable};
use common::tables::Table;
use link_kit::Merged;
use refusals::Hard;
use report::{Row, hold, print_rows};
use ways::BLOCKS;

/// What the kit is held to: instructions to merge 1,024 words, to merge as many sums of rows, to refuse a table, and to decode a frame of one block of case
/// 3; times as long as safe Rust; and times as many instructions as decoding, for numbers of paths that are listed.
const MOST_MERGING: f64 = 2e6;
const MOST_MERGING_ROWS: f64 = 4e5;
const MOST_REFUSING: f64 = 2e6;
const MOST_A_FRAME: f64 = 2999.0;
const MOST_TIMES_SAFE: f64 = 1.2;
const MOST_TIMES_DECODING: [(usize, f64); 2] = [(1, 2.5), (16, 8.0)];

fn section(table: &Table) -> Section {
    usable(&section_of(table)).expect("a usable section").0
}

fn edges(section: &Section) -> usize {
    section.steps.iter().map(Vec::len).sum()
}

/// Instructions to decode one block: 14 an edge, 100 a symbol, 12 a root and a goal, and 300.
fn most_a_block(section: &Section) -> usize {
    let ends = section.roots.len() + section.goals.len();
    14 * edges(section) + 100 * section.steps.len() + 12 * ends + 300
}

fn words(call: &str, numbers: &[usize]) -> Vec<String> {
    let numbers = numbers.iter().map(usize::to_string);
    std::iter::once(call.to_string()).chain(numbers).collect()
}

fn merging_row(code: usize, name: &str, table: &Table) -> Row {
    assert_eq!(ways::merge_alike(table, 4).number(), 0, "the codes are accepted");
    let sizes = vec![table.words.len(), edges(&section(table))];
    Row::new(name.to_string(), sizes, &words("merge", &[code]), 4)
}

fn rows_row(code: usize, name: &str, table: &Table) -> Row {
    ways::rows_alike(table);
    let sizes = vec![table.words.len(), edges(&section(table))];
    Row::new(name.to_string(), sizes, &words("rows", &[code]), 3)
}

fn same_row(code: usize, name: &str, table: &Table) -> Row {
    ways::same_alike(table);
    let sizes = vec![table.words.len(), edges(&section(table))];
    Row::new(name.to_string(), sizes, &words("same", &[code]), 3)
}

/// What one block more takes, between a chain and its first block.
fn block_row(name: &str, sizes: Vec<usize>, words: &[String]) -> Row {
    let (times, counts) = report::measure(words, 3);
    let more = |whole: u64, block: u64| (whole as f64 - block as f64) / (BLOCKS - 1) as f64;
    Row {
        name: name.to_string(),
        sizes,
        times: times.iter().map(|time| time / BLOCKS as f64).collect(),
        bulk: counts.as_ref().map(|counts| more(counts[0].bulk, counts[3].bulk)),
        counts: counts.map(|counts| (0..3).map(|way| more(counts[way].own, counts[way + 3].own)).collect()),
    }
}

fn decoding_row(code: usize, name: &str, table: &Table) -> Row {
    ways::decode_alike(table);
    let section = section(table);
    let sizes = vec![edges(&section), most_a_block(&section)];
    block_row(name, sizes, &words("decode", &[code]))
}

fn listing_row(code: usize, name: &str, table: &Table, paths: usize) -> Row {
    ways::list_alike(table, paths);
    let sizes = vec![edges(&section(table)), paths];
    block_row(name, sizes, &words("list", &[code, paths]))
}

fn frame_row() -> Row {
    ways::decode_alike(&case_3());
    Row::new("case 3".to_string(), Vec::new(), &["frame".to_string()], 3)
}

fn refusal_row(hard: &Hard, origin: &str) -> Row {
    let table = hard.table();
    let Merged::NotRectangular(depth, ..) = ways::merge_alike(&table, 3) else {
        panic!("the hard tables are refused");
    };
    let numbers: Vec<String> = hard.numbers.iter().map(usize::to_string).collect();
    let name = format!("{origin} {} {}", hard.family, numbers.join(" "));
    Row::new(name, vec![table.words.len(), depth], &hard.words(), 3)
}

/// The sums of rows, and beside them what merging the tables of the same codes takes.
fn print_row_aims(merging: &[Row], merging_rows: &[Row]) {
    let full = || merging_rows.iter().filter(|row| row.sizes[0] == 1024);
    hold(
        "instructions to merge 1,024 sums of rows",
        MOST_MERGING_ROWS,
        full().map(Row::kit),
    );
    for row in full() {
        let table = merging.iter().find(|other| other.name == row.name);
        if let (Some(rows), Some(merged)) = (row.kit(), table.and_then(Row::kit)) {
            println!("    {}: {rows:.0}, where merging its table takes {merged:.0}", row.name);
        }
    }
}

/// Listing held against decoding, code by code.
fn print_list_aims(decoding: &[Row], listing: &[Row]) {
    for (paths, most) in MOST_TIMES_DECODING {
        let name = if paths == 1 { "path" } else { "paths" };
        let listed = listing.iter().filter(|row| row.sizes[1] == paths);
        let times = |(row, decoded): (&Row, &Row)| Some(row.kit()? / decoded.kit()?);
        hold(
            &format!("listing {paths} {name}, times as many instructions as decoding"),
            most,
            listed.zip(decoding).map(times),
        );
    }
}

fn print_aims(merging: &[Row], decoding: &[Row], frame: &Row, refusing: &[Row]) {
    println!();
    let full = merging.iter().filter(|row| row.sizes[0] == 1024);
    hold("instructions to merge 1,024 words", MOST_MERGING, full.map(Row::kit));
    hold(
        "instructions to refuse a table",
        MOST_REFUSING,
        refusing.iter().map(Row::kit),
    );
    let of_most = |row: &Row| row.kit().map(|count| count / row.sizes[1] as f64);
    let a_block = "instructions to decode a block, of 14 an edge, 100 a symbol, 12 a root, 12 a goal and 300";
    hold(a_block, 1.0, decoding.iter().map(of_most));
    hold(
        "instructions to decode a frame of one block of case 3",
        MOST_A_FRAME,
        [frame.kit()].into_iter(),
    );
    let slower = |row: &Row| Some(row.slower(1));
    hold(
        "merging, times as long as in safe Rust",
        MOST_TIMES_SAFE,
        merging.iter().map(slower),
    );
    hold(
        "decoding, times as long as in safe Rust",
        MOST_TIMES_SAFE,
        decoding.iter().map(slower),
    );
}

fn main() {
    let call: Vec<String> = std::env::args().skip(1).collect();
    if !call.is_empty() {
        return ways::jobs(&call).iter_mut().for_each(measuring::measured);
    }
    report::print_legend();
    let codes = benchmarked();
    let rows = |row: &dyn Fn(usize, &str, &Table) -> Row| {
        let coded = codes.iter().enumerate();
        coded
            .map(|(code, (name, table))| row(code, name, table))
            .collect::<Vec<Row>>()
    };
    let merging = rows(&merging_row);
    print_rows("merging", &["words", "edges"], 4, &merging);
    let binary = codes.iter().enumerate().filter(|(_, (_, table))| table.q == 2);
    let merging_rows: Vec<Row> = binary
        .map(|(code, (name, table))| rows_row(code, name, table))
        .collect();
    print_rows("merging the sums of rows", &["words", "edges"], 3, &merging_rows);
    print_rows(
        "comparing with the same renumbered",
        &["words", "edges"],
        3,
        &rows(&same_row),
    );
    let mut refusing: Vec<Row> = refusals::kept().iter().map(|hard| refusal_row(hard, "kept:")).collect();
    refusing.extend(refusals::found().iter().map(|hard| refusal_row(hard, "found:")));
    print_rows("refusing", &["words", "depth"], 3, &refusing);
    let decoding = rows(&decoding_row);
    print_rows("decoding, a block", &["edges", "most"], 3, &decoding);
    let frame = frame_row();
    print_rows("decoding, a frame of one block", &[], 3, std::slice::from_ref(&frame));
    let listed = |(paths, _)| rows(&|code, name, table| listing_row(code, name, table, paths));
    let listing: Vec<Row> = MOST_TIMES_DECODING.into_iter().flat_map(listed).collect();
    print_rows("listing, a block", &["edges", "paths"], 3, &listing);
    print_aims(&merging, &decoding, &frame, &refusing);
    print_row_aims(&merging, &merging_rows);
    print_list_aims(&decoding, &listing);
}
