//! One call of the archive on a large argument, named by the first word after the program's name, for counting the instructions that it takes:
//! `valgrind --tool=callgrind --callgrind-out-file=/dev/null --toggle-collect=link_merge target/bench/measure merge-sparse`.
//! `merge-hard FAMILY NUMBER..` takes a table of `tests/common/hard.rs`. `bash bench/run` builds it.

#[path = "../common/mod.rs"]
mod common;

use common::Numbers;
use common::archive::{self, Answer, Frame};
use common::codes::case_9;
use common::frames;
use common::hard::hard;
use common::merging::section_of;
use common::rows::{Generator, compiled};
use common::sections::usable;
use common::sheet::{Input, MOST_BLOCKS, MOST_SECTIONS, in_turn};
use common::tables::{Table, large_tables, sparse};
use common::wide::largest;
use link_kit::{ANY_FILE, ANY_MAP, ANY_SECTION, ANY_SHEET};

fn merge(table: &Table) -> Answer {
    let mut map = vec![0; 9 * 1024];
    let mut section = vec![0; 30_000];
    archive::merge(&table.file(), &mut map, &mut section)
}

/// Ten rows of as many bits as there can be, and so 1,024 words.
fn merge_rows() -> Answer {
    let generator = Generator::independent(4, 8, 10, &mut Numbers::new());
    compiled(&generator, [ANY_FILE, ANY_MAP, ANY_SECTION]).0
}

/// Reads a section back, with zeros behind it up to `length` numbers.
fn read_back(mut numbers: Vec<u16>, length: usize) -> Answer {
    numbers.resize(numbers.len().max(length), 0);
    archive::read_back(&numbers, &mut vec![0; 5000])
}

/// Compares a section with the same renumbered.
fn same(numbers: Vec<u16>) -> Answer {
    let (section, _) = usable(&numbers).expect("a usable section");
    println!("{} edges", section.steps.concat().len());
    archive::same_section(&numbers, &section.renumbered(&mut Numbers::new()).numbers())
}

/// Blocks of one section from its last root to its last goal, for which a pass forward looks at most edges.
fn chain(numbers: Vec<u16>, blocks: usize) -> Frame {
    let (section, _) = usable(&numbers).expect("a usable section");
    println!("{} edges, {blocks} blocks", section.steps.concat().len());
    Frame {
        sections: numbers,
        k: 1,
        indices: vec![0; blocks],
        received: vec![1; blocks],
        erased: vec![0; blocks],
        start: section.roots[section.roots.len() - 1] as u8,
        end: section.goals[section.goals.len() - 1] as u8,
    }
}

fn decode(numbers: Vec<u16>, blocks: usize) -> Answer {
    archive::decode(
        &chain(numbers, blocks),
        &mut frames::buffers(frames::lengths_of(blocks)),
    )
}

fn list(numbers: Vec<u16>, blocks: usize, paths: usize) -> Answer {
    let mut buffers = frames::list_buffers(frames::list_lengths_of(blocks, paths));
    archive::decode_list(&chain(numbers, blocks), paths, &mut buffers)
}

/// The sheet of as many sections and blocks as there can be, all sections of one table.
fn sheet(table: &Table) -> Answer {
    let indices = in_turn(MOST_SECTIONS, MOST_BLOCKS);
    let input = Input::over(vec![table.file(); MOST_SECTIONS], indices);
    archive::block_sheet(&input.bytes(), &mut vec![0; ANY_SHEET])
}

fn main() {
    let words: Vec<String> = std::env::args().skip(1).collect();
    let number = |place: usize| words[place].parse::<usize>().expect("a number");
    let [long, wide] = large_tables();
    let answer = match words[0].as_str() {
        "merge-long" => merge(&long),
        "merge-wide" => merge(&wide),
        "merge-sparse" => merge(&sparse(&mut Numbers::new())),
        "merge-hard" => merge(&hard(&words[1], &(2..words.len()).map(number).collect::<Vec<usize>>())),
        "merge-rows" => merge_rows(),
        "read-long" => read_back(section_of(&long), 0),
        "read-largest" => read_back(largest(number(1) as u16).numbers(), number(2)),
        "same-long" => same(section_of(&long)),
        "same-largest" => same(largest(number(1) as u16).numbers()),
        "decode-case-9" => decode(section_of(&case_9()), number(1)),
        "decode-wide" => decode(section_of(&wide), number(1)),
        "decode-long" => decode(section_of(&long), number(1)),
        "decode-largest" => decode(largest(number(2) as u16).numbers(), number(1)),
        "list-case-9" => list(section_of(&case_9()), number(1), number(2)),
        "list-wide" => list(section_of(&wide), number(1), number(2)),
        "list-long" => list(section_of(&long), number(1), number(2)),
        "list-largest" => list(largest(number(3) as u16).numbers(), number(1), number(2)),
        "sheet-long" => sheet(&long),
        "sheet-wide" => sheet(&wide),
        "sheet-sparse" => sheet(&sparse(&mut Numbers::new())),
        other => panic!("{other} names no call"),
    };
    println!("{answer:?}");
}
