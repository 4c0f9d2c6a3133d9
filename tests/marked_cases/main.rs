//! Runs document 01's marked cases, held as data, against the compiled code and prints what each call leaves: its answer's number and values, and the
//! buffers, whose places were all 9. Then the answers on each side of the bounds on words, states, n, q, blocks and generator rows.

use link_kit::{COSTS_A_BLOCK, Frame, Room, numbers};
use std::fmt::Display;

/// A table: the file, and how many places its buffers have, those of the map, the section, a section buffer that the section fills, and the file that it
/// is read back to. The last two are 0 where nothing is read back.
struct Table {
    name: &'static str,
    file: &'static [u8],
    map: usize,
    section: usize,
    exact: usize,
    again: usize,
}

/// The labels 00, 01, 10, 11.
const ALL_FOUR: &[u8] = b"\x02\x02\x01\x04\x00\x00\x00\x00\x00\x00\x00\x00\x00\x00\x00\x01\x00\x04\x00\x05\x00";
/// The labels 00 and 11.
const TWO_WORDS: &[u8] = b"\x02\x02\x01\x02\x00\x00\x00\x00\x00\x00\x00\x05\x00";
/// The rate 2/3 section of document 004.
const TWO_THIRDS: &[u8] = b"\x02\x03\x04\x10\x00\
    \x00\x00\x00\x03\x00\x02\x00\x01\x01\x00\x01\x03\x01\x02\x01\x01\
    \x02\x01\x02\x02\x02\x03\x02\x00\x03\x01\x03\x02\x03\x03\x03\x00\
    \x00\x00\x05\x00\x11\x00\x14\x00\x01\x00\x04\x00\x10\x00\x15\x00\
    \x01\x00\x04\x00\x10\x00\x15\x00\x00\x00\x05\x00\x11\x00\x14\x00";

#[rustfmt::skip]
const TABLES: [Table; 7] = [
    Table { name: "case 1", file: ALL_FOUR, map: 13, section: 23, exact: 22, again: 22 },
    // Case 1 without 11.
    Table { name: "case 2", file: b"\x02\x02\x01\x03\x00\x00\x00\x00\x00\x00\x00\x00\x00\x01\x00\x04\x00", map: 10, section: 23, exact: 0, again: 0 },
    Table { name: "case 3", file: TWO_WORDS, map: 7, section: 23, exact: 22, again: 14 },
    // Two states and three words of one symbol.
    Table { name: "case 4", file: b"\x02\x01\x02\x03\x00\x00\x00\x00\x01\x01\x00\x00\x00\x00\x00\x00\x00", map: 7, section: 20, exact: 19, again: 18 },
    // Case 1, and a section buffer of 21 numbers.
    Table { name: "case 5", file: ALL_FOUR, map: 13, section: 21, exact: 0, again: 0 },
    // No word.
    Table { name: "case 6", file: b"\x02\x02\x01\x00\x00", map: 3, section: 3, exact: 0, again: 0 },
    Table { name: "case 9", file: TWO_THIRDS, map: 65, section: 115, exact: 114, again: 70 },
];

/// Files on each side of a bound.
const FILES: [(&str, &[u8]); 6] = [
    ("16 states", b"\x02\x01\x10\x01\x00\x0f\x0f\x00\x00"),
    ("17 states", b"\x02\x01\x11\x01\x00\x10\x10\x00\x00"),
    ("n 8", b"\x02\x08\x01\x01\x00\x00\x00\x55\x55"),
    ("n 9", b"\x02\x09\x01\x01\x00\x00\x00\x55\x55"),
    ("q 4", b"\x04\x01\x01\x01\x00\x00\x00\x03\x00"),
    ("q 5", b"\x05\x01\x01\x01\x00\x00\x00\x03\x00"),
];

/// One word, from the last state to itself, in a section of 16 states and in one of 17.
const LAST_STATE: [u16; 11] = [2, 1, 16, 1, 1, 1, 15, 15, 0, 0, 0];
const PAST_IT: [u16; 11] = [2, 1, 17, 1, 1, 1, 16, 16, 0, 0, 0];

const STATES: [(&str, &[u16], u8, u8); 4] = [
    ("a section of 16 states", &LAST_STATE, 15, 15),
    ("a section of 17 states", &PAST_IT, 15, 15),
    ("start state 16", &LAST_STATE, 16, 15),
    ("end state 16", &LAST_STATE, 15, 16),
];

/// State bits, n and rows.
#[rustfmt::skip]
const ROWS: [(&str, usize, usize, &[u16]); 9] = [
    ("10 rows", 4, 8, &[32768, 16384, 8192, 4096, 2048, 1024, 512, 256, 128, 64]),
    ("11 rows", 4, 8, &[32768, 16384, 8192, 4096, 2048, 1024, 512, 256, 128, 64, 32]),
    ("0 state bits, n 1", 0, 1, &[1]),
    ("5 state bits", 5, 8, &[1]),
    ("rows of n 0", 4, 0, &[1]),
    ("rows of n 9", 4, 9, &[1]),
    ("a row too wide", 0, 1, &[1, 2]),
    ("a row that is a sum", 1, 1, &[5, 3, 6]),
    ("a row of zeros", 1, 1, &[0]),
];

/// A name, and numbers behind it, each after a space.
fn put<T: Display>(name: &str, numbers: &[T]) {
    print!("{name}");
    for x in numbers {
        print!(" {x}");
    }
    println!();
}

/// The outcome's number, and the numbers returned with it: four with 6, none with 11 and 12, else one.
fn put_answer(name: &str, number: u32, values: [u32; 4]) {
    let count = match number {
        6 => 4,
        11 | 12 => 0,
        _ => 1,
    };
    put(name, &[&[number], &values[..count]].concat());
}

fn merge(file: &[u8], map: &mut [u16], section: &mut [u16]) {
    let mut values = [0; 4];
    let number = numbers::merge(file, map, section, &mut values);
    put_answer("answer", number, values);
}

fn read_back(section: &[u16], file: &mut [u8]) {
    let mut values = [0; 4];
    let number = numbers::read_back(section, file, &mut values);
    put_answer("read back", number, values);
}

/// Merges, and where it says so merges into a section buffer that the section fills and reads that back.
fn run_table(table: &Table) {
    println!("{}", table.name);
    let (mut map, mut section) = (vec![9; table.map], vec![9; table.section]);
    merge(table.file, &mut map, &mut section);
    put("map", &map);
    put("section", &section);
    if table.exact > 0 {
        let (exact, mut again) = (section_of(table.file, table.exact), vec![9; table.again]);
        read_back(&exact, &mut again);
        put("file", &again);
    }
}

/// The section that merging leaves in a buffer of just its length.
fn section_of(file: &[u8], length: usize) -> Vec<u16> {
    let (mut map, mut section) = (vec![9; 1_024], vec![9; length]);
    numbers::merge(file, &mut map, &mut section, &mut [0; 4]);
    section
}

/// What decoding over one section writes to.
struct Buffers {
    costs: Vec<u32>,
    labels: Vec<u16>,
    goals: Vec<u8>,
    masks: Vec<u8>,
}

/// Every block takes the one section.
fn decode(section: &[u16], received: &[u16], erased: &[u8], ends: (u8, u8), room: &mut Buffers) {
    let frame = Frame {
        sections: section,
        k: 1,
        indices: &vec![0; received.len()],
        received,
        erased,
        start: ends.0,
        end: ends.1,
    };
    let lent = Room {
        costs: &mut room.costs,
        labels: &mut room.labels,
        goals: &mut room.goals,
        masks: &mut room.masks,
    };
    let mut values = [0; 4];
    let number = numbers::decode(&frame, lent, &mut values);
    put_answer("answer", number, values);
}

/// Buffers for so many blocks and one place more, each place 9.
fn buffers(blocks: usize) -> Buffers {
    Buffers {
        costs: vec![9; COSTS_A_BLOCK * blocks + 1],
        labels: vec![9; blocks + 1],
        goals: vec![9; blocks + 1],
        masks: vec![9; blocks + 1],
    }
}

/// From state 0 to state 0, with buffers for two blocks.
fn run_chain(name: &str, section: &[u16], received: &[u16], erased: &[u8]) {
    println!("{name}");
    let mut room = buffers(2);
    decode(section, received, erased, (0, 0), &mut room);
    put("labels", &room.labels);
    put("goals", &room.goals);
    put("masks", &room.masks);
    put("costs", &room.costs);
}

/// Cases 7 and 8 over the section of case 3; case 8 has its second symbol erased, distance 0 by document 02's request 1. And the words (0,0,1), (0,1,0),
/// (1,0,0), received 0 and 1: labels 0, 0 and labels 1, 1 are at the same distance, and the first block settles it.
fn run_chains() {
    let two_words = section_of(TWO_WORDS, 22);
    run_chain("case 7", &two_words, &[1, 5], &[0, 0]);
    run_chain("case 8", &two_words, &[0], &[1]);
    let three = b"\x02\x01\x02\x03\x00\x00\x01\x00\x00\x01\x00\x00\x00\x01\x00\x00\x00";
    run_chain("tie", &section_of(three, 19), &[0, 1], &[0, 0]);
}

/// Case 9 from its generator rows, 10 111 00, 01 001 00, 00 101 10, 00 110 01: the file that is written is case 9's.
fn run_rows() {
    println!("case 9, from rows");
    let (mut file, mut map, mut section) = (vec![9; 70], vec![9; 65], vec![9; 115]);
    let mut values = [0; 4];
    let number = numbers::merge_rows(2, 3, &[92, 36, 22, 25], &mut file, &mut map, &mut section, &mut values);
    put_answer("answer", number, values);
    put("file", &file);
    put("map", &map);
    put("section", &section);
}

/// A table of one root, one goal, n 8 and the labels 0, 1, 2 and so on.
fn many_words(count: u16) -> Vec<u8> {
    let mut file = vec![4, 8, 1];
    file.extend(count.to_le_bytes());
    file.resize(5 + 2 * usize::from(count), 0);
    file.extend((0..count).flat_map(u16::to_le_bytes));
    file
}

fn run_file(name: &str, file: &[u8]) {
    println!("{name}");
    merge(file, &mut vec![0; 9_216], &mut vec![0; 128]);
}

/// Case 3 in every block, received 01, none erased; then a section read back, and a block received as its one word decoded over it.
fn run_chain_bounds() {
    for blocks in [256, 257] {
        println!("{blocks} blocks");
        decode(
            &section_of(TWO_WORDS, 22),
            &vec![1; blocks],
            &vec![0; blocks],
            (0, 0),
            &mut buffers(257),
        );
    }
    for (name, section, start, end) in STATES {
        println!("{name}");
        read_back(section, &mut [0; 9]);
        decode(section, &[0], &[0], (start, end), &mut buffers(1));
    }
}

fn run_row_bounds() {
    for (name, state_bits, n, rows) in ROWS {
        println!("{name}");
        let (mut file, mut map, mut section) = (vec![0; 4_101], vec![0; 9_216], vec![0; 1_024]);
        let mut values = [0; 4];
        let number = numbers::merge_rows(state_bits, n, rows, &mut file, &mut map, &mut section, &mut values);
        put_answer("answer", number, values);
    }
}

fn main() {
    TABLES.iter().for_each(run_table);
    run_rows();
    run_chains();
    for count in [1_024, 1_025] {
        run_file(&format!("{count} words"), &many_words(count));
    }
    FILES.iter().for_each(|&(name, file)| run_file(name, file));
    run_chain_bounds();
    run_row_bounds();
}
