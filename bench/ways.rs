//! The calls that are measured, and the ways in which each is done: the kit's first.

use super::access::{Checked, Unchecked};
use super::common::archive::{Buffers, Frame, ListBuffers};
use super::common::codes::{benchmarked, case_3};
use super::common::hard::hard;
use super::common::merging::section_of;
use super::common::rows::Generator;
use super::common::sections::whole;
use super::common::tables::Table;
use super::common::{Numbers, frames};
use super::measuring::Job;
use super::{hashed, plain_decode, plain_list, plain_merge, plain_rows, plain_same};
use link_kit::{ANY_FILE, ANY_MAP, ANY_SECTION, Decoded, DecodedList, ListRoom, Merged, MergedRows, Room, SameSection};

pub const BLOCKS: usize = 256;

type Merging = fn(&[u8], &mut [u16], &mut [u16]) -> Merged;
type MergingRows = fn(usize, usize, &[u16], &mut [u8], &mut [u16], &mut [u16]) -> MergedRows;
type Comparing = fn(&[u16], &[u16]) -> SameSection;
type Decoding = fn(&link_kit::Frame, Room) -> Decoded;
type Listing = fn(&link_kit::Frame, usize, ListRoom) -> DecodedList;

pub const NAMES: [&str; 4] = ["kit", "safe", "unchecked", "hash map"];

/// All but the last find the words of a refusal too.
const MERGING: [Merging; 4] = [
    link_kit::merge,
    plain_merge::merge::<Checked>,
    plain_merge::merge::<Unchecked>,
    hashed::merge,
];
const MERGING_ROWS: [MergingRows; 3] = [
    link_kit::merge_rows,
    plain_rows::merge_rows::<Checked>,
    plain_rows::merge_rows::<Unchecked>,
];
const COMPARING: [Comparing; 3] = [
    link_kit::same_section,
    plain_same::same_section::<Checked>,
    plain_same::same_section::<Unchecked>,
];
const DECODING: [Decoding; 3] = [
    link_kit::decode,
    plain_decode::decode::<Checked>,
    plain_decode::decode::<Unchecked>,
];
const LISTING: [Listing; 3] = [
    link_kit::decode_list,
    plain_list::decode_list::<Checked>,
    plain_list::decode_list::<Unchecked>,
];

fn merge_job(table: &Table, merge: Merging) -> Job {
    let (file, mut map, mut section) = (table.file(), vec![0; ANY_MAP], vec![0; ANY_SECTION]);
    Box::new(move || {
        std::hint::black_box(merge(&file, &mut map, &mut section));
    })
}

/// Merging by the kit alone.
pub fn kit_merges(table: &Table) -> Job {
    merge_job(table, link_kit::merge)
}

/// Rows of a binary code, drawn from its words.
fn rows_of(table: &Table) -> Generator {
    Generator::of(table, &mut Numbers::new())
}

fn rows_job(Generator { state_bits, n, rows }: Generator, merge: MergingRows) -> Job {
    let (mut file, mut map, mut section) = (vec![0; ANY_FILE], vec![0; ANY_MAP], vec![0; ANY_SECTION]);
    Box::new(move || {
        std::hint::black_box(merge(state_bits, n, &rows, &mut file, &mut map, &mut section));
    })
}

/// A code's section, and the same renumbered.
fn two_sections(table: &Table) -> [Vec<u16>; 2] {
    let own = section_of(table);
    let section = whole(&own).expect("a usable section");
    let other = section.renumbered(&mut Numbers::new()).numbers();
    [own, other]
}

fn same_job([own, other]: [Vec<u16>; 2], compare: Comparing) -> Job {
    Box::new(move || {
        std::hint::black_box(compare(&own, &other));
    })
}

/// A chain of blocks over one code, received with errors and erasures, and its first block alone.
fn chain(table: &Table) -> [Frame; 2] {
    let ends = [table.words[0].0, table.words[0].2];
    let whole = frames::over(&[table.clone()], ends, BLOCKS, usize::MAX, &mut Numbers::new());
    let mut block = whole.clone();
    block.indices.truncate(1);
    block.received.truncate(1);
    block.erased.truncate(1);
    [whole, block]
}

fn room_for(frame: &Frame) -> Buffers {
    frames::buffers(frames::lengths_of(frame.indices.len()))
}

fn decode_jobs(frame: &Frame) -> [Job; 3] {
    DECODING.map(|decode| {
        let (frame, mut buffers) = (frame.clone(), room_for(frame));
        let job: Job = Box::new(move || {
            std::hint::black_box(decode(&frame.lent(), buffers.lent()));
        });
        job
    })
}

fn room_for_list(frame: &Frame, paths: usize) -> ListBuffers {
    frames::list_buffers(frames::list_lengths_of(frame.indices.len(), paths))
}

fn list_jobs(frame: &Frame, paths: usize) -> [Job; 3] {
    LISTING.map(|list| {
        let (frame, mut buffers) = (frame.clone(), room_for_list(frame, paths));
        let job: Job = Box::new(move || {
            std::hint::black_box(list(&frame.lent(), paths, buffers.lent()));
        });
        job
    })
}

/// The jobs of a call in all its ways, for words that name it: `merge CODE`; `rows CODE`; `same CODE`; `decode CODE` and `list CODE PATHS`, a chain in all
/// ways and then its first block; `frame`, one block of case 3; `refuse FAMILY NUMBER..`.
pub fn jobs(words: &[String]) -> Vec<Job> {
    let number = |word: &String| word.parse::<usize>().expect("a number");
    let code = |word: &String| benchmarked()[number(word)].1.clone();
    match words[0].as_str() {
        "merge" => MERGING.map(|merge| merge_job(&code(&words[1]), merge)).into(),
        "rows" => MERGING_ROWS
            .map(|merge| rows_job(rows_of(&code(&words[1])), merge))
            .into(),
        "same" => COMPARING
            .map(|compare| same_job(two_sections(&code(&words[1])), compare))
            .into(),
        "decode" => chain(&code(&words[1])).iter().flat_map(decode_jobs).collect(),
        "list" => {
            let (chains, paths) = (chain(&code(&words[1])), number(&words[2]));
            chains.iter().flat_map(|frame| list_jobs(frame, paths)).collect()
        }
        "frame" => decode_jobs(&chain(&case_3())[1]).into(),
        "refuse" => {
            let table = hard(&words[1], &words[2..].iter().map(number).collect::<Vec<usize>>());
            MERGING[..3].iter().map(|&merge| merge_job(&table, merge)).collect()
        }
        other => panic!("{other} is no call of the kit"),
    }
}

/// The first so many ways leave the same of a table; gives the kit's answer. Only then is it worth while to compare their times.
pub fn merge_alike(table: &Table, ways: usize) -> Merged {
    let left = |merge: &Merging| {
        let (mut map, mut section) = (vec![7; ANY_MAP], vec![7; ANY_SECTION]);
        (merge(&table.file(), &mut map, &mut section), map, section)
    };
    let (answer, map, section) = left(&MERGING[0]);
    for merge in &MERGING[1..ways] {
        assert!(left(merge) == (answer, map.clone(), section.clone()), "merging differs");
    }
    answer
}

/// All ways leave the same of a code's rows, and of them its table.
pub fn rows_alike(table: &Table) {
    let Generator { state_bits, n, rows } = rows_of(table);
    let left = MERGING_ROWS.map(|merge| {
        let (mut file, mut map, mut section) = (vec![7; ANY_FILE], vec![7; ANY_MAP], vec![7; ANY_SECTION]);
        let answer = merge(state_bits, n, &rows, &mut file, &mut map, &mut section);
        assert_eq!(answer.number(), 0, "the rows are independent");
        assert!(file.starts_with(&table.file()), "their sums are the code's words");
        (answer, file, map, section)
    });
    assert!(left[0] == left[1] && left[0] == left[2], "merging rows differs");
}

/// All ways find a code's section the same as itself renumbered, other than that of case 3, and unusable without its last number.
pub fn same_alike(table: &Table) {
    let [own, other] = two_sections(table);
    for compare in COMPARING {
        assert_eq!(compare(&own, &other), SameSection::Same, "comparing differs");
        let cut = compare(&own, &other[..other.len() - 1]);
        assert_eq!(cut, SameSection::Unusable(1), "comparing differs");
        let case = compare(&own, &section_of(&case_3()));
        assert_eq!(case, SameSection::Different, "comparing differs");
    }
}

/// The same of a code's chain and of its first block.
pub fn decode_alike(table: &Table) {
    for frame in chain(table) {
        let left = DECODING.map(|decode| {
            let mut buffers = room_for(&frame);
            let answer = decode(&frame.lent(), buffers.lent());
            assert_eq!(answer.number(), 0, "the chains have a path");
            (answer, buffers)
        });
        assert!(left[0] == left[1] && left[0] == left[2], "decoding differs");
    }
}

/// The same of their lists of so many paths.
pub fn list_alike(table: &Table, paths: usize) {
    for frame in chain(table) {
        let left = LISTING.map(|list| {
            let mut buffers = room_for_list(&frame, paths);
            let answer = list(&frame.lent(), paths, buffers.lent());
            assert_eq!(answer.number(), 0, "the chains have a path");
            (answer, buffers)
        });
        assert!(left[0] == left[1] && left[0] == left[2], "listing differs");
    }
}
