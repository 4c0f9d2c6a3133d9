//! The link kit for Rust: tables merged into trellis sections, tables and sections made from generator rows, sections read back and compared, chains of
//! blocks decoded to their best path or to several of the best, sizes listed, block sheets added up. Safe calls of `liblink_kit.a`, whose every answer and
//! every place of every buffer is proved to be what document 01 says, the customer's paper on tables, sections and outcomes, with what the requests of
//! document 02 changed. Formats and outcomes are in `docs/FORMATS.md`, with a worked table. Nothing here allocates or keeps anything between calls.
//!
//! ```
//! use link_kit::{ANY_SECTION, COSTS_A_BLOCK, Decoded, Frame, Merged, Room};
//!
//! // q 2, n 2, S 1 and the words 00 and 11: pairs (root, goal), then labels, low byte first.
//! let file = [2, 2, 1, 2, 0, 0, 0, 0, 0, 0, 0, 5, 0];
//! let (mut map, mut section) = ([0; 6], [0; ANY_SECTION]);
//! assert_eq!(link_kit::merge(&file, &mut map, &mut section), Merged::Section(22));
//!
//! // Two blocks received as 01 and 11: the best path is 00, 11, and the second symbol of the first block was wrong.
//! let frame = Frame { sections: &section[..22], k: 1, indices: &[0, 0], received: &[1, 5], erased: &[0, 0], start: 0, end: 0 };
//! let (mut costs, mut labels, mut goals, mut masks) = ([0; 2 * COSTS_A_BLOCK], [0; 2], [0; 2], [0; 2]);
//! let room = Room { costs: &mut costs, labels: &mut labels, goals: &mut goals, masks: &mut masks };
//! assert_eq!(link_kit::decode(&frame, room), Decoded::Distance(1));
//! assert_eq!((labels, goals, masks), ([0, 5], [0, 0], [0b01, 0b00]));
//! ```
//!
//! A returned number over 4,294,967,295, as a file's length can be, is given as 4,294,967,295.

mod answers;
pub mod numbers;
mod outcomes;

pub use answers::{Decoded, DecodedList, Listed, Merged, MergedRows, ReadBack, SameSection};

/// A table file of 1,024 words in bytes, the longest there is.
pub const ANY_FILE: usize = 5 + 4 * 1024;
/// A map long enough for every table: 1,024 words at nine depths.
pub const ANY_MAP: usize = 9 * 1024;
/// A section buffer long enough for every table: the sizes, all states as roots and as goals, and 1,024 edges at each of eight steps.
pub const ANY_SECTION: usize = 4 + 2 * 8 + 2 * MOST_STATES + 3 * 8 * 1024;
/// A text buffer long enough for every listing.
pub const ANY_TEXT: usize = 1024;
/// A text buffer long enough for every block sheet.
pub const ANY_SHEET: usize = 8192;
/// A buffer long enough for the input of every block sheet: whatever follows these bytes changes nothing, so a caller need not read it.
pub const MOST_INPUT: usize = 323_919;
/// The most states of a table or section. The ends of a chain are below it.
pub const MOST_STATES: usize = 16;
/// The most sections of a chain.
pub const MOST_SECTIONS: usize = 16;
/// The most blocks of a chain.
pub const MOST_BLOCKS: usize = 256;
/// The most paths of a list.
pub const MOST_PATHS: usize = 16;
/// The most bits of a state in a row.
pub const MOST_STATE_BITS: usize = 4;
/// The most rows.
pub const MOST_ROWS: usize = 10;
/// The places of the cost table for one block, one for each state.
pub const COSTS_A_BLOCK: usize = MOST_STATES;
/// In the cost table: no path from here.
pub const NO_COST: u32 = u32::MAX;

/// What decoding takes, to the best path or to several.
#[derive(Clone, Copy, Debug)]
pub struct Frame<'a> {
    /// The sections one behind another.
    pub sections: &'a [u16],
    /// How many sections there are: K, 1 to 16.
    pub k: usize,
    /// The section of each block. Its length is B, 1 to 256.
    pub indices: &'a [u8],
    /// The received label of each block.
    pub received: &'a [u16],
    /// The erasure mask of each block: n bits, the first symbol highest. An erased symbol has digit 0 in the received label and costs nothing; any
    /// other symbol costs 1 where it differs.
    pub erased: &'a [u8],
    /// The state before the first block, below [`MOST_STATES`].
    pub start: u8,
    /// The state after the last block, below [`MOST_STATES`].
    pub end: u8,
}

/// What decoding writes to.
#[derive(Debug)]
pub struct Room<'a> {
    /// [`COSTS_A_BLOCK`]·B places: at `COSTS_A_BLOCK`·b + s the least distance from state s before block b to the end, [`NO_COST`] where none.
    pub costs: &'a mut [u32],
    /// B places for the labels of the path.
    pub labels: &'a mut [u16],
    /// B places for the goals of the path.
    pub goals: &'a mut [u8],
    /// B places for which symbols were wrong: n bits, the first symbol highest, with 1 for each symbol of the path's label that differs from the
    /// received one and is not erased. The number of ones in all masks is the distance.
    pub masks: &'a mut [u8],
}

/// What decoding to several paths writes to.
#[derive(Debug)]
pub struct ListRoom<'a> {
    /// [`COSTS_A_BLOCK`]·B places, which are left as in [`Room`].
    pub costs: &'a mut [u32],
    /// A place for the distance of each path that is asked for.
    pub distances: &'a mut [u32],
    /// B places for the labels of each path, path after path: those of path p, from 0, begin at place p·B.
    pub labels: &'a mut [u16],
    /// B places for the goals of each path, likewise.
    pub goals: &'a mut [u8],
}

/// Merges the table in `file` into the smallest section with just its words.
///
/// ```
/// use link_kit::{ANY_SECTION, Merged};
/// // The labels 00, 01, 10 without 11: words 0, 1, 2 force a fourth at depth 1.
/// let file = [2, 2, 1, 3, 0, 0, 0, 0, 0, 0, 0, 0, 0, 1, 0, 4, 0];
/// let (mut map, mut section) = ([7; 10], [7; ANY_SECTION]);
/// let answer = link_kit::merge(&file, &mut map, &mut section);
/// assert_eq!(answer, Merged::NotRectangular(1, 0, 1, 2));
/// assert_eq!((answer.number(), answer.values()), (6, [1, 0, 1, 2]));
/// assert_eq!(map, [0, 0, 0, 0, 0, 0, 0, 0, 0, 7]);
/// ```
pub fn merge(file: &[u8], map: &mut [u16], section: &mut [u16]) -> Merged {
    let mut values = [0; 4];
    let number = numbers::merge(file, map, section, &mut values);
    Merged::of(number, values)
}

/// Makes the table of a binary code from rows of bits, and merges it. A row has the bits of a start state, `n` symbols and the bits of an end state, the
/// first highest, with `state_bits` bits a state. The words are all sums of rows modulo 2, each bit by itself, that of no row included; q is 2, S is 2 to
/// the number of state bits. `file` is left as the table file, 5 + 4·2^rows bytes, `map` and `section` as [`merge`] leaves them of that file.
///
/// The convolutional code of rate 1/2 with generators 7 and 5, of which one input makes a section of two symbols: the state is the last two inputs, the
/// later first.
///
/// ```
/// use link_kit::{ANY_SECTION, Merged, MergedRows};
/// // An earlier input, then the one before it, then the one that comes in: state before, symbols, state behind.
/// let rows = [0b10_10_01, 0b01_11_00, 0b00_11_10];
/// let (mut file, mut map, mut section) = ([0; 5 + 4 * 8], [0; 8 * 3], [0; ANY_SECTION]);
/// let answer = link_kit::merge_rows(2, 2, &rows, &mut file, &mut map, &mut section);
/// assert_eq!(answer, MergedRows::Section(64));
/// assert_eq!(file[..5], [2, 2, 4, 8, 0]); // q, n, S, and W low byte first
/// assert_eq!(section[3..6], [4, 8, 4]); // vertices
///
/// let (mut same_map, mut same) = ([0; 8 * 3], [0; ANY_SECTION]);
/// assert_eq!(link_kit::merge(&file, &mut same_map, &mut same), Merged::Section(64));
/// assert!(map == same_map && section == same);
///
/// // The last of these rows is the sum of the two before it.
/// let rows = [0b10_10_01, 0b01_11_00, 0b11_01_01];
/// let answer = link_kit::merge_rows(2, 2, &rows, &mut file, &mut map, &mut section);
/// assert_eq!(answer, MergedRows::Dependent(2));
/// assert_eq!((answer.number(), answer.values()), (15, [2, 0, 0, 0]));
/// ```
pub fn merge_rows(
    state_bits: usize,
    n: usize,
    rows: &[u16],
    file: &mut [u8],
    map: &mut [u16],
    section: &mut [u16],
) -> MergedRows {
    let mut values = [0; 4];
    let number = numbers::merge_rows(state_bits, n, rows, file, map, section, &mut values);
    MergedRows::of(number, values)
}

/// Writes the table file of a section's words.
///
/// ```
/// use link_kit::{ANY_FILE, ReadBack};
/// // One step from state 0 to state 0 by the symbols 0 and 1.
/// let section = [2, 1, 1, 1, 1, 2, 0, 0, 0, 0, 0, 0, 0, 1];
/// let mut file = [0; ANY_FILE];
/// assert_eq!(link_kit::read_back(&section, &mut file), ReadBack::File(13));
/// assert_eq!(file[..13], [2, 1, 1, 2, 0, 0, 0, 0, 0, 0, 0, 1, 0]);
/// assert_eq!(link_kit::read_back(&section, &mut file[..12]), ReadBack::Short(13));
/// assert_eq!(link_kit::read_back(&section[1..], &mut file).number(), 8);
/// ```
pub fn read_back(section: &[u16], file: &mut [u8]) -> ReadBack {
    let mut values = [0; 4];
    let number = numbers::read_back(section, file, &mut values);
    ReadBack::of(number, values)
}

/// Says whether two sections are the same but for the numbers of inner vertices: whether they have the same q, n, S and words. If so, just one matching of
/// the vertices of each depth keeps end states and symbols and carries edges to edges. Words are not listed, and there may be any number of them.
///
/// ```
/// use link_kit::SameSection;
/// // From state 0 to state 0 by 00 and 11: sizes, vertices, edges, the root, the goal, pairs (from, to) of both steps, and their symbols.
/// let ours = [2, 2, 1, 1, 2, 1, 2, 2, 0, 0, 0, 0, 0, 1, 0, 0, 1, 0, 0, 1, 0, 1];
/// // The same with the two vertices at depth 1 exchanged.
/// let theirs = [2, 2, 1, 1, 2, 1, 2, 2, 0, 0, 0, 1, 0, 0, 0, 0, 1, 0, 0, 1, 1, 0];
/// assert_eq!(link_kit::same_section(&ours, &theirs), SameSection::Same);
///
/// // By 01 and 10: the counts are the same, and the words are others.
/// let other = [2, 2, 1, 1, 2, 1, 2, 2, 0, 0, 0, 0, 0, 1, 0, 0, 1, 0, 0, 1, 1, 0];
/// assert_eq!(link_kit::same_section(&ours, &other), SameSection::Different);
///
/// // Cut short.
/// assert_eq!(link_kit::same_section(&ours[..21], &theirs), SameSection::Unusable(0));
/// let answer = link_kit::same_section(&ours, &theirs[..21]);
/// assert_eq!(answer, SameSection::Unusable(1));
/// assert_eq!((answer.number(), answer.values()), (8, [1, 0, 0, 0]));
/// ```
pub fn same_section(a: &[u16], b: &[u16]) -> SameSection {
    let mut values = [0; 4];
    let number = numbers::same_section(a, b, &mut values);
    SameSection::of(number, values)
}

/// Finds the first path of least distance through a chain of blocks. The crate's front page has an example; here the one word goes elsewhere:
///
/// ```
/// use link_kit::{COSTS_A_BLOCK, Decoded, Frame, NO_COST, Room};
/// let section = [2, 1, 2, 1, 1, 1, 0, 1, 0, 0, 0]; // from state 0 to state 1 by the symbol 0
/// let frame = Frame { sections: &section, k: 1, indices: &[0], received: &[0], erased: &[0], start: 0, end: 0 };
/// let (mut costs, mut labels, mut goals, mut masks) = ([0; COSTS_A_BLOCK], [9; 1], [9; 1], [9; 1]);
/// let room = Room { costs: &mut costs, labels: &mut labels, goals: &mut goals, masks: &mut masks };
/// assert_eq!(link_kit::decode(&frame, room), Decoded::NoPath);
/// assert_eq!((costs, labels, goals, masks), ([NO_COST; COSTS_A_BLOCK], [9], [9], [9]));
/// ```
///
/// An erased symbol costs nothing, whatever the path has there, and is not among the wrong ones:
///
/// ```
/// use link_kit::{COSTS_A_BLOCK, Decoded, Frame, Room};
/// let section = [2, 1, 1, 1, 1, 1, 0, 0, 0, 0, 1]; // from state 0 to state 0 by the symbol 1
/// for (erased, distance, wrong) in [(0, 1, 1), (1, 0, 0)] {
///     let frame = Frame { sections: &section, k: 1, indices: &[0], received: &[0], erased: &[erased], start: 0, end: 0 };
///     let (mut costs, mut labels, mut goals, mut masks) = ([9; COSTS_A_BLOCK], [9; 1], [9; 1], [9; 1]);
///     let room = Room { costs: &mut costs, labels: &mut labels, goals: &mut goals, masks: &mut masks };
///     assert_eq!(link_kit::decode(&frame, room), Decoded::Distance(distance));
///     assert_eq!((costs[0], labels, goals, masks), (distance as u32, [1], [0], [wrong]));
/// }
/// ```
pub fn decode(frame: &Frame, room: Room) -> Decoded {
    let mut values = [0; 4];
    let number = numbers::decode(frame, room, &mut values);
    Decoded::of(number, values)
}

/// Lists the `paths` best paths through a chain of blocks, 1 to [`MOST_PATHS`], or all where fewer exist: by distance, and those of one distance in the
/// order of their words, compared block by block from the first. So the first of them is the path of [`decode`], and a list of fewer is the start of
/// a longer one. The buffers have room for as many as are asked for; what lies beyond those listed is unchanged.
///
/// A frame that carries an outer check sum is often rescued by it: the first listed path whose sum is right is taken. Here the labels of a frame add up
/// to 0, each bit by itself. Two blocks are received as 01 and 11, and of the paths 00, 11 and 11, 11, which both have distance 1, decoding takes the
/// first, whose sum is wrong:
///
/// ```
/// use link_kit::{COSTS_A_BLOCK, DecodedList, Frame, ListRoom};
/// let section = [2, 2, 1, 1, 2, 1, 2, 2, 0, 0, 0, 0, 0, 1, 0, 0, 1, 0, 0, 1, 0, 1]; // from state 0 to state 0 by 00 and 11
/// let frame = Frame { sections: &section, k: 1, indices: &[0, 0], received: &[1, 5], erased: &[0, 0], start: 0, end: 0 };
/// let (mut costs, mut distances, mut labels, mut goals) = ([0; 2 * COSTS_A_BLOCK], [9; 3], [9; 3 * 2], [9; 3 * 2]);
/// let room = ListRoom { costs: &mut costs, distances: &mut distances, labels: &mut labels, goals: &mut goals };
/// assert_eq!(link_kit::decode_list(&frame, 3, room), DecodedList::Paths(3));
/// assert_eq!((distances, labels, goals), ([1, 1, 3], [0, 5, 5, 5, 0, 0], [0; 6]));
///
/// let is_right = |path: &&[u16]| path.iter().fold(0, |sum, label| sum ^ label) == 0;
/// assert_eq!(labels.chunks(2).find(is_right), Some(&[5, 5][..]));
/// ```
pub fn decode_list(frame: &Frame, paths: usize, room: ListRoom) -> DecodedList {
    let mut values = [0; 4];
    let number = numbers::decode_list(frame, paths, room, &mut values);
    DecodedList::of(number, values)
}

/// Writes the printed sizes of the section of the table in `file`, or the line of its refusal.
///
/// ```
/// use link_kit::{ANY_TEXT, Listed};
/// let mut text = [0; ANY_TEXT];
/// let Listed::Text(length) = link_kit::listing(&[2, 2, 1, 0, 0], &mut text) else { panic!() };
/// assert_eq!(&text[..length], b"refused 2 3\n");
/// assert_eq!(link_kit::listing(&[2, 2, 1, 0, 0], &mut text[..11]), Listed::Short(12));
/// ```
pub fn listing(file: &[u8], text: &mut [u8]) -> Listed {
    let mut values = [0; 4];
    let number = numbers::listing(file, text, &mut values);
    Listed::of(number, values)
}

/// Writes the block sheet of an input, a line for each block with what its section costs and then the totals, or the line of a refusal. The input is
/// K in one byte, B in two, low byte first, the section of each block in one byte, then K table files one behind another.
///
/// ```
/// use link_kit::{ANY_SHEET, Listed};
/// // Two blocks over one section, that of the labels 00 and 11: four edges, and one vertex where two of them meet.
/// let input = [1, 2, 0, 0, 0, 2, 2, 1, 2, 0, 0, 0, 0, 0, 0, 0, 5, 0];
/// let mut text = [0; ANY_SHEET];
/// let Listed::Text(length) = link_kit::block_sheet(&input, &mut text) else { panic!() };
/// assert_eq!(&text[..length], b"block 0 0 4 1\nblock 1 0 4 1\ntotal 8 2\n");
/// assert_eq!(link_kit::block_sheet(&input, &mut text[..length - 1]), Listed::Short(length));
///
/// // Without its last byte the table is cut short.
/// let Listed::Text(length) = link_kit::block_sheet(&input[..17], &mut text) else { panic!() };
/// assert_eq!(&text[..length], b"refused 1 12\n");
/// ```
pub fn block_sheet(input: &[u8], text: &mut [u8]) -> Listed {
    let mut values = [0; 4];
    let number = numbers::block_sheet(input, text, &mut values);
    Listed::of(number, values)
}
