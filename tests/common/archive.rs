//! Calls of the kit through its crate for Rust: slices in, document 01's number and four values out, and the enum made of them held to both.

use link_kit::{Decoded, DecodedList, ListRoom, Listed, Merged, MergedRows, ReadBack, Room, SameSection, numbers};

/// An outcome's number, and the numbers returned with it in the first of four places; 0 in the others.
#[derive(Clone, PartialEq, Debug)]
pub struct Answer {
    pub number: u32,
    pub values: [u32; 4],
}

impl Answer {
    /// A returned number that does not fit is stored as the largest that does.
    pub fn new(number: u32, returned: &[usize]) -> Answer {
        let mut values = [0; 4];
        for (place, &value) in values.iter_mut().zip(returned) {
            *place = u32::try_from(value).unwrap_or(u32::MAX);
        }
        Answer { number, values }
    }

    pub fn value(&self) -> usize {
        self.values[0] as usize
    }
}

/// What the four values hold before a call.
const BEFORE: [u32; 4] = [0xabab_abab; 4];

/// What a buffer holds before a call.
pub fn pattern(length: usize) -> impl Iterator<Item = u16> {
    (0..length).map(|i| 40_000 + (i % 97) as u16)
}

pub fn byte_pattern(length: usize) -> Vec<u8> {
    pattern(length).map(|x| (x % 251) as u8).collect()
}

/// The answer of a call, after a look at whether its enum has the same number and the same values.
fn answer(number: u32, values: [u32; 4], case: (u32, [usize; 4])) -> Answer {
    assert_eq!(
        case,
        (number, values.map(|x| x as usize)),
        "the enum says something else"
    );
    Answer { number, values }
}

pub fn merge(file: &[u8], map: &mut [u16], section: &mut [u16]) -> Answer {
    let mut values = BEFORE;
    let number = numbers::merge(file, map, section, &mut values);
    let case = Merged::of(number, values);
    answer(number, values, (case.number(), case.values()))
}

pub fn merge_rows(
    state_bits: usize,
    n: usize,
    rows: &[u16],
    file: &mut [u8],
    map: &mut [u16],
    section: &mut [u16],
) -> Answer {
    let mut values = BEFORE;
    let number = numbers::merge_rows(state_bits, n, rows, file, map, section, &mut values);
    let case = MergedRows::of(number, values);
    answer(number, values, (case.number(), case.values()))
}

pub fn read_back(section: &[u16], file: &mut [u8]) -> Answer {
    let mut values = BEFORE;
    let number = numbers::read_back(section, file, &mut values);
    let case = ReadBack::of(number, values);
    answer(number, values, (case.number(), case.values()))
}

pub fn same_section(a: &[u16], b: &[u16]) -> Answer {
    let mut values = BEFORE;
    let number = numbers::same_section(a, b, &mut values);
    let case = SameSection::of(number, values);
    answer(number, values, (case.number(), case.values()))
}

pub fn listing(file: &[u8], text: &mut [u8]) -> Answer {
    let mut values = BEFORE;
    let number = numbers::listing(file, text, &mut values);
    let case = Listed::of(number, values);
    answer(number, values, (case.number(), case.values()))
}

pub fn block_sheet(input: &[u8], text: &mut [u8]) -> Answer {
    let mut values = BEFORE;
    let number = numbers::block_sheet(input, text, &mut values);
    let case = Listed::of(number, values);
    answer(number, values, (case.number(), case.values()))
}

/// What decoding takes.
#[derive(Clone, Debug)]
pub struct Frame {
    pub sections: Vec<u16>,
    pub k: usize,
    pub indices: Vec<u8>,
    pub received: Vec<u16>,
    pub erased: Vec<u8>,
    pub start: u8,
    pub end: u8,
}

impl Frame {
    pub fn lent(&self) -> link_kit::Frame<'_> {
        link_kit::Frame {
            sections: &self.sections,
            k: self.k,
            indices: &self.indices,
            received: &self.received,
            erased: &self.erased,
            start: self.start,
            end: self.end,
        }
    }
}

/// What decoding writes to.
#[derive(Clone, PartialEq, Debug)]
pub struct Buffers {
    pub costs: Vec<u32>,
    pub labels: Vec<u16>,
    pub goals: Vec<u8>,
    pub masks: Vec<u8>,
}

impl Buffers {
    pub fn new(costs: usize, labels: usize, goals: usize, masks: usize) -> Buffers {
        Buffers {
            costs: pattern(costs).map(u32::from).collect(),
            labels: pattern(labels).collect(),
            goals: byte_pattern(goals),
            masks: byte_pattern(masks),
        }
    }

    /// The ones in the masks of so many blocks.
    pub fn ones(&self, blocks: usize) -> usize {
        let masks = self.masks.iter().take(blocks);
        masks.map(|mask| mask.count_ones() as usize).sum()
    }

    pub fn lent(&mut self) -> Room<'_> {
        Room {
            costs: &mut self.costs,
            labels: &mut self.labels,
            goals: &mut self.goals,
            masks: &mut self.masks,
        }
    }
}

pub fn decode(frame: &Frame, buffers: &mut Buffers) -> Answer {
    let mut values = BEFORE;
    let number = numbers::decode(&frame.lent(), buffers.lent(), &mut values);
    let case = Decoded::of(number, values);
    answer(number, values, (case.number(), case.values()))
}

/// What decoding to several paths writes to.
#[derive(Clone, PartialEq, Debug)]
pub struct ListBuffers {
    pub costs: Vec<u32>,
    pub distances: Vec<u32>,
    pub labels: Vec<u16>,
    pub goals: Vec<u8>,
}

impl ListBuffers {
    pub fn new(costs: usize, distances: usize, labels: usize, goals: usize) -> ListBuffers {
        ListBuffers {
            costs: pattern(costs).map(u32::from).collect(),
            distances: pattern(distances).map(u32::from).collect(),
            labels: pattern(labels).collect(),
            goals: byte_pattern(goals),
        }
    }

    /// The distances, labels and goals of the first paths.
    pub fn first(&self, paths: usize, blocks: usize) -> (&[u32], &[u16], &[u8]) {
        let words = paths * blocks;
        (&self.distances[..paths], &self.labels[..words], &self.goals[..words])
    }

    pub fn lent(&mut self) -> ListRoom<'_> {
        ListRoom {
            costs: &mut self.costs,
            distances: &mut self.distances,
            labels: &mut self.labels,
            goals: &mut self.goals,
        }
    }
}

pub fn decode_list(frame: &Frame, paths: usize, buffers: &mut ListBuffers) -> Answer {
    let mut values = BEFORE;
    let number = numbers::decode_list(&frame.lent(), paths, buffers.lent(), &mut values);
    let case = DecodedList::of(number, values);
    answer(number, values, (case.number(), case.values()))
}
