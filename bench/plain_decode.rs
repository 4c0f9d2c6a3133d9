//! Decoding in plain Rust by the kit's own algorithm: each section is checked; over the edges, from the last block to the first, a number is kept at
//! each vertex that ranks distance, label and goal, and its low 32 bits are noted in the cost table; forward the words in the notes are followed, and
//! each is held against what was received; and then the notes are turned into costs.

use super::access::{Access, Checked};
use super::plain_section::Section;
use link_kit::{COSTS_A_BLOCK, Decoded, Frame, MOST_STATES, NO_COST, Room};

/// Below the distance a number has 16 bits for the label, and then one more than a state has for the goal.
const GOAL_BITS: u32 = (2 * MOST_STATES).ilog2();
pub const WORD_BITS: u32 = GOAL_BITS + 16;

/// The number of no path: what a block adds to it stays above all others, and below 2^64. Its low 32 bits are those of a place with no cost.
pub const NO_PATH: u64 = (1 << (32 + WORD_BITS)) - 1;

/// A note has the remainder of a distance by this.
const CYCLE: u32 = 1 << (32 - WORD_BITS);

/// What was received over one block.
#[derive(Clone, Copy)]
pub struct Heard {
    label: u16,
    mask: u8,
}

impl Heard {
    fn symbol(self, n: usize, t: usize) -> u16 {
        self.label >> (2 * (n - 1 - t)) & 3
    }

    fn is_erased(self, n: usize, t: usize) -> bool {
        self.mask >> (n - 1 - t) & 1 == 1
    }

    fn fits(self, q: u16, n: usize) -> bool {
        let right = |t| self.symbol(n, t) < q && !(self.is_erased(n, t) && self.symbol(n, t) != 0);
        self.label as u32 >> (2 * n) == 0 && self.mask as u32 >> n == 0 && (0..n).all(right)
    }

    /// What each symbol of a step adds: its cost, and below it its place in the label. The kit has the costs of a block from four comparisons; in plain
    /// Rust one symbol at a time is quicker.
    pub fn prices(self, n: usize, t: usize) -> [u64; 4] {
        [0, 1, 2, 3].map(|symbol| {
            let cost = (!self.is_erased(n, t) && self.symbol(n, t) != symbol) as u64;
            cost << WORD_BITS | (symbol as u64) << (2 * (n - 1 - t) as u32 + GOAL_BITS)
        })
    }

    /// A bit for each symbol in which a label differs and that is not erased: of the two bits of each symbol one is kept, and those are moved together.
    fn wrong(self, label: u16) -> u8 {
        let both = self.label ^ label;
        let one = (both | both >> 1) & 0x5555;
        let pairs = (one | one >> 1) & 0x3333;
        let fours = (pairs | pairs >> 2) & 0x0f0f;
        (fours | fours >> 4) as u8 & !self.mask
    }
}

/// Of the depths only two are needed at a time: even ones have the first row, odd ones the second.
pub type Rows = [[u64; 1024]; 2];

/// The K sections of a frame, in the first places.
pub type Sections<'a> = [Option<Section<'a>>; 16];

/// The row of a depth, and the row of the next.
pub fn two_rows(rows: &mut Rows, t: usize) -> (&mut [u64; 1024], &[u64; 1024]) {
    let [even, odd] = rows;
    if t % 2 == 0 { (even, odd) } else { (odd, even) }
}

/// The numbers of the goals, where `after` is what it costs to go on from each state.
pub fn put_goals<A: Access>(section: &Section, after: &[u32; COSTS_A_BLOCK], rows: &mut Rows) {
    let (row, _) = two_rows(rows, section.n);
    for (place, &goal) in section.goals.iter().enumerate() {
        let cost = A::get(after, goal as usize) as u64;
        A::put(row, place, cost << WORD_BITS | goal as u64);
    }
}

/// The least number from each vertex of depth t, over the edges from `lo` to `hi`, which are those of its step.
#[inline(always)]
pub fn lower<A: Access>(section: &Section, t: usize, lo: usize, hi: usize, prices: &[u64; 4], rows: &mut Rows) {
    let (here, next) = two_rows(rows, t);
    here[..section.vertices[t] as usize].fill(NO_PATH);
    let pairs = section.pairs[2 * lo..2 * hi].chunks_exact(2);
    for (pair, &symbol) in pairs.zip(&section.symbols[lo..hi]) {
        let number = A::get(next, pair[1] as usize) + A::get(prices, symbol as usize);
        let least = A::get(here, pair[0] as usize);
        A::put(here, pair[0] as usize, number.min(least));
    }
}

/// The least number from each vertex of a section down to its roots.
fn sweep<A: Access>(section: &Section, heard: Heard, rows: &mut Rows) {
    let mut hi = section.symbols.len();
    for t in (0..section.n).rev() {
        let lo = hi - section.edges[t] as usize;
        lower::<A>(section, t, lo, hi, &heard.prices(section.n, t), rows);
        hi = lo;
    }
}

/// What is left to pay before one block, and the notes of its states.
fn put_roots<A: Access>(section: &Section, rows: &Rows, left: &mut [u32; COSTS_A_BLOCK], notes: &mut [u32]) {
    left.fill(NO_COST);
    notes.fill(NO_COST);
    for (place, &root) in section.roots.iter().enumerate() {
        let number = A::get(&rows[0], place);
        A::put(left, root as usize, (number >> WORD_BITS) as u32);
        A::put(notes, root as usize, number as u32);
    }
}

/// The sections of a frame, or refusal 8.
fn sections_of<'a>(frame: &Frame<'a>) -> Result<Sections<'a>, Decoded> {
    let mut found = [None; 16];
    if !(1..=16).contains(&frame.k) {
        return Err(Decoded::Section(frame.k));
    }
    let mut rest = frame.sections;
    for (i, place) in found[..frame.k].iter_mut().enumerate() {
        let section = Section::split(rest)
            .filter(Section::is_usable)
            .ok_or(Decoded::Section(i))?;
        rest = &rest[section.length..];
        *place = Some(section);
    }
    if rest.is_empty() {
        Ok(found)
    } else {
        Err(Decoded::Section(frame.k))
    }
}

/// Refusal 9.
fn check_blocks(frame: &Frame, sections: &Sections) -> Result<(), Decoded> {
    let blocks = frame.indices.len();
    let lengths = frame.received.len() == blocks && frame.erased.len() == blocks;
    let ends_outside = frame.start.max(frame.end) as usize >= MOST_STATES;
    if !(1..=256).contains(&blocks) || !lengths || ends_outside {
        return Err(Decoded::Block(blocks));
    }
    for b in 0..blocks {
        let section = sections.get(frame.indices[b] as usize).copied().flatten();
        if !section.is_some_and(|section| heard::<Checked>(frame, b).fits(section.q, section.n)) {
            return Err(Decoded::Block(b));
        }
    }
    Ok(())
}

/// Refusal 10.
fn check_room(blocks: usize, room: &Room) -> Result<(), Decoded> {
    let needs = [
        (room.costs.len(), COSTS_A_BLOCK * blocks),
        (room.labels.len(), blocks),
        (room.goals.len(), blocks),
        (room.masks.len(), blocks),
    ];
    match needs.iter().find(|(length, needed)| length < needed) {
        Some(&(_, needed)) => Err(Decoded::Short(needed)),
        None => Ok(()),
    }
}

/// The sections of a frame, or refusal 8 or 9.
pub fn checked<'a>(frame: &Frame<'a>) -> Result<Sections<'a>, Decoded> {
    let sections = sections_of(frame)?;
    check_blocks(frame, &sections)?;
    Ok(sections)
}

pub fn heard<A: Access>(frame: &Frame, b: usize) -> Heard {
    let (label, mask) = (A::get(frame.received, b), A::get(frame.erased, b));
    Heard { label, mask }
}

pub fn section_of<'a, 'b>(frame: &Frame, sections: &'b Sections<'a>, b: usize) -> &'b Section<'a> {
    sections[frame.indices[b] as usize].as_ref().expect("an index below K")
}

/// Backward: the notes, and what is left to pay before the first block.
pub fn fill_notes<A: Access>(frame: &Frame, sections: &Sections, notes: &mut [u32]) -> [u32; COSTS_A_BLOCK] {
    let mut rows: Rows = [[NO_PATH; 1024]; 2];
    let mut left = [NO_COST; COSTS_A_BLOCK];
    left[frame.end as usize] = 0;
    for (b, row) in notes.chunks_exact_mut(COSTS_A_BLOCK).enumerate().rev() {
        let section = section_of(frame, sections, b);
        put_goals::<A>(section, &left, &mut rows);
        sweep::<A>(section, heard::<A>(frame, b), &mut rows);
        put_roots::<A>(section, &rows, &mut left, row);
    }
    left
}

/// Backward again: the costs of which the notes have the remainders. The note of no path leads to the last place behind, which has no cost.
pub fn settle<A: Access>(frame: &Frame, sections: &Sections, notes: &mut [u32]) {
    let mut behind = [NO_COST; 1 << GOAL_BITS];
    behind[frame.end as usize] = 0;
    for (b, row) in notes.chunks_exact_mut(COSTS_A_BLOCK).enumerate().rev() {
        for &root in section_of(frame, sections, b).roots {
            let note = A::get(row, root as usize);
            let cost = A::get(&behind, (note % (1 << GOAL_BITS)) as usize);
            A::put(
                row,
                root as usize,
                cost + (note >> WORD_BITS).wrapping_sub(cost) % CYCLE,
            );
        }
        behind[..COSTS_A_BLOCK].copy_from_slice(row);
    }
}

/// Forward: the words that the notes name, from the start state on, and their wrong symbols.
fn follow<A: Access>(frame: &Frame, notes: &[u32], labels: &mut [u16], goals: &mut [u8], masks: &mut [u8]) {
    let mut state = frame.start;
    for b in 0..frame.indices.len() {
        let note = A::get(notes, COSTS_A_BLOCK * b + state as usize);
        let label = (note >> GOAL_BITS) as u16;
        state = (note % (1 << GOAL_BITS)) as u8;
        A::put(labels, b, label);
        A::put(goals, b, state);
        A::put(masks, b, heard::<A>(frame, b).wrong(label));
    }
}

fn search<A: Access>(frame: &Frame, room: Room, sections: &Sections) -> Decoded {
    let notes = &mut room.costs[..COSTS_A_BLOCK * frame.indices.len()];
    let distance = fill_notes::<A>(frame, sections, notes)[frame.start as usize];
    if distance < NO_COST {
        follow::<A>(frame, notes, room.labels, room.goals, room.masks);
    }
    settle::<A>(frame, sections, notes);
    if distance < NO_COST {
        Decoded::Distance(distance as usize)
    } else {
        Decoded::NoPath
    }
}

pub fn decode<A: Access>(frame: &Frame, room: Room) -> Decoded {
    let sections = match checked(frame) {
        Ok(sections) => sections,
        Err(refusal) => return refusal,
    };
    match check_room(frame.indices.len(), &room) {
        Ok(()) => search::<A>(frame, room, &sections),
        Err(refusal) => refusal,
    }
}
