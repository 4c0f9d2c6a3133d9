//! Listing the best paths in plain Rust by the kit's own algorithm: the cost table is that of decoding; forward, block by block, the section is swept
//! once more and the least distances from all its vertices to the end are kept; by these at most k beginnings go on from depth to depth, in word
//! order, those that cost least in the end. Behind the last block they are sorted, and their words read along pointers to the blocks before.

use super::access::Access;
use super::plain_decode::{NO_PATH, Rows, Sections, WORD_BITS, checked, fill_notes, heard};
use super::plain_decode::{lower, put_goals, section_of, settle, two_rows};
use super::plain_section::Section;
use link_kit::{COSTS_A_BLOCK, Decoded, DecodedList, Frame, ListRoom, MOST_BLOCKS, MOST_PATHS, NO_COST};

/// An item is a beginning of paths: above 32 bits the least distance of a path that begins so, below them its code. That has the slot from which it
/// came into its block, ten bits for the vertex, and the symbols since then.
fn item(cost: u64, code: u32) -> u64 {
    cost << 32 | code as u64
}

fn coded(slot: usize, vertex: usize, label: u16) -> u32 {
    ((slot << 10 | vertex) << 16) as u32 | label as u32
}

fn cost_of(item: u64) -> u64 {
    item >> 32
}

fn slot_of(code: u32) -> usize {
    (code >> 26) as usize
}

fn vertex_of(code: u32) -> usize {
    (code >> 16) as usize % 1024
}

/// At most k items, in the order in which they came.
#[derive(Clone, Copy)]
struct Kept {
    items: [u64; MOST_PATHS],
    count: usize,
    /// Where there are k of them: the place of the last of those that cost most.
    worst: usize,
}

impl Kept {
    const NONE: Kept = Kept {
        items: [0; MOST_PATHS],
        count: 0,
        worst: 0,
    };

    fn last_dearest<A: Access>(&self) -> usize {
        let (mut at, mut most) = (0, cost_of(A::get(&self.items, 0)));
        for i in 1..self.count {
            let cost = cost_of(A::get(&self.items, i));
            if cost >= most {
                (at, most) = (i, cost);
            }
        }
        at
    }

    /// What the dearest costs where there are k, else the most that a path can cost.
    fn limit<A: Access>(&self, k: usize) -> u64 {
        if self.count < k {
            return NO_COST as u64 - 1;
        }
        cost_of(A::get(&self.items, self.worst))
    }

    /// Takes one item more; where there are k already, in place of the worst if it costs less.
    #[inline(always)]
    fn admit<A: Access>(&mut self, k: usize, item: u64) {
        if self.count < k {
            A::put(&mut self.items, self.count, item);
            self.count += 1;
            if self.count == k {
                self.worst = self.last_dearest::<A>();
            }
        } else if cost_of(item) < cost_of(A::get(&self.items, self.worst)) {
            self.replace_worst::<A>(item);
        }
    }

    /// Those behind the worst move up. The next worst costs the same and stands before it, or else is searched for among all.
    fn replace_worst<A: Access>(&mut self, item: u64) {
        let most = cost_of(A::get(&self.items, self.worst));
        for i in self.worst + 1..self.count {
            let next = A::get(&self.items, i);
            A::put(&mut self.items, i - 1, next);
        }
        A::put(&mut self.items, self.count - 1, item);
        let before = (0..self.worst).rev().find(|&i| cost_of(A::get(&self.items, i)) >= most);
        self.worst = before.unwrap_or_else(|| self.last_dearest::<A>());
    }
}

/// What the symbols of a block add, step by step, and the least distances from all vertices of its section to the end, depth by depth.
struct Block {
    prices: [[u64; 4]; 8],
    ahead: [[u32; 1024]; 9],
}

impl Block {
    /// The distances of a depth, from the numbers that rank them.
    fn keep_row<A: Access>(&mut self, section: &Section, t: usize, rows: &mut Rows) {
        let (row, _) = two_rows(rows, t);
        let kept = &mut self.ahead[t];
        for v in 0..section.vertices[t] as usize {
            A::put(kept, v, (A::get(row, v) >> WORD_BITS) as u32);
        }
    }

    fn sweep<A: Access>(&mut self, section: &Section, rows: &mut Rows) {
        self.keep_row::<A>(section, section.n, rows);
        let mut hi = section.symbols.len();
        for t in (0..section.n).rev() {
            let lo = hi - section.edges[t] as usize;
            lower::<A>(section, t, lo, hi, &self.prices[t], rows);
            self.keep_row::<A>(section, t, rows);
            hi = lo;
        }
    }

    /// The step behind depth t, whose edges are those from `lo` to `hi`.
    fn step<'a>(&'a self, section: &Section<'a>, t: usize, lo: usize, hi: usize) -> Step<'a> {
        Step {
            pairs: &section.pairs[2 * lo..2 * hi],
            symbols: &section.symbols[lo..hi],
            each: (hi - lo) / section.vertices[t] as usize,
            prices: &self.prices[t],
            here: &self.ahead[t],
            next: &self.ahead[t + 1],
        }
    }
}

/// A step of a section: its edges, how many leave each vertex if as many leave each, what its symbols add, and the least distances from its two sides.
struct Step<'a> {
    pairs: &'a [u16],
    symbols: &'a [u16],
    each: usize,
    prices: &'a [u64; 4],
    here: &'a [u32; 1024],
    next: &'a [u32; 1024],
}

impl Step<'_> {
    /// The first edge that leaves a vertex. Where as many leave each, as in every linear code, it is at their multiple; elsewhere it is searched for.
    fn first_edge<A: Access>(&self, vertex: usize) -> usize {
        let (guess, edges) = (vertex * self.each, self.symbols.len());
        let is_before = |place: usize| (A::get(self.pairs, 2 * place) as usize) < vertex;
        if guess < edges && !is_before(guess) && (guess == 0 || is_before(guess - 1)) {
            return guess;
        }
        let (mut low, mut high) = (0, edges);
        while low < high {
            let middle = (low + high) / 2;
            if is_before(middle) {
                low = middle + 1;
            } else {
                high = middle;
            }
        }
        low
    }

    /// One item along the edges of its vertex, as long as it costs no more than a limit.
    fn extend<A: Access>(&self, old: u64, limit: u64, k: usize, kept: &mut Kept) {
        let code = old as u32;
        let vertex = vertex_of(code);
        let paid = cost_of(old) - A::get(self.here, vertex) as u64;
        let mut i = self.first_edge::<A>(vertex);
        while i < self.symbols.len() && A::get(self.pairs, 2 * i) as usize == vertex {
            let (symbol, to) = (A::get(self.symbols, i), A::get(self.pairs, 2 * i + 1) as usize);
            let price = A::get(self.prices, symbol as usize) >> WORD_BITS;
            let total = paid + price + A::get(self.next, to) as u64;
            if total <= limit {
                let label = (code as u16) << 2 | symbol;
                kept.admit::<A>(k, item(total, coded(slot_of(code), to, label)));
            }
            i += 1;
        }
    }

    /// The k best of what all items become. Each goes on along some edge at its own cost, so where there are k none that costs more than all is kept.
    fn take<A: Access>(&self, k: usize, kept: &mut Kept) {
        let old = *kept;
        let limit = old.limit::<A>(k);
        kept.count = 0;
        for &item in &old.items[..old.count] {
            self.extend::<A>(item, limit, k, kept);
        }
    }
}

/// Each slot becomes an item at the root of its state.
fn enter<A: Access>(section: &Section, slots: &mut Kept) {
    for j in 0..slots.count {
        let slot = A::get(&slots.items, j);
        let state = vertex_of(slot as u32) as u16;
        let root = section.roots.iter().position(|&root| root == state);
        let vertex = root.expect("a path goes on from here");
        A::put(&mut slots.items, j, item(cost_of(slot), coded(j, vertex, 0)));
    }
}

/// Each item becomes a slot in the state of its goal, and has a pointer back: the slot from which it came, that state, and its label.
fn leave<A: Access>(section: &Section, items: &mut Kept, back: &mut [u32]) {
    for j in 0..items.count {
        let old = A::get(&items.items, j);
        let code = old as u32;
        let state = A::get(section.goals, vertex_of(code)) as usize;
        A::put(back, j, coded(slot_of(code), state, code as u16));
        A::put(&mut items.items, j, item(cost_of(old), coded(j, state, 0)));
    }
}

/// What is left to pay behind a block, state by state: the next block's row of the cost table, or behind the last block nothing in the end state.
fn left_behind(frame: &Frame, costs: &[u32], b: usize) -> [u32; COSTS_A_BLOCK] {
    let mut left = [NO_COST; COSTS_A_BLOCK];
    match costs.get(COSTS_A_BLOCK * (b + 1)..COSTS_A_BLOCK * (b + 2)) {
        Some(row) => left.copy_from_slice(row),
        None => left[frame.end as usize] = 0,
    }
    left
}

/// The slots before a block, through its section, to those behind it.
fn through<A: Access>(block: &Block, section: &Section, k: usize, kept: &mut Kept, back: &mut [u32]) {
    enter::<A>(section, kept);
    let mut lo = 0;
    for t in 0..section.n {
        let hi = lo + section.edges[t] as usize;
        block.step(section, t, lo, hi).take::<A>(k, kept);
        lo = hi;
    }
    leave::<A>(section, kept, back);
}

type Back = [[u32; MOST_PATHS]; MOST_BLOCKS];

/// Forward over all blocks of a frame whose cost table is there: the slots behind the last block, in word order.
fn forward<A: Access>(frame: &Frame, sections: &Sections, k: usize, costs: &[u32], back: &mut Back) -> Kept {
    let mut rows: Rows = [[NO_PATH; 1024]; 2];
    let mut block = Block {
        prices: [[0; 4]; 8],
        ahead: [[0; 1024]; 9],
    };
    let (mut kept, start) = (Kept::NONE, frame.start as usize);
    kept.admit::<A>(k, item(A::get(costs, start) as u64, coded(0, start, 0)));
    for b in 0..frame.indices.len() {
        let section = section_of(frame, sections, b);
        for t in 0..section.n {
            block.prices[t] = heard::<A>(frame, b).prices(section.n, t);
        }
        put_goals::<A>(section, &left_behind(frame, costs, b), &mut rows);
        block.sweep::<A>(section, &mut rows);
        through::<A>(&block, section, k, &mut kept, &mut back[b]);
    }
    kept
}

/// The words of the path that ends in a slot, from the last block to the first.
fn read<A: Access>(back: &[[u32; MOST_PATHS]], mut slot: usize, labels: &mut [u16], goals: &mut [u8]) {
    for b in (0..back.len()).rev() {
        let code = A::get(&back[b], slot);
        A::put(labels, b, code as u16);
        A::put(goals, b, vertex_of(code) as u8);
        slot = slot_of(code);
    }
}

fn search<A: Access>(frame: &Frame, paths: usize, room: ListRoom, sections: &Sections) -> DecodedList {
    let blocks = frame.indices.len();
    let costs = &mut room.costs[..COSTS_A_BLOCK * blocks];
    let distance = fill_notes::<A>(frame, sections, costs)[frame.start as usize];
    settle::<A>(frame, sections, costs);
    if distance == NO_COST {
        return DecodedList::NoPath;
    }
    let mut back: Back = [[0; MOST_PATHS]; MOST_BLOCKS];
    let mut kept = forward::<A>(frame, sections, paths, costs, &mut back);
    let sorted = &mut kept.items[..kept.count];
    sorted.sort_by_key(|&slot| cost_of(slot));
    for (p, &slot) in sorted.iter().enumerate() {
        A::put(room.distances, p, cost_of(slot) as u32);
        let (labels, goals) = (&mut room.labels[p * blocks..], &mut room.goals[p * blocks..]);
        read::<A>(&back[..blocks], slot_of(slot as u32), labels, goals);
    }
    DecodedList::Paths(kept.count)
}

/// Refusals 13 and 10.
fn check_room(blocks: usize, paths: usize, room: &ListRoom) -> Result<(), DecodedList> {
    if !(1..=MOST_PATHS).contains(&paths) {
        return Err(DecodedList::Count(paths));
    }
    let needs = [
        (room.costs.len(), COSTS_A_BLOCK * blocks),
        (room.distances.len(), paths),
        (room.labels.len(), paths * blocks),
        (room.goals.len(), paths * blocks),
    ];
    match needs.iter().find(|(length, needed)| length < needed) {
        Some(&(_, needed)) => Err(DecodedList::Short(needed)),
        None => Ok(()),
    }
}

pub fn decode_list<A: Access>(frame: &Frame, paths: usize, room: ListRoom) -> DecodedList {
    let sections = match checked(frame) {
        Ok(sections) => sections,
        Err(Decoded::Section(index)) => return DecodedList::Section(index),
        Err(refusal) => return DecodedList::Block(refusal.values()[0]),
    };
    match check_room(frame.indices.len(), paths, &room) {
        Ok(()) => search::<A>(frame, paths, room, &sections),
        Err(refusal) => refusal,
    }
}
