//! Merging the sums of rows in plain Rust by the kit's own algorithm: a parity check held by its columns, rows reduced by it, and words, vertices and edges
//! as sums of those of the reduced rows. No word is looked at but to be written.

use super::access::Access;
use link_kit::{MOST_ROWS, MOST_STATE_BITS, MergedRows};

/// As many bits as any row has.
const BITS: usize = 16;

/// Column m of a parity check belongs to bit m.
type Columns = [u16; BITS];

/// The columns of no rows: each number is its own syndrome.
fn powers() -> Columns {
    std::array::from_fn(|m| 1 << m)
}

/// At most as many numbers as a row has bits.
#[derive(Clone, Copy)]
struct Few {
    list: [u16; BITS],
    count: usize,
}

impl Few {
    /// What a rule makes of the first numbers, each with its place.
    fn of<A: Access>(count: usize, rule: impl Fn(usize) -> u16) -> Few {
        let mut list = [0; BITS];
        for place in 0..count {
            A::put(&mut list, place, rule(place));
        }
        Few { list, count }
    }

    fn all(&self) -> &[u16] {
        &self.list[..self.count]
    }
}

/// The sum of the columns at the set bits of a number.
fn syndrome<A: Access>(columns: &Columns, number: u16) -> u16 {
    let bit = |m: usize| if number >> m & 1 == 1 { A::get(columns, m) } else { 0 };
    (0..BITS).fold(0, |sum, m| sum ^ bit(m))
}

/// Takes up a row of some syndrome: it is added to the columns that have its highest bit.
fn take_up(columns: &mut Columns, syndrome: u16) {
    if syndrome != 0 {
        let highest = syndrome.ilog2();
        for column in columns.iter_mut().filter(|column| **column >> highest & 1 == 1) {
            *column ^= syndrome;
        }
    }
}

/// The parity check of rows, or the first that is a sum of earlier ones.
fn check<A: Access>(rows: &[u16]) -> Result<Columns, usize> {
    let mut columns = powers();
    for (j, &row) in rows.iter().enumerate() {
        let syndrome = syndrome::<A>(&columns, row);
        if syndrome == 0 {
            return Err(j);
        }
        take_up(&mut columns, syndrome);
    }
    Ok(columns)
}

/// Numbers reduced to as few that have the same sums, each with a highest bit that no other has, ascending.
fn reduced<A: Access>(numbers: &[u16]) -> Few {
    let mut columns = powers();
    for &number in numbers {
        let syndrome = syndrome::<A>(&columns, number);
        take_up(&mut columns, syndrome);
    }
    reduced_by::<A>(&columns)
}

/// The reduced rows of a parity check.
fn reduced_by<A: Access>(columns: &Columns) -> Few {
    let mut rows = Few::of::<A>(0, |_| 0);
    for (m, power) in powers().into_iter().enumerate() {
        let column = A::get(columns, m);
        A::put(&mut rows.list, rows.count, power ^ column);
        rows.count += (column < power) as usize;
    }
    rows
}

/// A number added to the first w of a list, written behind them.
fn double<A: Access>(list: &mut [u16], w: usize, added: u16) {
    for j in 0..w {
        let sum = added ^ A::get(list, j);
        A::put(list, w + j, sum);
    }
}

/// All sums of some numbers, at the front of a list; gives how many there are.
fn put_sums<A: Access>(numbers: &[u16], list: &mut [u16]) -> usize {
    A::put(list, 0, 0);
    let mut w = 1;
    for &number in numbers {
        double::<A>(list, w, number);
        w *= 2;
    }
    w
}

/// The vertices of all words at an inner depth with so many bits behind it; gives how many there are, as a power of 2. Words share a vertex if the syndromes
/// of their beginnings agree.
fn put_inner<A: Access>(columns: &Columns, rows: &[u16], behind: usize, map: &mut [u16]) -> usize {
    let mut seen = [0; 1024];
    A::put(map, 0, 0);
    let (mut dimension, mut w) = (0, 1);
    for &row in rows {
        let syndrome = syndrome::<A>(columns, row >> behind << behind);
        let vertex = match (0..w).find(|&j| A::get(&seen, j) == syndrome) {
            Some(j) => A::get(map, j),
            None => {
                dimension += 1;
                1 << (dimension - 1)
            }
        };
        double::<A>(map, w, vertex);
        double::<A>(&mut seen, w, syndrome);
        w *= 2;
    }
    dimension
}

/// The vertices at an outer depth where the rows have these states, the states that occur, and how many, as a power of 2.
fn put_outer<A: Access>(states: &Few, map: &mut [u16]) -> ([u16; BITS], usize) {
    let base = reduced::<A>(states.all());
    let mut occurring = [0; BITS];
    let count = put_sums::<A>(base.all(), &mut occurring);
    let rank = |state: u16| occurring[..count].iter().filter(|&&other| other < state).count() as u16;
    let ranks = Few::of::<A>(states.count, |b| rank(A::get(&states.list, b)));
    put_sums::<A>(ranks.all(), map);
    (occurring, base.count)
}

/// What is known of a section before it is written.
struct Parts {
    /// How many vertices each depth has, as a power of 2.
    dimensions: [usize; 9],
    states: [[u16; BITS]; 2],
    /// (from, symbol, to) as one number, step after step.
    edges: [u16; 8192],
    ends: [usize; 9],
}

struct Code<'a> {
    state_bits: usize,
    n: usize,
    rows: &'a [u16],
}

impl Code<'_> {
    fn words(&self) -> usize {
        1 << self.rows.len()
    }

    /// The edges that the rows take at step t, reduced: all edges of the step are their sums.
    fn step<A: Access>(&self, map: &[u16], t: usize, dimension: usize) -> Few {
        let (w, bit) = (self.words(), self.n - 1 - t + self.state_bits);
        let edge = |b: usize| {
            let vertex = |depth: usize| A::get(map, depth * w + (1 << b));
            let symbol = A::get(self.rows, b) >> bit & 1;
            ((2 * vertex(t) + symbol) << dimension) + vertex(t + 1)
        };
        reduced::<A>(Few::of::<A>(self.rows.len(), edge).all())
    }

    /// The map, and the parts of the section.
    fn put_map<A: Access>(&self, columns: &Columns, map: &mut [u16]) -> Parts {
        let (w, n, count) = (self.words(), self.n, self.rows.len());
        let mut dimensions = [0; 9];
        for t in 1..n {
            let behind = n - t + self.state_bits;
            dimensions[t] = put_inner::<A>(columns, self.rows, behind, &mut map[t * w..(t + 1) * w]);
        }
        let root = |b: usize| (A::get(self.rows, b) as u32 >> (n + self.state_bits)) as u16;
        let goal = |b: usize| A::get(self.rows, b) & ((1 << self.state_bits) - 1);
        let (roots, first) = put_outer::<A>(&Few::of::<A>(count, root), &mut map[..w]);
        let (goals, last) = put_outer::<A>(&Few::of::<A>(count, goal), &mut map[n * w..(n + 1) * w]);
        (dimensions[0], dimensions[n]) = (first, last);
        let (mut edges, mut ends) = ([0; 8192], [0; 9]);
        for t in 0..n {
            let step = self.step::<A>(map, t, dimensions[t + 1]);
            ends[t + 1] = ends[t] + put_sums::<A>(step.all(), &mut edges[ends[t]..]);
        }
        Parts {
            dimensions,
            states: [roots, goals],
            edges,
            ends,
        }
    }

    fn put_section<A: Access>(&self, parts: &Parts, section: &mut [u16]) {
        let (n, mut at) = (self.n, 0);
        let mut put = |number: u16| {
            A::put(section, at, number);
            at += 1;
        };
        [2, n as u16, 1 << self.state_bits].into_iter().for_each(&mut put);
        parts.dimensions[..=n].iter().for_each(|dimension| put(1 << dimension));
        (0..n).for_each(|t| put((parts.ends[t + 1] - parts.ends[t]) as u16));
        for (states, depth) in parts.states.iter().zip([0, n]) {
            states[..1 << parts.dimensions[depth]]
                .iter()
                .for_each(|&state| put(state));
        }
        let step = |t: usize| (&parts.edges[parts.ends[t]..parts.ends[t + 1]], parts.dimensions[t + 1]);
        for (edges, dimension) in (0..n).map(step) {
            for &edge in edges {
                put(edge >> dimension >> 1);
                put(edge & ((1 << dimension) - 1));
            }
        }
        for (edges, dimension) in (0..n).map(step) {
            edges.iter().for_each(|edge| put(edge >> dimension & 1));
        }
    }

    fn put_file<A: Access>(&self, file: &mut [u8]) {
        let (w, n, bits) = (self.words(), self.n, self.state_bits);
        let (mut words, mut labels) = ([0; 1024], [0; 1024]);
        let spread = |row: u16| (0..n).rev().fold(0, |label, t| 4 * label + (row >> (bits + t) & 1));
        put_sums::<A>(self.rows, &mut words);
        let parts = Few::of::<A>(self.rows.len(), |b| spread(A::get(self.rows, b)));
        put_sums::<A>(parts.all(), &mut labels);
        let [low, high] = (w as u16).to_le_bytes();
        file[..5].copy_from_slice(&[2, n as u8, 1 << bits, low, high]);
        for i in 0..w {
            let (word, [low, high]) = (A::get(&words, i), A::get(&labels, i).to_le_bytes());
            A::put(file, 5 + 2 * i, (word as u32 >> (n + bits)) as u8);
            A::put(file, 6 + 2 * i, (word & ((1 << bits) - 1)) as u8);
            A::put(file, 5 + 2 * w + 2 * i, low);
            A::put(file, 6 + 2 * w + 2 * i, high);
        }
    }
}

/// Checks 10, 5 and 7, and what is made.
fn build<A: Access>(
    code: &Code,
    columns: &Columns,
    file: &mut [u8],
    map: &mut [u16],
    section: &mut [u16],
) -> MergedRows {
    let (w, n) = (code.words(), code.n);
    if file.len() < 5 + 4 * w {
        return MergedRows::ShortFile(5 + 4 * w);
    }
    if map.len() < w * (n + 1) {
        return MergedRows::ShortMap(w * (n + 1));
    }
    let parts = code.put_map::<A>(columns, map);
    let ends = (1 << parts.dimensions[0]) + (1 << parts.dimensions[n]);
    let needed = 4 + 2 * n + ends + 3 * parts.ends[n];
    if section.len() < needed {
        return MergedRows::ShortSection(needed);
    }
    code.put_section::<A>(&parts, section);
    code.put_file::<A>(file);
    MergedRows::Section(needed)
}

pub fn merge_rows<A: Access>(
    state_bits: usize,
    n: usize,
    rows: &[u16],
    file: &mut [u8],
    map: &mut [u16],
    section: &mut [u16],
) -> MergedRows {
    if state_bits > MOST_STATE_BITS || !(1..=8).contains(&n) || !(1..=MOST_ROWS).contains(&rows.len()) {
        return MergedRows::Rows(rows.len());
    }
    let width = 2 * state_bits + n;
    if let Some(row) = rows.iter().position(|&row| row as u32 >> width != 0) {
        return MergedRows::Rows(row);
    }
    let columns = match check::<A>(rows) {
        Ok(columns) => columns,
        Err(row) => return MergedRows::Dependent(row),
    };
    let base = reduced_by::<A>(&columns);
    let code = Code {
        state_bits,
        n,
        rows: base.all(),
    };
    build::<A>(&code, &columns, file, map, section)
}
