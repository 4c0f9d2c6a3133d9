//! A section's parts in plain Rust, and whether it is usable by document 01's conditions: what decoding begins with.

use link_kit::MOST_STATES;

const NO_VERTEX: u16 = u16::MAX;

/// The parts of a section at the front of some numbers.
#[derive(Clone, Copy)]
pub struct Section<'a> {
    pub q: u16,
    pub n: usize,
    states: u16,
    pub vertices: &'a [u16],
    pub edges: &'a [u16],
    pub roots: &'a [u16],
    pub goals: &'a [u16],
    pub pairs: &'a [u16],
    pub symbols: &'a [u16],
    pub length: usize,
}

fn within(numbers: &[u16], least: u16, most: u16) -> bool {
    numbers.iter().all(|x| (least..=most).contains(x))
}

impl<'a> Section<'a> {
    /// The section by its own counts, if its sizes and counts are in bounds and it is not cut short.
    pub fn split(numbers: &'a [u16]) -> Option<Section<'a>> {
        let sizes = numbers.get(..3)?;
        let n = sizes[1] as usize;
        if !within(&sizes[..1], 2, 4) || !within(&sizes[1..2], 1, 8) || !within(&sizes[2..], 1, MOST_STATES as u16) {
            return None;
        }
        let counts = numbers.get(3..4 + 2 * n).filter(|counts| within(counts, 1, 1024))?;
        let (vertices, edges) = counts.split_at(n + 1);
        let total: usize = edges.iter().map(|&count| count as usize).sum();
        let (roots, goals) = (vertices[0] as usize, vertices[n] as usize);
        let length = 4 + 2 * n + roots + goals + 3 * total;
        let rest = numbers.get(4 + 2 * n..length)?;
        let (roots, rest) = rest.split_at(roots);
        let (goals, rest) = rest.split_at(goals);
        let (pairs, symbols) = rest.split_at(2 * total);
        let (q, states) = (sizes[0], sizes[2]);
        Some(Section {
            q,
            n,
            states,
            vertices,
            edges,
            roots,
            goals,
            pairs,
            symbols,
            length,
        })
    }

    fn edge(&self, i: usize) -> (u16, u16, u16) {
        (self.pairs[2 * i], self.symbols[i], self.pairs[2 * i + 1])
    }

    pub fn is_usable(&self) -> bool {
        let rises = |states: &[u16]| within(states, 0, self.states - 1) && states.is_sorted_by(|a, b| a < b);
        let mut lo = 0;
        let mut step_right = |t: usize| {
            let hi = lo + self.edges[t] as usize;
            let right = self.is_step_right(t, lo, hi);
            lo = hi;
            right
        };
        rises(self.roots) && rises(self.goals) && (0..self.n).all(&mut step_right)
    }

    fn is_step_right(&self, t: usize, lo: usize, hi: usize) -> bool {
        let (froms, tos) = (self.vertices[t], self.vertices[t + 1]);
        let (mut left, mut reached) = ([false; 1024], [false; 1024]);
        let (mut onward, mut inward) = ([NO_VERTEX; 4096], [NO_VERTEX; 4096]);
        let mut before = None;
        for i in lo..hi {
            let (from, symbol, to) = self.edge(i);
            if from >= froms || to >= tos || symbol >= self.q || before >= Some((from, symbol, to)) {
                return false;
            }
            before = Some((from, symbol, to));
            left[from as usize] = true;
            reached[to as usize] = true;
            let next = &mut onward[4 * from as usize + symbol as usize];
            let last = &mut inward[4 * to as usize + symbol as usize];
            let twins = t + 1 < self.n && *next != NO_VERTEX && *next != to;
            if twins || t > 0 && *last != NO_VERTEX && *last != from {
                return false;
            }
            (*next, *last) = (to, from);
        }
        left[..froms as usize].iter().all(|&has| has) && reached[..tos as usize].iter().all(|&has| has)
    }
}
