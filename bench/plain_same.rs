//! Two sections compared in plain Rust by the kit's algorithm: the vertices of the one are matched with those of the other from depth 0 on, along the edges.

use super::access::Access;
use super::plain_section::Section;
use link_kit::SameSection;
use std::ops::Range;

/// Vertices of the other section plus 1, or 0 for none.
type Partners = [u16; 1024];

/// The usable section that some numbers are, with none left over.
fn whole(numbers: &[u16]) -> Option<Section<'_>> {
    Section::split(numbers).filter(|section| section.length == numbers.len() && section.is_usable())
}

pub fn same_section<A: Access>(a: &[u16], b: &[u16]) -> SameSection {
    let Some(one) = whole(a) else {
        return SameSection::Unusable(0);
    };
    let Some(other) = whole(b) else {
        return SameSection::Unusable(1);
    };
    // sizes, counts and end states
    let front = a.len() - 3 * one.symbols.len();
    let is_same = match one.n {
        1 => a == b,
        _ => b.starts_with(&a[..front]) && is_carried::<A>(&one, &other),
    };
    if is_same {
        SameSection::Same
    } else {
        SameSection::Different
    }
}

/// Whether each vertex has just one partner, from depth 0 on, so that edges go to edges. Both sections have the same counts and end states, so all vertices
/// and edges of the other are met.
fn is_carried<A: Access>(a: &Section, b: &Section) -> bool {
    let mut partners: Partners = [0; 1024];
    for v in 0..a.vertices[0] {
        partners[v as usize] = v + 1;
    }
    let mut lo = 0;
    for &count in &a.edges[..a.n - 1] {
        let edges = lo..lo + count as usize;
        lo = edges.end;
        match carry::<A>(a, b, edges, &partners) {
            Some(next) => partners = next,
            None => return false,
        }
    }
    is_last_carried::<A>(a, b, lo..a.symbols.len(), &partners)
}

fn edge<A: Access>(section: &Section, i: usize) -> (usize, usize, usize) {
    let at = |list: &[u16], place: usize| A::get(list, place) as usize;
    (
        at(section.pairs, 2 * i),
        at(section.symbols, i),
        at(section.pairs, 2 * i + 1),
    )
}

/// The partners of the vertices that a step leads to, if its edges go to edges and no vertex gets two.
fn carry<A: Access>(a: &Section, b: &Section, edges: Range<usize>, partners: &Partners) -> Option<Partners> {
    let mut onward = [0u16; 4096];
    for i in edges.clone() {
        let (from, symbol, to) = edge::<A>(b, i);
        A::put(&mut onward, 4 * from + symbol, to as u16 + 1);
    }
    let mut next = [0; 1024];
    for i in edges {
        let (from, symbol, to) = edge::<A>(a, i);
        let image = A::get(&onward, 4 * (A::get(partners, from) as usize - 1) + symbol);
        let before = A::get(&next, to);
        if image == 0 || before != 0 && before != image {
            return None;
        }
        A::put(&mut next, to, image);
    }
    Some(next)
}

/// Whether the edges of the last step go to edges: goals are their own partners, and one vertex at most leads to a goal by a symbol.
fn is_last_carried<A: Access>(a: &Section, b: &Section, edges: Range<usize>, partners: &Partners) -> bool {
    let mut inward = [0u16; 4096];
    for i in edges.clone() {
        let (from, symbol, to) = edge::<A>(b, i);
        A::put(&mut inward, 4 * to + symbol, from as u16 + 1);
    }
    edges.into_iter().all(|i| {
        let (from, symbol, to) = edge::<A>(a, i);
        A::get(&inward, 4 * to + symbol) == A::get(partners, from)
    })
}
