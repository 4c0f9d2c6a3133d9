//! Usable sections at the bounds: of many vertices at a depth, of as many edges as there can be, and of many millions of words.

use super::MOST_STATES;
use super::sections::{Edge, Section};
use std::cmp::Ordering;

/// A step from each vertex by four symbols to four vertices of their own.
pub fn spread(froms: u16) -> Vec<Edge> {
    (0..4 * froms).map(|v| (v / 4, v % 4, v)).collect()
}

/// A step from each four vertices to one.
pub fn gather(froms: u16) -> Vec<Edge> {
    (0..froms).map(|v| (v, v % 4, v / 4)).collect()
}

/// As many edges as the bounds allow: 256 or 1,024 vertices at depths 3 to 5, and 1,024 edges a step between depths 2 and 6.
pub fn largest(vertices: u16) -> Section {
    let counts = [16, 64, 256, vertices, vertices, vertices, 256, 64, 16];
    let symbols = 1024 / vertices;
    let edges = (0..vertices).flat_map(|v| (0..symbols).map(move |s| (v, s, (v + s) % vertices)));
    let between: Vec<Edge> = edges.collect();
    let step = |pair: &[u16]| match pair[1].cmp(&pair[0]) {
        Ordering::Greater => spread(pair[0]),
        Ordering::Equal => between.clone(),
        Ordering::Less => gather(pair[0]),
    };
    let states: Vec<u16> = (0..16).collect();
    Section {
        q: 4,
        n: 8,
        states: 16,
        vertices: counts.to_vec(),
        roots: states.clone(),
        goals: states,
        steps: counts.windows(2).map(step).collect(),
    }
}

/// Sections of q 4, one vertex at each inner depth, and as many roots, symbols of the first step and goals as given: their words multiply.
pub fn with_words(n: u16, roots: u16, first: u16, goals: u16) -> Section {
    let inner: Vec<u16> = vec![1; n as usize - 1];
    let step = |froms: u16, symbols: u16, tos: u16| {
        let edges = (0..froms).flat_map(|v| (0..symbols).flat_map(move |s| (0..tos).map(move |w| (v, s, w))));
        edges.collect::<Vec<_>>()
    };
    let between = (2..n).map(|_| step(1, 4, 1));
    let steps = std::iter::once(step(roots, first, 1))
        .chain(between)
        .chain([step(1, 4, goals)])
        .collect();
    Section {
        q: 4,
        n,
        states: MOST_STATES as u16,
        vertices: [vec![roots], inner, vec![goals]].concat(),
        roots: (0..roots).collect(),
        goals: (0..goals).collect(),
        steps,
    }
}
