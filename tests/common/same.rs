//! Whether two sections are the same, as document 02's eighth request has it: both usable by document 01, with the same q, n, S and words.

use super::archive::Answer;
use super::sections::{Section, whole};
use std::collections::BTreeSet;

/// Words are listed where there are at most so many.
const LISTED: u64 = 1024;

/// Vertices of one depth.
type Vertices = BTreeSet<u16>;

/// What comparing two lists of numbers answers.
pub fn same_section(a: &[u16], b: &[u16]) -> Answer {
    let Some(a) = whole(a) else {
        return Answer::new(8, &[0]);
    };
    let Some(b) = whole(b) else {
        return Answer::new(8, &[1]);
    };
    Answer::new(0, &[is_same(&a, &b) as usize])
}

/// Whether two usable sections have the same q, n, S and words.
pub fn is_same(a: &Section, b: &Section) -> bool {
    let few = a.path_count().max(b.path_count()) <= LISTED;
    let same_words = if few { same_by_listing } else { same_by_beginnings };
    (a.q, a.n, a.states) == (b.q, b.n, b.states) && same_words(a, b)
}

pub fn same_by_listing(a: &Section, b: &Section) -> bool {
    a.words() == b.words()
}

/// Whether two sections of the same q, n, S have the same words, with none listed. A beginning leads to some vertices of either section, and which endings
/// it has depends on these alone, so beginnings that lead to the same vertices of both are looked at together. In the end, the goals must be the same.
pub fn same_by_beginnings(a: &Section, b: &Section) -> bool {
    let mut reached: BTreeSet<(Vertices, Vertices)> = (0..a.states)
        .map(|state| (with_state(&a.roots, state), with_state(&b.roots, state)))
        .collect();
    for t in 0..a.n as usize {
        let onward = |(x, y): &(Vertices, Vertices)| {
            let by = |symbol: u16| (after(a, t, x, symbol), after(b, t, y, symbol));
            (0..a.q).map(by).collect::<Vec<_>>()
        };
        reached = reached.iter().flat_map(onward).collect();
    }
    let states = |goals: &[u16], at: &Vertices| at.iter().map(|&v| goals[v as usize]).collect::<BTreeSet<u16>>();
    reached.iter().all(|(x, y)| states(&a.goals, x) == states(&b.goals, y))
}

/// The vertices that have a state.
fn with_state(states: &[u16], state: u16) -> Vertices {
    (0u16..)
        .zip(states)
        .filter(|&(_, &s)| s == state)
        .map(|(v, _)| v)
        .collect()
}

/// Where the edges of a step with a symbol lead from some vertices. The edges of a vertex stand together, as edges ascend.
fn after(section: &Section, t: usize, from: &Vertices, symbol: u16) -> Vertices {
    let step = &section.steps[t];
    let edges_of = |&v: &u16| {
        let first = step.partition_point(|e| (e.0, e.1) < (v, symbol));
        step[first..].iter().take_while(move |e| (e.0, e.1) == (v, symbol))
    };
    from.iter().flat_map(edges_of).map(|e| e.2).collect()
}
