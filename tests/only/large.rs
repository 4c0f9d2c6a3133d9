//! Sections at the bounds: 1,024 vertices at a depth, as many edges as there can be, many millions of words. Each renumbered, and with a little changed.

use super::changed::{edge_moved, ends_exchanged};
use super::common::Numbers;
use super::common::sections::{Edge, Section};
use super::common::wide::{gather, largest, spread, with_words};
use super::{Tally, verdict};

/// All states of the largest S.
fn all_states() -> Vec<u16> {
    (0..16).collect()
}

/// Two vertices at each inner depth, and from each by each of the first symbols an edge to the one or the other, so that words multiply.
fn braided(symbols: u16) -> Section {
    let step = |froms: u16, tos: u16| -> Vec<Edge> {
        let edges = (0..froms).flat_map(|v| (0..symbols).flat_map(move |s| (0..tos).map(move |w| (v, s, w))));
        edges.filter(|(v, s, w)| (v + s + w) % 2 == 0).collect()
    };
    let counts = [16, 2, 2, 2, 2, 2, 2, 2, 16];
    Section {
        q: 4,
        n: 8,
        states: 16,
        vertices: counts.to_vec(),
        roots: all_states(),
        goals: all_states(),
        steps: counts.windows(2).map(|pair| step(pair[0], pair[1])).collect(),
    }
}

/// How many vertices of the next section are reached by two edges.
const DOUBLED: u16 = 24;

/// 1,024 vertices at depth 3 and 1,000 at depth 4, of which the first few are reached by two edges: the second of these can lead elsewhere.
fn tapered() -> Section {
    let between = (0..1024).map(|v| (v, v / 1000, v % 1000)).collect();
    Section {
        q: 4,
        n: 7,
        states: 16,
        vertices: vec![16, 64, 256, 1024, 1000, 250, 63, 16],
        roots: all_states(),
        goals: all_states(),
        steps: vec![
            spread(16),
            spread(64),
            spread(256),
            between,
            gather(1000),
            gather(250),
            gather(63),
        ],
    }
}

/// One of the doubled edges leads to a vertex that has no other such edge.
fn redirected(section: &Section, numbers: &mut Numbers) -> Section {
    let mut other = section.clone();
    let edge = &mut other.steps[3][1000 + numbers.below(DOUBLED as usize)];
    edge.2 = numbers.from_to(DOUBLED as usize, 999) as u16;
    other.sort();
    other
}

/// An edge of some step has a symbol that its vertices have on no other edge, so that the section stays usable; none if there is no such edge.
fn one_symbol_changed(section: &Section, numbers: &mut Numbers) -> Option<Section> {
    let free = |step: &[Edge], edge: Edge, symbol: u16| {
        let taken = |e: &Edge| e.1 == symbol && (e.0 == edge.0 || e.2 == edge.2);
        !step.iter().any(taken)
    };
    for _ in 0..40 {
        let t = numbers.below(section.steps.len());
        let place = numbers.below(section.steps[t].len());
        let (edge, symbol) = (section.steps[t][place], numbers.below(section.q as usize) as u16);
        if free(&section.steps[t], edge, symbol) {
            let mut other = section.clone();
            other.steps[t][place].1 = symbol;
            other.sort();
            return Some(other);
        }
    }
    None
}

/// Renumbered it is the same, and with an edge redirected or a symbol changed it is another one.
fn try_section(tally: &mut Tally, section: &Section, numbers: &mut Numbers) {
    let own = section.numbers();
    for _ in 0..3 {
        let answer = tally.both_ways(&own, &section.renumbered(numbers).numbers());
        tally.hold(verdict(true), answer, "a large section renumbered");
        if let Some(other) = one_symbol_changed(section, numbers) {
            let answer = tally.both_ways(&own, &other.renumbered(numbers).numbers());
            tally.hold(verdict(false), answer, "a large section with one symbol changed");
        }
        for change in [edge_moved, ends_exchanged] {
            let other = change(section, numbers).map(|other| other.renumbered(numbers));
            tally.both_ways(&own, &other.expect("an edge").numbers());
        }
    }
}

pub fn run(numbers: &mut Numbers) -> Tally {
    let mut tally = Tally::default();
    let sections = [
        largest(256),
        largest(1024),
        tapered(),
        braided(3),
        braided(4),
        with_words(8, 16, 3, 16),
        with_words(8, 16, 4, 16),
    ];
    for section in &sections {
        try_section(&mut tally, section, numbers);
    }
    for _ in 0..6 {
        let other = redirected(&tapered(), numbers).renumbered(numbers);
        let answer = tally.both_ways(&tapered().numbers(), &other.numbers());
        tally.hold(verdict(false), answer, "one of 1,024 edges redirected");
    }
    let words: Vec<u64> = sections.iter().map(Section::path_count).collect();
    println!("sections at the bounds have {words:?} words");
    tally
}
