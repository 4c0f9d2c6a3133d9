//! Sections that break the rules of a usable section one at a time: each is refused with 8 and 0, and the buffer stays as it was.

use super::Tally;
use super::common::MOST_STATES;
use super::common::archive::Answer;
use super::common::sections::{Edge, Rule, Section};
use super::common::wide::{gather, spread};
use std::collections::BTreeSet;

/// Two paths side by side, all symbols 0, through n steps.
fn two_paths(n: u16) -> Section {
    Section {
        q: 2,
        n,
        states: 4,
        vertices: vec![2; n as usize + 1],
        roots: vec![0, 2],
        goals: vec![1, 3],
        steps: vec![vec![(0, 0, 0), (1, 0, 1)]; n as usize],
    }
}

/// The two paths with another vertex at a depth, and more edges.
fn with(depth: usize, vertices: u16, edges: &[(usize, Edge)]) -> Section {
    let mut section = two_paths(3);
    section.vertices[depth] += vertices;
    for &(step, edge) in edges {
        section.steps[step].push(edge);
        section.steps[step].sort();
    }
    section
}

/// 1,024 words through 1,024 vertices at two depths, with more edges and vertices between these.
fn widest(vertices: u16, edges: &[Edge]) -> Section {
    let mut between: Vec<Edge> = (0..1024).map(|v| (v, 0, v)).collect();
    between.extend(edges);
    between.sort();
    let states: Vec<u16> = (0..16).collect();
    Section {
        q: 4,
        n: 7,
        states: 16,
        vertices: vec![16, 64, 256, 1024, 1024 + vertices, 256, 64, 16],
        roots: states.clone(),
        goals: states,
        steps: vec![
            spread(16),
            spread(64),
            spread(256),
            between,
            gather(1024),
            gather(256),
            gather(64),
        ],
    }
}

fn changed(change: impl FnOnce(&mut Section)) -> Section {
    let mut section = two_paths(3);
    change(&mut section);
    section
}

/// Each section with the rules that it breaks: one, or more where one cannot be broken alone.
fn sizes_and_states() -> Vec<(Section, Vec<Rule>)> {
    vec![
        (changed(|s| s.q = 1), vec![Rule::Q]),
        (changed(|s| s.q = 5), vec![Rule::Q]),
        (two_paths(0), vec![Rule::N]),
        (two_paths(9), vec![Rule::N]),
        (changed(|s| s.states = 0), vec![Rule::States, Rule::StateBelow]),
        (changed(|s| s.states = MOST_STATES as u16 + 1), vec![Rule::States]),
        (changed(|s| s.roots = vec![0, 4]), vec![Rule::StateBelow]),
        (changed(|s| s.goals = vec![0, 4]), vec![Rule::StateBelow]),
        (changed(|s| s.roots = vec![2, 2]), vec![Rule::StatesAscend]),
        (changed(|s| s.roots = vec![3, 2]), vec![Rule::StatesAscend]),
        (changed(|s| s.goals = vec![3, 3]), vec![Rule::StatesAscend]),
        (changed(|s| s.goals = vec![3, 0]), vec![Rule::StatesAscend]),
        (
            changed(|s| {
                s.vertices[1] = 0;
                s.steps[0].clear();
                s.steps[1].clear();
            }),
            vec![Rule::VertexCount, Rule::EdgeCount, Rule::Onward, Rule::Inward],
        ),
        (
            changed(|s| s.steps[1].clear()),
            vec![Rule::EdgeCount, Rule::Onward, Rule::Inward],
        ),
        (widest(0, &[(0, 1, 0)]), vec![Rule::EdgeCount]),
        (
            widest(1, &[(0, 1, 1024)]),
            vec![Rule::VertexCount, Rule::EdgeCount, Rule::Onward],
        ),
    ]
}

fn edges() -> Vec<(Section, Vec<Rule>)> {
    vec![
        (with(0, 0, &[(0, (2, 0, 0))]), vec![Rule::From]),
        (with(0, 0, &[(2, (1, 1, 2))]), vec![Rule::To]),
        (with(0, 0, &[(0, (1, 2, 1))]), vec![Rule::Symbol]),
        (changed(|s| s.steps[1].swap(0, 1)), vec![Rule::EdgesAscend]),
        (with(0, 0, &[(1, (1, 0, 1))]), vec![Rule::EdgesAscend]),
        (
            changed(|s| s.steps[0] = vec![(0, 1, 0), (0, 0, 0), (1, 0, 1)]),
            vec![Rule::EdgesAscend],
        ),
        (
            changed(|s| s.steps[2] = vec![(0, 0, 0), (1, 0, 1), (1, 0, 0)]),
            vec![Rule::EdgesAscend, Rule::BackwardTwins],
        ),
        (with(1, 1, &[(0, (0, 1, 2))]), vec![Rule::Onward]),
        (with(1, 1, &[(1, (2, 1, 0))]), vec![Rule::Inward]),
        (
            changed(|s| {
                s.vertices[0] = 3;
                s.roots = vec![0, 2, 3];
            }),
            vec![Rule::Onward],
        ),
        (
            changed(|s| {
                s.vertices[3] = 3;
                s.goals = vec![0, 1, 3];
            }),
            vec![Rule::Inward],
        ),
        (with(1, 1, &[(0, (0, 0, 2)), (1, (2, 1, 0))]), vec![Rule::ForwardTwins]),
        (with(1, 1, &[(0, (0, 1, 2)), (1, (2, 0, 0))]), vec![Rule::BackwardTwins]),
        (with(2, 1, &[(1, (1, 0, 2)), (2, (2, 1, 0))]), vec![Rule::ForwardTwins]),
        (with(2, 1, &[(1, (1, 1, 2)), (2, (2, 0, 1))]), vec![Rule::BackwardTwins]),
    ]
}

/// Sections at the edge of a rule: two roots that lead to one vertex by one symbol and two goals reached from one vertex by one symbol are no twins, but
/// two inner vertices that lead to one goal by one symbol are; and all counts at their largest.
fn at_the_edge(tally: &mut Tally) {
    let roots = with(0, 0, &[(0, (1, 1, 0)), (0, (0, 1, 0))]);
    let goals = with(0, 0, &[(2, (0, 0, 1)), (2, (1, 0, 0))]);
    let joined = changed(|s| {
        s.steps[0] = vec![(0, 0, 0), (1, 0, 0)];
        s.steps[1] = vec![(0, 0, 0)];
        s.steps[2] = vec![(0, 0, 0), (0, 0, 1)];
        s.vertices = vec![2, 1, 1, 2];
    });
    for (section, number) in [(roots, 0), (goals, 8), (joined, 0), (widest(0, &[]), 0)] {
        let answer = tally.compare(&section.numbers(), 4200);
        tally.same(number, answer.number, "a section at the edge of a rule");
    }
}

pub fn run() -> Tally {
    let mut tally = Tally::default();
    for (section, rules) in sizes_and_states().into_iter().chain(edges()) {
        let named: BTreeSet<Rule> = rules.into_iter().collect();
        tally
            .differing
            .compare(&named, &section.broken(), || format!("{section:?}"));
        tally.expect(&section.numbers(), Answer::new(8, &[0]), &[]);
    }
    let whole = two_paths(3).numbers();
    for length in 0..whole.len() {
        tally.expect(&whole[..length], Answer::new(8, &[0]), &[]);
    }
    tally.expect(&[&whole[..], &whole].concat(), Answer::new(8, &[0]), &[]);
    at_the_edge(&mut tally);
    tally
}
