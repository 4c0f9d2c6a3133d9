//! Sections as document 01 says them, slowly: the layout, each rule of a usable section, and the words read off the paths one by one.

use super::archive::Answer;
use super::tables::{Table, Word};
use super::{MOST_STATES, Numbers};
use std::collections::{BTreeMap, BTreeSet};

/// From, symbol, to: their order is the edges' order.
pub type Edge = (u16, u16, u16);

/// A section's numbers by their meaning. Nothing here asks that it is usable.
#[derive(Clone, Debug)]
pub struct Section {
    pub q: u16,
    pub n: u16,
    pub states: u16,
    pub vertices: Vec<u16>,
    pub roots: Vec<u16>,
    pub goals: Vec<u16>,
    pub steps: Vec<Vec<Edge>>,
}

#[derive(Clone, Copy, PartialEq, Eq, PartialOrd, Ord, Debug)]
pub enum Rule {
    Q,
    N,
    States,
    VertexCount,
    EdgeCount,
    StateBelow,
    StatesAscend,
    From,
    Symbol,
    To,
    EdgesAscend,
    Onward,
    Inward,
    ForwardTwins,
    BackwardTwins,
}

impl Section {
    /// Document 01's layout.
    pub fn numbers(&self) -> Vec<u16> {
        let mut numbers = vec![self.q, self.n, self.states];
        numbers.extend(&self.vertices);
        numbers.extend(self.steps.iter().map(|step| step.len() as u16));
        numbers.extend(self.roots.iter().chain(&self.goals));
        numbers.extend(self.steps.iter().flatten().flat_map(|e| [e.0, e.2]));
        numbers.extend(self.steps.iter().flatten().map(|e| e.1));
        numbers
    }

    /// The section at the front of the numbers and its length by its own counts; none if it is cut short.
    pub fn read(numbers: &[u16]) -> Option<(Section, usize)> {
        let n = *numbers.get(1)? as usize;
        let vertices = numbers.get(3..4 + n)?.to_vec();
        let counts: Vec<usize> = numbers.get(4 + n..4 + 2 * n)?.iter().map(|&c| c as usize).collect();
        let roots = 4 + 2 * n;
        let goals = roots + vertices[0] as usize;
        let pairs = goals + vertices[n] as usize;
        let symbols = pairs + 2 * counts.iter().sum::<usize>();
        let length = symbols + counts.iter().sum::<usize>();
        let edge = |k: usize| (numbers[pairs + 2 * k], numbers[symbols + k], numbers[pairs + 2 * k + 1]);
        if numbers.len() < length {
            return None;
        }
        let mut before = 0;
        let mut steps = Vec::new();
        for count in counts {
            steps.push((before..before + count).map(edge).collect());
            before += count;
        }
        let section = Section {
            q: numbers[0],
            n: numbers[1],
            states: numbers[2],
            vertices,
            roots: numbers[roots..goals].to_vec(),
            goals: numbers[goals..pairs].to_vec(),
            steps,
        };
        Some((section, length))
    }

    /// The rules of a usable section that this one breaks.
    pub fn broken(&self) -> BTreeSet<Rule> {
        let mut rules = vec![
            (Rule::Q, (2..=4).contains(&self.q)),
            (Rule::N, (1..=8).contains(&self.n)),
            (Rule::States, (1..=MOST_STATES).contains(&(self.states as usize))),
            (Rule::VertexCount, self.vertices.iter().all(|c| (1..=1024).contains(c))),
            (
                Rule::EdgeCount,
                self.steps.iter().all(|s| (1..=1024).contains(&s.len())),
            ),
        ];
        for states in [&self.roots, &self.goals] {
            rules.push((Rule::StateBelow, states.iter().all(|&s| s < self.states)));
            rules.push((Rule::StatesAscend, states.is_sorted_by(|a, b| a < b)));
        }
        rules.extend((0..self.steps.len()).flat_map(|t| self.step_rules(t)));
        rules
            .into_iter()
            .filter(|(_, holds)| !holds)
            .map(|(rule, _)| rule)
            .collect()
    }

    /// The rules of the step from depth t to depth t + 1, and whether each holds. Twins count where the depth that they would stand at is inner.
    fn step_rules(&self, t: usize) -> [(Rule, bool); 8] {
        let step = &self.steps[t];
        let (froms, tos) = (self.vertices[t], self.vertices[t + 1]);
        let left: BTreeSet<u16> = step.iter().map(|e| e.0).collect();
        let reached: BTreeSet<u16> = step.iter().map(|e| e.2).collect();
        let (inner_from, inner_to) = (t > 0, t + 1 < self.steps.len());
        [
            (Rule::From, step.iter().all(|e| e.0 < froms)),
            (Rule::Symbol, step.iter().all(|e| e.1 < self.q)),
            (Rule::To, step.iter().all(|e| e.2 < tos)),
            (Rule::EdgesAscend, step.is_sorted_by(|a, b| a < b)),
            (Rule::Onward, (0..froms).all(|v| left.contains(&v))),
            (Rule::Inward, (0..tos).all(|v| reached.contains(&v))),
            (
                Rule::ForwardTwins,
                !inner_to || alone(step.iter().map(|e| ((e.0, e.1), e.2))),
            ),
            (
                Rule::BackwardTwins,
                !inner_from || alone(step.iter().map(|e| ((e.2, e.1), e.0))),
            ),
        ]
    }

    /// How many paths there are. No two paths of a usable section carry the same word.
    pub fn path_count(&self) -> u64 {
        let mut counts = vec![1u64; self.vertices[0] as usize];
        for (t, step) in self.steps.iter().enumerate() {
            let mut next = vec![0; self.vertices[t + 1] as usize];
            for e in step {
                next[e.2 as usize] += counts[e.0 as usize];
            }
            counts = next;
        }
        counts.iter().sum()
    }

    /// The words of all paths, in order.
    pub fn words(&self) -> Vec<Word> {
        let roots = self.roots.iter().zip(0u16..);
        let mut paths: Vec<(u8, u16, u16)> = roots.map(|(&root, v)| (root as u8, 0, v)).collect();
        for step in &self.steps {
            let onward = |p: &(u8, u16, u16)| -> Vec<(u8, u16, u16)> {
                let edges = step.iter().filter(|e| e.0 == p.2);
                edges.map(|e| (p.0, 4 * p.1 + e.1, e.2)).collect()
            };
            paths = paths.iter().flat_map(onward).collect();
        }
        let word = |p: (u8, u16, u16)| (p.0, p.1, self.goals[p.2 as usize] as u8);
        let words: BTreeSet<Word> = paths.into_iter().map(word).collect();
        words.into_iter().collect()
    }

    /// The same section with the vertices of each inner depth in another order.
    pub fn renumbered(&self, numbers: &mut Numbers) -> Section {
        let mut drawn = |&count: &u16| {
            let mut order: Vec<u16> = (0..count).collect();
            numbers.shuffle(&mut order);
            order
        };
        let orders: Vec<Vec<u16>> = self.inner().iter().map(&mut drawn).collect();
        self.numbered(&orders)
    }

    /// The vertex counts of the inner depths.
    pub fn inner(&self) -> &[u16] {
        &self.vertices[1..self.n as usize]
    }

    /// The same section with other numbers for the vertices of each inner depth, a list of them for each.
    pub fn numbered(&self, orders: &[Vec<u16>]) -> Section {
        let mut other = self.clone();
        for (order, depth) in orders.iter().zip(1..) {
            for edge in &mut other.steps[depth - 1] {
                edge.2 = order[edge.2 as usize];
            }
            for edge in &mut other.steps[depth] {
                edge.0 = order[edge.0 as usize];
            }
        }
        other.sort();
        other
    }

    /// Puts the edges of each step into their order.
    pub fn sort(&mut self) {
        self.steps.iter_mut().for_each(|step| step.sort());
    }
}

/// Whether no key stands with two different vertices.
fn alone(pairs: impl Iterator<Item = ((u16, u16), u16)>) -> bool {
    let mut seen = BTreeMap::new();
    for (key, vertex) in pairs {
        if *seen.entry(key).or_insert(vertex) != vertex {
            return false;
        }
    }
    true
}

/// The usable section at the front of the numbers, and its length.
pub fn usable(numbers: &[u16]) -> Option<(Section, usize)> {
    Section::read(numbers).filter(|(section, _)| section.broken().is_empty())
}

/// The usable section that some numbers are, with none left over.
pub fn whole(numbers: &[u16]) -> Option<Section> {
    let (section, length) = usable(numbers)?;
    (length == numbers.len()).then_some(section)
}

/// What reading back leaves in the file's buffer, and its answer: 8, 12, 10 or success.
pub fn read_back(numbers: &[u16], file: &mut [u8]) -> Answer {
    let Some(section) = whole(numbers) else {
        return Answer::new(8, &[0]);
    };
    if section.path_count() > 1024 {
        return Answer::new(12, &[]);
    }
    let table = Table {
        q: section.q as u8,
        n: section.n as u8,
        states: section.states as u8,
        words: section.words(),
    };
    let bytes = table.file();
    if file.len() < bytes.len() {
        return Answer::new(10, &[bytes.len()]);
    }
    file[..bytes.len()].copy_from_slice(&bytes);
    Answer::new(0, &[bytes.len()])
}
