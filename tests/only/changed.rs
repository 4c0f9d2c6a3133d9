//! Sections with something changed, renumbered, and held against what they were before.

use super::common::merging::{section_of, witness};
use super::common::sections::{Edge, Section, whole};
use super::common::tables::Table;
use super::common::{MOST_STATES, Numbers, same, shapes};
use super::{Tally, verdict};

/// A change that can be made to some sections.
type Change = fn(&Section, &mut Numbers) -> Option<Section>;

fn changed(section: &Section, change: impl FnOnce(&mut Section)) -> Option<Section> {
    let mut other = section.clone();
    change(&mut other);
    other.sort();
    Some(other)
}

/// A number below a bound and other than one; that one itself if there is no other.
fn another(than: u16, below: u16, numbers: &mut Numbers) -> u16 {
    (than + 1 + numbers.below((below as usize - 1).max(1)) as u16) % below
}

/// One edge with another from, symbol or to.
pub fn edge_moved(section: &Section, numbers: &mut Numbers) -> Option<Section> {
    let t = numbers.below(section.steps.len());
    let place = numbers.below(section.steps[t].len());
    let (froms, tos) = (section.vertices[t], section.vertices[t + 1]);
    let mut edge = section.steps[t][place];
    match numbers.below(3) {
        0 if froms > 1 => edge.0 = another(edge.0, froms, numbers),
        1 if tos > 1 => edge.2 = another(edge.2, tos, numbers),
        _ => edge.1 = another(edge.1, section.q, numbers),
    }
    changed(section, |other| other.steps[t][place] = edge)
}

/// Two edges of a step exchange where they lead to.
pub fn ends_exchanged(section: &Section, numbers: &mut Numbers) -> Option<Section> {
    let t = numbers.below(section.steps.len());
    let step = &section.steps[t];
    let i = numbers.below(step.len());
    let j = another(i as u16, step.len() as u16, numbers) as usize;
    changed(section, |other| {
        (other.steps[t][i].2, other.steps[t][j].2) = (step[j].2, step[i].2);
    })
}

fn other_states(section: &Section, _: &mut Numbers) -> Option<Section> {
    let more = (section.states as usize) < MOST_STATES;
    changed(section, |other| {
        other.states = if more { other.states + 1 } else { other.states - 1 }
    })
}

fn other_q(section: &Section, _: &mut Numbers) -> Option<Section> {
    changed(section, |other| other.q = if other.q < 4 { other.q + 1 } else { 3 })
}

/// The states with one of them replaced by one that is not among them; none if all are.
fn one_other(states: &[u16], bound: u16, numbers: &mut Numbers) -> Option<Vec<u16>> {
    let absent: Vec<u16> = (0..bound).filter(|state| !states.contains(state)).collect();
    let mut others = states.to_vec();
    others[numbers.below(states.len())] = *absent.get(numbers.below(absent.len().max(1)))?;
    others.sort();
    Some(others)
}

fn other_roots(section: &Section, numbers: &mut Numbers) -> Option<Section> {
    let roots = one_other(&section.roots, section.states, numbers)?;
    changed(section, |other| other.roots = roots)
}

fn other_goals(section: &Section, numbers: &mut Numbers) -> Option<Section> {
    let goals = one_other(&section.goals, section.states, numbers)?;
    changed(section, |other| other.goals = goals)
}

/// A step more, from each goal to itself.
fn one_step_more(section: &Section, _: &mut Numbers) -> Option<Section> {
    let goals = section.goals.len() as u16;
    changed(section, |other| {
        other.n += 1;
        other.vertices.push(goals);
        other.steps.push((0..goals).map(|v| (v, 0, v)).collect());
    })
}

/// The symbols of a step in the opposite order.
fn symbols_exchanged(section: &Section, numbers: &mut Numbers) -> Option<Section> {
    let t = numbers.below(section.steps.len());
    let exchange = |edge: &mut Edge| edge.1 = section.q - 1 - edge.1;
    changed(section, |other| other.steps[t].iter_mut().for_each(exchange))
}

/// Two vertices of a depth exchange the edges that lead to them, but not those that lead on.
fn vertices_exchanged(section: &Section, numbers: &mut Numbers) -> Option<Section> {
    let t = numbers.below(section.steps.len());
    let count = section.vertices[t + 1];
    let v = numbers.below(count as usize) as u16;
    let w = another(v, count, numbers);
    let exchange = |edge: &mut Edge| match edge.2 {
        to if to == v => edge.2 = w,
        to if to == w => edge.2 = v,
        _ => {}
    };
    changed(section, |other| other.steps[t].iter_mut().for_each(exchange))
}

fn one_edge_more(section: &Section, numbers: &mut Numbers) -> Option<Section> {
    let t = numbers.below(section.steps.len());
    let mut below = |bound: u16| numbers.below(bound as usize) as u16;
    let edge = (
        below(section.vertices[t]),
        below(section.q),
        below(section.vertices[t + 1]),
    );
    changed(section, |other| other.steps[t].push(edge))
}

fn one_edge_fewer(section: &Section, numbers: &mut Numbers) -> Option<Section> {
    let t = numbers.below(section.steps.len());
    let place = numbers.below(section.steps[t].len());
    changed(section, |other| {
        other.steps[t].remove(place);
    })
}

/// An inner vertex stands twice, with all its edges: the words are the same, but there are twins.
fn twins(section: &Section, numbers: &mut Numbers) -> Option<Section> {
    if section.n == 1 {
        return None;
    }
    let depth = numbers.from_to(1, section.n as usize - 1);
    let (v, twin) = (
        numbers.below(section.vertices[depth] as usize) as u16,
        section.vertices[depth],
    );
    changed(section, |other| {
        other.vertices[depth] += 1;
        let inward = section.steps[depth - 1].iter().filter(|e| e.2 == v);
        other.steps[depth - 1].extend(inward.map(|e| (e.0, e.1, twin)));
        let onward = section.steps[depth].iter().filter(|e| e.0 == v);
        other.steps[depth].extend(onward.map(|e| (twin, e.1, e.2)));
    })
}

/// The section of the table with one word more or fewer, if that is accepted.
fn one_other_word(section: &Section, numbers: &mut Numbers) -> Option<Section> {
    let [q, n, states] = [section.q, section.n, section.states].map(|size| size as u8);
    let words = section.words();
    let table = Table { q, n, states, words };
    let near = [shapes::one_in, shapes::one_out][numbers.below(2)](&table, numbers);
    witness(&near).is_none().then(|| whole(&section_of(&near)))?
}

const CHANGES: [(&str, Change); 12] = [
    ("another S", other_states),
    ("another q", other_q),
    ("other root states", other_roots),
    ("other goal states", other_goals),
    ("one step more", one_step_more),
    ("two edges that exchange their ends", ends_exchanged),
    ("symbols of a step exchanged", symbols_exchanged),
    ("two vertices that exchange their edges inward", vertices_exchanged),
    ("one edge more", one_edge_more),
    ("one edge fewer", one_edge_fewer),
    ("a vertex with a twin", twins),
    ("one word more or fewer", one_other_word),
];

/// One edge moved: the section is then unusable or another one.
pub fn moved(tables: &[Table], numbers: &mut Numbers) -> Tally {
    let mut tally = Tally::default();
    for table in tables {
        let own = section_of(table);
        let section = whole(&own).expect("a usable section");
        for _ in 0..6 {
            let other = edge_moved(&section, numbers).map(|other| other.renumbered(numbers));
            let answer = tally.both_ways(&own, &other.expect("an edge").numbers());
            tally.hold(false, answer == verdict(true), "one edge moved, and still the same");
        }
    }
    tally
}

/// A section held against another usable one; where the sizes are the same, both plain ways to compare the words say the same.
fn usable_too(tally: &mut Tally, section: &Section, other: &Section) {
    tally.both_ways(&section.numbers(), &other.numbers());
    if (section.q, section.n, section.states) == (other.q, other.n, other.states) {
        let listed = same::same_by_listing(section, other);
        let by_beginnings = same::same_by_beginnings(section, other);
        tally.hold(listed, by_beginnings, "words listed, and by beginnings");
    }
}

/// Each other change, to tables of many shapes.
pub fn others(numbers: &mut Numbers) -> Vec<(&'static str, Tally)> {
    let mut tallies = CHANGES.map(|(what, _)| (what, Tally::default()));
    for round in 0..900 {
        let table = [shapes::linear, shapes::product, shapes::closed][round % 3](numbers);
        if witness(&table).is_some() {
            continue;
        }
        let own = section_of(&table);
        let section = whole(&own).expect("a usable section");
        for ((_, change), (_, tally)) in CHANGES.iter().zip(&mut tallies) {
            if let Some(other) = change(&section, numbers) {
                tally.both_ways(&own, &other.numbers());
                if other.broken().is_empty() {
                    usable_too(tally, &section, &other.renumbered(numbers));
                }
            }
        }
    }
    tallies.into()
}
