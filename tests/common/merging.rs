//! Merging as document 01 says it, slowly and by the definitions: the answer, the map and the section of any bytes.

use super::archive::{self, Answer, pattern};
use super::tables::{Table, Word, size_outside, symbols};
use std::collections::{BTreeMap, BTreeSet};

/// What merging leaves.
#[derive(PartialEq, Debug)]
pub struct Left {
    pub answer: Answer,
    pub map: Vec<u16>,
    pub section: Vec<u16>,
}

/// A beginning (root, first symbols) and an ending (other symbols, goal), the symbols packed.
type Cut = ((u8, u16), (u16, u8));

fn cut(word: &Word, n: u8, depth: usize) -> Cut {
    let rest = 2 * (n as usize - depth);
    ((word.0, word.1 >> rest), (word.1 % (1 << rest), word.2))
}

fn cuts_at(table: &Table, depth: usize) -> Vec<Cut> {
    table.words.iter().map(|w| cut(w, table.n, depth)).collect()
}

/// The first depth and words i, j, k that are (a,c), (a,d), (b,c) with (b,d) missing.
pub fn witness(table: &Table) -> Option<[usize; 4]> {
    for depth in 1..table.n as usize {
        let cuts = cuts_at(table, depth);
        let words: BTreeSet<Cut> = cuts.iter().copied().collect();
        for (i, word) in cuts.iter().enumerate() {
            let thirds: Vec<usize> = (0..cuts.len()).filter(|&k| cuts[k].1 == word.1).collect();
            for j in (0..cuts.len()).filter(|&j| cuts[j].0 == word.0) {
                for &k in &thirds {
                    if !words.contains(&(cuts[k].0, cuts[j].1)) {
                        return Some([depth, i, j, k]);
                    }
                }
            }
        }
    }
    None
}

/// The vertex of each word at a depth of a rectangular table.
fn vertices(table: &Table, depth: usize) -> Vec<u16> {
    let n = table.n as usize;
    if depth == 0 || depth == n {
        let state = |w: &Word| if depth == 0 { w.0 } else { w.2 };
        let occurring: BTreeSet<u8> = table.words.iter().map(state).collect();
        let numbers: BTreeMap<u8, u16> = occurring.into_iter().zip(0..).collect();
        return table.words.iter().map(|w| numbers[&state(w)]).collect();
    }
    let cuts = cuts_at(table, depth);
    let words: BTreeSet<Cut> = cuts.iter().copied().collect();
    let mut firsts: Vec<usize> = Vec::new();
    let mut found = Vec::new();
    for i in 0..cuts.len() {
        let shares = |&f: &usize| words.contains(&(cuts[i].0, cuts[f].1));
        let vertex = firsts.iter().position(shares).unwrap_or(firsts.len());
        if vertex == firsts.len() {
            firsts.push(i);
        }
        found.push(vertex as u16);
    }
    found
}

fn map_rows(table: &Table) -> Vec<Vec<u16>> {
    (0..=table.n as usize).map(|t| vertices(table, t)).collect()
}

/// The section's numbers, from the vertices of all depths.
fn section_from(table: &Table, rows: &[Vec<u16>]) -> Vec<u16> {
    let n = table.n as usize;
    let mut steps: Vec<BTreeSet<(u16, u16, u16)>> = vec![BTreeSet::new(); n];
    for (i, word) in table.words.iter().enumerate() {
        for (t, symbol) in symbols(word.1, table.n).into_iter().enumerate() {
            steps[t].insert((rows[t][i], symbol, rows[t + 1][i]));
        }
    }
    let roots: BTreeSet<u8> = table.words.iter().map(|w| w.0).collect();
    let goals: BTreeSet<u8> = table.words.iter().map(|w| w.2).collect();
    let mut numbers: Vec<u16> = [table.q, table.n, table.states].map(u16::from).to_vec();
    numbers.extend(rows.iter().map(|row| row.iter().collect::<BTreeSet<_>>().len() as u16));
    numbers.extend(steps.iter().map(|step| step.len() as u16));
    numbers.extend(roots.iter().chain(&goals).map(|&s| s as u16));
    let edges: Vec<_> = steps.into_iter().flatten().collect();
    numbers.extend(edges.iter().flat_map(|e| [e.0, e.2]));
    numbers.extend(edges.iter().map(|e| e.1));
    numbers
}

/// The section of a rectangular table.
pub fn section_of(table: &Table) -> Vec<u16> {
    section_from(table, &map_rows(table))
}

/// Outcomes 1 to 4 of any bytes, or their table.
fn read(file: &[u8]) -> Result<Table, Answer> {
    let count = if file.len() < 5 {
        0
    } else {
        file[3] as usize + 256 * file[4] as usize
    };
    if file.len() < 5 || file.len() != 5 + 4 * count {
        return Err(Answer::new(1, &[file.len()]));
    }
    if let Some(place) = size_outside(file, count) {
        return Err(Answer::new(2, &[place]));
    }
    let (q, n, states) = (file[0], file[1], file[2]);
    let label = |i: usize| file[5 + 2 * count + 2 * i] as u16 + 256 * file[6 + 2 * count + 2 * i] as u16;
    let words: Vec<Word> = (0..count)
        .map(|i| (file[5 + 2 * i], label(i), file[6 + 2 * i]))
        .collect();
    let bad = |w: &Word| {
        let outside = w.1 as u32 >= 4u32.pow(n as u32);
        w.0 >= states || w.2 >= states || outside || symbols(w.1, n).iter().any(|&s| s >= q as u16)
    };
    if let Some(index) = words.iter().position(bad) {
        return Err(Answer::new(3, &[index]));
    }
    if let Some(index) = (1..count).find(|&i| words[i] <= words[i - 1]) {
        return Err(Answer::new(4, &[index]));
    }
    Ok(Table { q, n, states, words })
}

/// What the compiled code leaves of any bytes and buffers of two lengths.
pub fn compiled(file: &[u8], map_length: usize, section_length: usize) -> Left {
    let mut map: Vec<u16> = pattern(map_length).collect();
    let mut section: Vec<u16> = pattern(section_length).collect();
    let answer = archive::merge(file, &mut map, &mut section);
    Left { answer, map, section }
}

/// What merging leaves of any bytes and buffers of two lengths.
pub fn expected(file: &[u8], map_length: usize, section_length: usize) -> Left {
    let mut map: Vec<u16> = pattern(map_length).collect();
    let mut section: Vec<u16> = pattern(section_length).collect();
    let answer = match read(file) {
        Ok(table) => expected_of(&table, &mut map, &mut section),
        Err(answer) => answer,
    };
    Left { answer, map, section }
}

/// Outcomes 5, 6, 7 and success.
fn expected_of(table: &Table, map: &mut [u16], section: &mut [u16]) -> Answer {
    let needed = table.map_length();
    if map.len() < needed {
        return Answer::new(5, &[needed]);
    }
    if let Some(words) = witness(table) {
        map[..needed].fill(0);
        return Answer::new(6, &words);
    }
    let rows = map_rows(table);
    map[..needed].copy_from_slice(&rows.concat());
    let numbers = section_from(table, &rows);
    if section.len() < numbers.len() {
        return Answer::new(7, &[numbers.len()]);
    }
    section[..numbers.len()].copy_from_slice(&numbers);
    Answer::new(0, &[numbers.len()])
}
