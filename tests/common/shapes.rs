//! Tables of many shapes: small linear codes, products of beginnings and endings, words closed under completion, and near misses of these by one word.

use super::codes::{Code, Sum};
use super::tables::{Table, Word, all_words, scattered};
use super::{MOST_STATES, Numbers};
use std::collections::{BTreeMap, BTreeSet};

/// A linear code of some small size.
pub fn linear(numbers: &mut Numbers) -> Table {
    let (q, sum, most_ends, most_rows) = [
        (2, Sum::Modulo, 4, 6),
        (3, Sum::Modulo, 2, 4),
        (4, Sum::Modulo, 2, 3),
        (4, Sum::Bits, 2, 6),
    ][numbers.below(4)];
    let n = numbers.from_to(1, 8) as u8;
    let ends = numbers.from_to(0, most_ends);
    let rows = numbers.from_to(1, most_rows);
    Code::random(q, n, ends, sum, rows, numbers).table()
}

/// Groups of beginnings and of endings at one depth, each beginning of a group with each ending of it. At other depths it may not be rectangular.
pub fn product(numbers: &mut Numbers) -> Table {
    let (q, n, states) = (
        numbers.from_to(2, 4),
        numbers.from_to(2, 8),
        numbers.from_to(1, MOST_STATES),
    );
    let depth = numbers.from_to(1, n - 1);
    let symbols =
        |count: usize, numbers: &mut Numbers| (0..count).fold(0, |label, _| 4 * label + numbers.below(q) as u16);
    let (mut begun, mut ended) = (BTreeSet::new(), BTreeSet::new());
    let mut words: BTreeSet<Word> = BTreeSet::new();
    for _ in 0..numbers.from_to(1, 4) {
        let (most_beginnings, most_endings) = (numbers.from_to(1, 6), numbers.from_to(1, 6));
        let beginnings: BTreeSet<(u8, u16)> = (0..most_beginnings)
            .map(|_| (numbers.below(states) as u8, symbols(depth, numbers)))
            .filter(|&beginning| begun.insert(beginning))
            .collect();
        let endings: BTreeSet<(u16, u8)> = (0..most_endings)
            .map(|_| (symbols(n - depth, numbers), numbers.below(states) as u8))
            .filter(|&ending| ended.insert(ending))
            .collect();
        for (root, first) in &beginnings {
            words.extend(
                endings
                    .iter()
                    .map(|(rest, goal)| (*root, first << (2 * (n - depth)) | rest, *goal)),
            );
        }
    }
    Table {
        q: q as u8,
        n: n as u8,
        states: states as u8,
        words: words.into_iter().collect(),
    }
}

/// Adds at one depth the endings of all beginnings that share one; says whether there were any to add.
fn complete_at(words: &mut BTreeSet<Word>, rest: u32) -> bool {
    let mut endings: BTreeMap<(u8, u16), BTreeSet<(u16, u8)>> = BTreeMap::new();
    for &(root, label, goal) in words.iter() {
        let ending = (label % (1 << rest), goal);
        endings.entry((root, label >> rest)).or_default().insert(ending);
    }
    let before = words.len();
    for own in endings.values() {
        for (&(root, first), other) in &endings {
            if !own.is_disjoint(other) {
                words.extend(own.iter().map(|&(last, goal)| (root, first << rest | last, goal)));
            }
        }
    }
    words.len() > before
}

/// A few words anywhere and all that these force, if that is at most 200 words.
pub fn closed(numbers: &mut Numbers) -> Table {
    loop {
        let (q, n) = [(2, 4), (2, 6), (3, 3), (3, 4), (4, 2), (4, 4)][numbers.below(6)];
        let states = numbers.from_to(1, 5) as u8;
        let mut table = scattered(q, n, states, numbers);
        let mut words: BTreeSet<Word> = table.words.iter().copied().collect();
        while words.len() <= 200 && (1..n).any(|depth| complete_at(&mut words, 2 * (n - depth) as u32)) {}
        if words.len() <= 200 {
            table.words = words.into_iter().collect();
            return table;
        }
    }
}

/// The same with one word out; a table of one word stays as it is.
pub fn one_out(table: &Table, numbers: &mut Numbers) -> Table {
    let mut near = table.clone();
    if near.words.len() > 1 {
        near.words.remove(numbers.below(table.words.len()));
    }
    near
}

/// The same with one word more, made of a root, a label and a goal that occur, with one symbol changed; as it is if these are there by chance.
pub fn one_in(table: &Table, numbers: &mut Numbers) -> Table {
    let mut near = table.clone();
    let some_word = |numbers: &mut Numbers| table.words[numbers.below(table.words.len())];
    for _ in 0..20 {
        let (root, goal) = (some_word(numbers).0, some_word(numbers).2);
        let shift = 2 * numbers.below(table.n as usize);
        let symbol = numbers.below(table.q as usize) as u16;
        let label = some_word(numbers).1 & !(3 << shift) | symbol << shift;
        if !table.words.contains(&(root, label, goal)) {
            near.words.push((root, label, goal));
            near.words.sort();
            break;
        }
    }
    near
}

/// 1,025 words, one too many.
pub fn one_too_many() -> Table {
    let words = all_words(2, 6, 5).into_iter().take(1025).collect();
    Table {
        q: 2,
        n: 6,
        states: 5,
        words,
    }
}
