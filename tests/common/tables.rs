//! Small tables: their files, and the many that the programs run over.

use super::{MOST_STATES, Numbers};
use std::collections::BTreeSet;

/// Root, label, goal: their order is the words' order.
pub type Word = (u8, u16, u8);

#[derive(Clone, Debug)]
pub struct Table {
    pub q: u8,
    pub n: u8,
    pub states: u8,
    pub words: Vec<Word>,
}

impl Table {
    /// Document 01's table file.
    pub fn file(&self) -> Vec<u8> {
        let mut file = vec![self.q, self.n, self.states];
        file.extend((self.words.len() as u16).to_le_bytes());
        file.extend(self.words.iter().flat_map(|w| [w.0, w.2]));
        file.extend(self.words.iter().flat_map(|w| w.1.to_le_bytes()));
        file
    }

    /// W·(n+1)
    pub fn map_length(&self) -> usize {
        self.words.len() * (self.n as usize + 1)
    }
}

/// The first of q, n, S, W (0 to 3) that is outside its bounds in a file of at least 5 bytes.
pub fn size_outside(file: &[u8], count: usize) -> Option<usize> {
    let sizes = [
        (file[0] as usize, 2, 4),
        (file[1] as usize, 1, 8),
        (file[2] as usize, 1, MOST_STATES),
        (count, 1, 1024),
    ];
    sizes.iter().position(|&(x, least, most)| x < least || x > most)
}

/// The symbols of a label, the first one first.
pub fn symbols(label: u16, n: u8) -> Vec<u16> {
    (0..n).rev().map(|k| label >> (2 * k) & 3).collect()
}

/// All words of q, n, S, ascending.
pub fn all_words(q: u8, n: u8, states: u8) -> Vec<Word> {
    let good = |l: &u16| symbols(*l, n).iter().all(|&s| s < q as u16);
    let labels: Vec<u16> = (0..=(4u32.pow(n as u32) - 1) as u16).filter(good).collect();
    let mut words = Vec::new();
    for root in 0..states {
        for &label in &labels {
            words.extend((0..states).map(|goal| (root, label, goal)));
        }
    }
    words
}

/// Every table of q, n, S but the empty one.
pub fn all_tables(q: u8, n: u8, states: u8) -> impl Iterator<Item = Table> {
    let all = all_words(q, n, states);
    (1u64..1 << all.len()).map(move |chosen| {
        let taken = (0..all.len()).filter(|i| chosen >> i & 1 == 1);
        let words = taken.map(|i| all[i]).collect();
        Table { q, n, states, words }
    })
}

/// A table of q, n, S that is rectangular by its making, as each word goes through vertices drawn for it. It can be empty.
pub fn drawn(q: u8, n: u8, states: u8, numbers: &mut Numbers) -> Table {
    let width = numbers.from_to(1, 4);
    let keep = numbers.from_to(1, 4);
    let marks: Vec<usize> = (0..=n).map(|_| numbers.below(1000)).collect();
    let passes = |w: &Word| {
        let mut at = w.0 as usize % width;
        for (t, s) in symbols(w.1, n).into_iter().enumerate() {
            at = (at + s as usize * (marks[t] % width)) % width;
        }
        at == w.2 as usize % width && (w.0 as usize + w.2 as usize + marks[0]) % keep == 0
    };
    let words = all_words(q, n, states).into_iter().filter(passes).take(1024).collect();
    Table { q, n, states, words }
}

/// A table of few words taken anywhere.
pub fn scattered(q: u8, n: u8, states: u8, numbers: &mut Numbers) -> Table {
    let all = all_words(q, n, states);
    let count = numbers.from_to(1, 12);
    let places: BTreeSet<usize> = (0..count).map(|_| numbers.below(all.len())).collect();
    let words = places.into_iter().map(|i| all[i]).collect();
    Table { q, n, states, words }
}

/// A table, and the same with one word out; nothing of a table too small for that.
fn with_one_out(table: Table, numbers: &mut Numbers) -> Vec<Table> {
    if table.words.len() < 2 {
        return Vec::new();
    }
    let mut holed = table.clone();
    holed.words.remove(numbers.below(table.words.len()));
    vec![table, holed]
}

/// The small tables of each kind that the enumerator merges and the next program reads back.
pub struct Small {
    pub all: Vec<Table>,
    pub drawn: Vec<Table>,
    pub deep: Vec<Table>,
    pub scattered: Vec<Table>,
}

pub fn small_tables(numbers: &mut Numbers) -> Small {
    let sizes = [(1, 1), (2, 1), (1, 2), (2, 2)];
    let all = sizes.iter().flat_map(|&(n, states)| all_tables(2, n, states)).collect();
    let (mut wide, mut deep, mut few) = (Vec::new(), Vec::new(), Vec::new());
    for round in 0..300 {
        for q in [3, 4] {
            wide.extend(with_one_out(drawn(q, 3, 3, numbers), numbers));
            few.push(scattered(q, 3, 3, numbers));
        }
        if round % 5 == 0 {
            deep.extend(with_one_out(drawn(2, 6, 2, numbers), numbers));
        }
    }
    Small {
        all,
        drawn: wide,
        deep,
        scattered: few,
    }
}

/// One symbol between so many states: 0 leads across, and 1 back to the same state.
pub fn across(states: u8) -> Table {
    let words = (0..states).flat_map(|s| [(s, 0, states - 1 - s), (s, 1, s)]);
    Table {
        q: 2,
        n: 1,
        states,
        words: words.collect(),
    }
}

/// Tables of 1,024 words with n 8 and with 16 states, for the largest sections that merging leaves. With 16 states the last three symbols are the first
/// three, so that depth 3 has a vertex for each word.
pub fn large_tables() -> [Table; 2] {
    let mut long = all_words(2, 8, 4);
    long.retain(|w| w.0 == w.2);
    let mut wide = all_words(4, 6, 16);
    wide.retain(|w| w.1 >> 6 == w.1 % 64 && w.1 % 16 == (w.0 ^ w.2) as u16);
    [(2, 8, 4, long), (4, 6, 16, wide)].map(|(q, n, states, mut words)| {
        words.truncate(1024);
        Table { q, n, states, words }
    })
}

/// 1,024 words of q 4, n 8, S 16 with all beginnings of three symbols, each with an ending of its own: as many edges as a table can have.
pub fn sparse(numbers: &mut Numbers) -> Table {
    let mut endings: BTreeSet<(u16, u8)> = BTreeSet::new();
    while endings.len() < 1024 {
        endings.insert((numbers.below(1024) as u16, numbers.below(16) as u8));
    }
    let mut endings: Vec<(u16, u8)> = endings.into_iter().collect();
    numbers.shuffle(&mut endings);
    let word = |(i, &(rest, goal)): (usize, &(u16, u8))| ((i / 64) as u8, (i % 64) as u16 * 1024 + rest, goal);
    Table {
        q: 4,
        n: 8,
        states: 16,
        words: endings.iter().enumerate().map(word).collect(),
    }
}
