//! A table file read into words, with document 01's checks 1 to 4: what the plain ways of merging begin with.

use super::access::Access;
use super::common::tables::size_outside;
use link_kit::Merged;

pub struct Words {
    pub q: u16,
    pub n: usize,
    pub states: u16,
    pub count: usize,
    pub roots: [u8; 1024],
    pub labels: [u16; 1024],
    pub goals: [u8; 1024],
}

impl Words {
    pub fn symbol<A: Access>(&self, i: usize, t: usize) -> u16 {
        A::get(&self.labels, i) >> (2 * (self.n - 1 - t)) & 3
    }

    /// Root and first t symbols.
    pub fn beginning<A: Access>(&self, i: usize, t: usize) -> (u8, u16) {
        // no shift by all 16 bits
        let front = A::get(&self.labels, i) as u32 >> (2 * (self.n - t));
        (A::get(&self.roots, i), front as u16)
    }

    /// The other symbols and the goal.
    pub fn ending<A: Access>(&self, i: usize, t: usize) -> (u16, u8) {
        let rest = (1u32 << (2 * (self.n - t))) - 1;
        (A::get(&self.labels, i) & rest as u16, A::get(&self.goals, i))
    }

    fn is_bad<A: Access>(&self, i: usize) -> bool {
        let ((root, label, goal), states) = (self.word::<A>(i), self.states as u8);
        let symbols_fit = (0..self.n).all(|t| self.symbol::<A>(i, t) < self.q);
        root >= states || goal >= states || label as u32 >> (2 * self.n) != 0 || !symbols_fit
    }

    fn word<A: Access>(&self, i: usize) -> (u8, u16, u8) {
        (A::get(&self.roots, i), A::get(&self.labels, i), A::get(&self.goals, i))
    }
}

/// The words of a file, or its refusal.
pub fn read<A: Access>(file: &[u8]) -> Result<Words, Merged> {
    if file.len() < 5 {
        return Err(Merged::Length(file.len()));
    }
    let count = u16::from_le_bytes([file[3], file[4]]) as usize;
    if file.len() != 5 + 4 * count {
        return Err(Merged::Length(file.len()));
    }
    if let Some(place) = size_outside(file, count) {
        return Err(Merged::Size(place));
    }
    let mut words = Words {
        q: file[0] as u16,
        n: file[1] as usize,
        states: file[2] as u16,
        count,
        roots: [0; 1024],
        labels: [0; 1024],
        goals: [0; 1024],
    };
    let (pairs, labels) = file[5..].split_at(2 * count);
    for (i, (pair, label)) in pairs.chunks_exact(2).zip(labels.chunks_exact(2)).enumerate() {
        (words.roots[i], words.goals[i]) = (pair[0], pair[1]);
        words.labels[i] = u16::from_le_bytes([label[0], label[1]]);
    }
    if let Some(i) = (0..count).find(|&i| words.is_bad::<A>(i)) {
        return Err(Merged::Word(i));
    }
    if let Some(i) = (1..count).find(|&i| words.word::<A>(i) <= words.word::<A>(i - 1)) {
        return Err(Merged::Order(i));
    }
    Ok(words)
}
