//! The three words that refusal 6 names, in plain Rust by the kit's own algorithm: chains of the words with one ending, and a walk along two of them.

use super::access::Access;

/// The words of one depth told apart: the first word of each word's run, and the first word with its ending.
#[derive(Clone)]
pub struct Rows {
    pub starts: [u16; 1024],
    pub firsts: [u16; 1024],
}

const NONE: usize = 1024;

impl Rows {
    pub fn new() -> Rows {
        Rows {
            starts: [0; 1024],
            firsts: [0; 1024],
        }
    }

    pub fn start<A: Access>(&self, i: usize) -> usize {
        A::get(&self.starts, i) as usize
    }

    fn first<A: Access>(&self, i: usize) -> usize {
        A::get(&self.firsts, i) as usize
    }

    /// The first word of i's vertex, where the depth is rectangular.
    pub fn first_word<A: Access>(&self, i: usize) -> usize {
        self.start::<A>(self.first::<A>(i))
    }

    /// For each of w words the next one with its ending: from the last on, each is put between the first with its ending and the next after that.
    fn next<A: Access>(&self, w: usize) -> [u16; 1024] {
        let mut next = [NONE as u16; 1024];
        for i in (0..w).rev() {
            let first = self.first::<A>(i);
            let after = A::get(&next, first);
            A::put(&mut next, first, i as u16);
            A::put(&mut next, i, after);
        }
        next
    }

    /// The first word with i's ending whose run lacks the ending of j. Where the first words with these endings are of one run, and before i, there
    /// is none: with them it would be a witness that begins before i.
    fn first_lacking<A: Access>(&self, next: &[u16; 1024], i: usize, j: usize) -> Option<usize> {
        let (mut k, mut l) = (self.first::<A>(i), self.first::<A>(j));
        if k < i && self.start::<A>(k) == self.start::<A>(l) {
            return None;
        }
        while k < NONE {
            let run = self.start::<A>(k);
            while l < NONE && self.start::<A>(l) < run {
                l = A::get(next, l) as usize;
            }
            if l == NONE || self.start::<A>(l) != run {
                return Some(k);
            }
            k = A::get(next, k) as usize;
        }
        None
    }
}

/// The words of the first witness, by i, then j, then k, of a depth that is not rectangular. If the first word of a run begins no witness, another
/// word of it begins one only together with that first one, so that no other j is tried with it.
pub fn first_witness<A: Access>(rows: &Rows, w: usize) -> (usize, usize, usize) {
    let next = rows.next::<A>(w);
    for i in 0..w {
        let a = rows.start::<A>(i);
        let mut j = a;
        while j < w && rows.start::<A>(j) == a && (i == a || j == a) {
            if let Some(k) = rows.first_lacking::<A>(&next, i, j) {
                return (i, j, k);
            }
            j += 1;
        }
    }
    panic!("the depth is rectangular")
}
