//! Linear codes: random ones, and the five that the benchmark merges and decodes.

use super::Numbers;
use super::tables::{Table, Word};
use std::collections::BTreeSet;

/// How the digits of a linear code add up: modulo q, or the two bits of a digit each by itself.
#[derive(Clone, Copy, PartialEq)]
pub enum Sum {
    Modulo,
    Bits,
}

/// What a linear code is made of. A row has `ends` digits below q for the root, n symbols, and as many digits for the goal.
pub struct Code {
    pub q: u8,
    pub n: u8,
    pub ends: usize,
    pub sum: Sum,
    pub rows: Vec<Vec<u8>>,
}

impl Code {
    /// A code of random rows.
    pub fn random(q: u8, n: u8, ends: usize, sum: Sum, rows: usize, numbers: &mut Numbers) -> Code {
        let width = 2 * ends + n as usize;
        let mut row = || (0..width).map(|_| numbers.below(q as usize) as u8).collect();
        let rows = (0..rows).map(|_| row()).collect();
        Code { q, n, ends, sum, rows }
    }

    fn add(&self, a: &[u8], b: &[u8]) -> Vec<u8> {
        let digit = |(&x, &y): (&u8, &u8)| match self.sum {
            Sum::Modulo => (x + y) % self.q,
            Sum::Bits => x ^ y,
        };
        a.iter().zip(b).map(digit).collect()
    }

    /// The table of all sums of rows.
    pub fn table(&self) -> Table {
        let width = 2 * self.ends + self.n as usize;
        let times = if self.sum == Sum::Modulo { self.q } else { 2 };
        let mut sums: BTreeSet<Vec<u8>> = BTreeSet::from([vec![0; width]]);
        for row in &self.rows {
            let mut layer = sums.clone();
            for _ in 1..times {
                layer = layer.iter().map(|sum| self.add(sum, row)).collect();
                sums.extend(layer.iter().cloned());
            }
        }
        let words: BTreeSet<Word> = sums.iter().map(|sum| self.word(sum)).collect();
        Table {
            q: self.q,
            n: self.n,
            states: self.q.pow(self.ends as u32),
            words: words.into_iter().collect(),
        }
    }

    fn word(&self, sum: &[u8]) -> Word {
        let state = |digits: &[u8]| digits.iter().fold(0, |state, digit| self.q * state + digit);
        let (root, rest) = sum.split_at(self.ends);
        let (symbols, goal) = rest.split_at(self.n as usize);
        let label = symbols.iter().fold(0, |label, &symbol| 4 * label + symbol as u16);
        (state(root), label, state(goal))
    }
}

/// 1,024 words of a random linear code, of rows that are drawn until there are as many.
pub fn full_linear(q: u8, n: u8, ends: usize, sum: Sum, rows: usize, numbers: &mut Numbers) -> Table {
    loop {
        let table = Code::random(q, n, ends, sum, rows, numbers).table();
        if table.words.len() == 1024 {
            return table;
        }
    }
}

/// The symbols of a binary label, from as many bits.
fn packed(bits: usize, n: u8) -> u16 {
    (0..n).rev().fold(0, |label, k| 4 * label + (bits >> k & 1) as u16)
}

fn parity(bits: usize) -> usize {
    bits.count_ones() as usize & 1
}

/// The table of a binary encoder: for each state and input the bits that it sends and the state that it goes to.
fn encoder(n: u8, states: usize, inputs: usize, step: impl Fn(usize, usize) -> (usize, usize)) -> Table {
    let word = |state: usize, input: usize| {
        let (sent, next) = step(state, input);
        (state as u8, packed(sent, n), next as u8)
    };
    let words: BTreeSet<Word> = (0..states * inputs).map(|i| word(i / inputs, i % inputs)).collect();
    Table {
        q: 2,
        n,
        states: states as u8,
        words: words.into_iter().collect(),
    }
}

/// Case 3: two words of two symbols.
pub fn case_3() -> Table {
    Table {
        q: 2,
        n: 2,
        states: 1,
        words: vec![(0, 0b0000, 0), (0, 0b0101, 0)],
    }
}

/// Case 9: the rate 2/3 section of document 004.
pub fn case_9() -> Table {
    encoder(3, 4, 4, |root, goal| {
        let rows = [(root >> 1, 0b111), (root, 0b001), (goal >> 1, 0b101), (goal, 0b110)];
        let sent = rows.iter().fold(0, |sum, (bit, row)| sum ^ (bit & 1) * row);
        (sent, goal)
    })
}

/// The convolutional code of rate 1/2 with 16 states and generators 23 and 35 in octal.
fn rate_1_2() -> Table {
    encoder(2, 16, 2, |state, input| {
        let register = input << 4 | state;
        let sent = parity(register & 0o23) << 1 | parity(register & 0o35);
        (sent, register >> 1)
    })
}

/// The convolutional code of rate 1/2 with 4 states and generators 7 and 5 in octal, so many inputs a section.
pub fn rate_1_2_of_4(inputs: u8) -> Table {
    encoder(2 * inputs, 4, 1 << inputs, |state, input| {
        let step = |(sent, state): (usize, usize), k: u8| {
            let register = (input >> k & 1) << 2 | state;
            (
                sent << 2 | parity(register & 0o7) << 1 | parity(register & 0o5),
                register >> 1,
            )
        };
        (0..inputs).rev().fold((0, state), step)
    })
}

/// A systematic code of rate 7/8 with 8 states: seven inputs and the state's lowest bit are sent, and each input adds a column of its own to the state.
fn rate_7_8() -> Table {
    encoder(8, 8, 128, |state, input| {
        let last = state & 1;
        let added = (0..7).fold(0, |sum, k| sum ^ (input >> k & 1) * (k + 1));
        (input << 1 | last, state >> 1 ^ last << 2 ^ added)
    })
}

/// A linear code of q 4 with 16 states, whose rows were drawn once.
fn four_symbols() -> Table {
    let rows = [
        [0, 2, 2, 1, 2, 3, 0, 1, 0, 1, 2, 1],
        [1, 1, 1, 1, 3, 3, 0, 2, 3, 2, 1, 0],
        [2, 0, 0, 2, 3, 1, 1, 2, 3, 0, 3, 0],
        [1, 1, 0, 2, 3, 1, 0, 0, 2, 2, 1, 1],
        [2, 0, 2, 1, 3, 3, 3, 0, 0, 2, 2, 3],
        [1, 1, 0, 3, 0, 0, 0, 0, 0, 1, 2, 0],
        [0, 3, 1, 2, 1, 2, 2, 1, 2, 0, 0, 1],
        [2, 3, 1, 3, 0, 0, 2, 2, 3, 3, 1, 2],
        [3, 3, 3, 2, 1, 0, 1, 1, 0, 0, 0, 3],
        [1, 1, 3, 2, 2, 0, 2, 3, 2, 3, 0, 3],
    ];
    let code = Code {
        q: 4,
        n: 8,
        ends: 2,
        sum: Sum::Bits,
        rows: rows.map(Vec::from).to_vec(),
    };
    code.table()
}

/// The five codes of the benchmark by name.
pub fn benchmarked() -> [(&'static str, Table); 5] {
    [
        ("case 9", case_9()),
        ("rate 1/2, S 16, n 2", rate_1_2()),
        (
            "linear, S 16, n 8",
            full_linear(2, 8, 4, Sum::Modulo, 10, &mut Numbers::new()),
        ),
        ("q 4, S 16, n 8", four_symbols()),
        ("rate 7/8, S 8, n 8", rate_7_8()),
    ]
}
