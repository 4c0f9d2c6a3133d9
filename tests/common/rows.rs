//! Sections from generator rows as document 02's request 7 says them, slowly: the sums of rows as a set of lists of bits, the checks in order, and the
//! table of these sums merged by the definitions.

use super::Numbers;
use super::archive::{self, Answer, byte_pattern, pattern};
use super::merging;
use super::tables::{Table, Word};
use std::collections::BTreeSet;

/// The bounds on sizes.
pub const MOST_STATE_BITS: usize = 4;
pub const MOST_SYMBOLS: usize = 8;
pub const MOST_ROWS: usize = 10;

/// Bits of a row or of a word, the first one first.
type Bits = Vec<bool>;

/// Rows of bits, each as a number with its first bit highest. Nothing here asks that they are within any bounds.
#[derive(Clone, Debug)]
pub struct Generator {
    pub state_bits: usize,
    pub n: usize,
    pub rows: Vec<u16>,
}

/// How long the buffers are: file, map, section.
pub type Lengths = [usize; 3];

/// What the buffers hold, before a call or behind it.
#[derive(Clone, PartialEq, Debug)]
pub struct Buffers {
    pub file: Vec<u8>,
    pub map: Vec<u16>,
    pub section: Vec<u16>,
}

impl Buffers {
    pub fn new(lengths: Lengths) -> Buffers {
        Buffers {
            file: byte_pattern(lengths[0]),
            map: pattern(lengths[1]).collect(),
            section: pattern(lengths[2]).collect(),
        }
    }

    pub fn lengths(&self) -> Lengths {
        [self.file.len(), self.map.len(), self.section.len()]
    }
}

fn bits_of(row: u16, width: usize) -> Bits {
    (0..width).rev().map(|k| row >> k & 1 == 1).collect()
}

fn number_of(bits: &[bool]) -> u16 {
    bits.iter().fold(0, |number, &bit| 2 * number + bit as u16)
}

fn sum(a: &Bits, b: &Bits) -> Bits {
    a.iter().zip(b).map(|(x, y)| x != y).collect()
}

impl Generator {
    pub fn new(state_bits: usize, n: usize, rows: &[u16]) -> Generator {
        Generator {
            state_bits,
            n,
            rows: rows.to_vec(),
        }
    }

    /// How many bits a row has, where the sizes are in bounds.
    pub fn width(&self) -> usize {
        2 * self.state_bits + self.n
    }

    fn is_in_bounds(&self) -> bool {
        let bits = self.state_bits <= MOST_STATE_BITS;
        bits && (1..=MOST_SYMBOLS).contains(&self.n) && (1..=MOST_ROWS).contains(&self.rows.len())
    }

    /// All sums of the rows, or refusal 14 or 15.
    fn sums(&self) -> Result<BTreeSet<Bits>, Answer> {
        if !self.is_in_bounds() {
            return Err(Answer::new(14, &[self.rows.len()]));
        }
        if let Some(row) = self.rows.iter().position(|&row| row as usize >= 1 << self.width()) {
            return Err(Answer::new(14, &[row]));
        }
        let mut sums = BTreeSet::from([vec![false; self.width()]]);
        for (j, &row) in self.rows.iter().enumerate() {
            let bits = bits_of(row, self.width());
            if sums.contains(&bits) {
                return Err(Answer::new(15, &[j]));
            }
            let with_row: Vec<Bits> = sums.iter().map(|other| sum(other, &bits)).collect();
            sums.extend(with_row);
        }
        Ok(sums)
    }

    fn word(&self, bits: &Bits) -> Word {
        let (root, rest) = bits.split_at(self.state_bits);
        let (symbols, goal) = rest.split_at(self.n);
        let label = symbols.iter().fold(0, |label, &symbol| 4 * label + symbol as u16);
        (number_of(root) as u8, label, number_of(goal) as u8)
    }

    /// The table of the sums, or refusal 14 or 15.
    pub fn table(&self) -> Result<Table, Answer> {
        let words: BTreeSet<Word> = self.sums()?.iter().map(|bits| self.word(bits)).collect();
        Ok(Table {
            q: 2,
            n: self.n as u8,
            states: 1 << self.state_bits,
            words: words.into_iter().collect(),
        })
    }

    /// What the buffers hold at their front after success, or refusal 14 or 15.
    pub fn made(&self) -> Result<Buffers, Answer> {
        let table = self.table()?;
        let left = merging::expected(&table.file(), table.map_length(), 30_000);
        assert_eq!(left.answer.number, 0, "sums of rows are rectangular: {self:?}");
        Ok(Buffers {
            file: table.file(),
            map: left.map,
            section: left.section[..left.answer.value()].to_vec(),
        })
    }

    /// Rows of a binary linear code: words of its table, each drawn until it is no sum of those before it, until all words are sums of them.
    pub fn of(table: &Table, numbers: &mut Numbers) -> Generator {
        let (state_bits, n) = (table.states.trailing_zeros() as usize, table.n as usize);
        let count = table.words.len().trailing_zeros() as usize;
        let row = |&(root, label, goal): &Word| {
            let symbols = (0..n).rev().fold(0, |bits, t| 2 * bits + (label >> (2 * t) & 1));
            ((root as u16) << n | symbols) << state_bits | goal as u16
        };
        let words: Vec<u16> = table.words.iter().map(row).collect();
        let rows = independent(count, numbers, |numbers| words[numbers.below(words.len())]);
        Generator { state_bits, n, rows }
    }

    /// So many independent rows; there are no more than a row has bits.
    pub fn independent(state_bits: usize, n: usize, count: usize, numbers: &mut Numbers) -> Generator {
        let bound = 1 << (2 * state_bits + n);
        let rows = independent(count, numbers, |numbers| numbers.below(bound) as u16);
        Generator { state_bits, n, rows }
    }
}

/// So many rows, each drawn until it is no sum of those before it.
fn independent(count: usize, numbers: &mut Numbers, draw: impl Fn(&mut Numbers) -> u16) -> Vec<u16> {
    let (mut rows, mut sums) = (Vec::new(), BTreeSet::from([0]));
    while rows.len() < count {
        let row = draw(numbers);
        if !sums.contains(&row) {
            let with_row: Vec<u16> = sums.iter().map(|other| other ^ row).collect();
            sums.extend(with_row);
            rows.push(row);
        }
    }
    rows
}

/// What the call leaves in buffers of some lengths, and its answer, where it is known what the rows make.
pub fn expected(made: &Result<Buffers, Answer>, lengths: Lengths) -> (Answer, Buffers) {
    let mut left = Buffers::new(lengths);
    let answer = match made {
        Ok(made) => write(made, &mut left),
        Err(refusal) => refusal.clone(),
    };
    (answer, left)
}

/// Outcomes 10, 5, 7 and success.
fn write(made: &Buffers, left: &mut Buffers) -> Answer {
    let Buffers { file, map, section } = made;
    if left.file.len() < file.len() {
        return Answer::new(10, &[file.len()]);
    }
    if left.map.len() < map.len() {
        return Answer::new(5, &[map.len()]);
    }
    left.map[..map.len()].copy_from_slice(map);
    if left.section.len() < section.len() {
        return Answer::new(7, &[section.len()]);
    }
    left.section[..section.len()].copy_from_slice(section);
    left.file[..file.len()].copy_from_slice(file);
    Answer::new(0, &[section.len()])
}

/// What the compiled code leaves.
pub fn compiled(generator: &Generator, lengths: Lengths) -> (Answer, Buffers) {
    let mut left = Buffers::new(lengths);
    let Generator { state_bits, n, rows } = generator;
    let answer = archive::merge_rows(*state_bits, *n, rows, &mut left.file, &mut left.map, &mut left.section);
    (answer, left)
}
