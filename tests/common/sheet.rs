//! The block sheet as document 02's third request says it: the text of any bytes. And the inputs that it is made of, by their parts.

use super::archive::Answer;
use super::listing::{costs, refusal};
use super::merging::expected;
use super::sections::Section;
use super::tables::{Table, all_words};
use super::{MOST_STATES, Numbers};

/// The bounds on K and B.
pub const MOST_SECTIONS: usize = 16;
pub const MOST_BLOCKS: usize = 256;

/// One block of a sheet; its index is its place.
struct Record {
    section: u8,
    additions: usize,
    selections: usize,
}

/// The text for an input.
pub fn text_of(input: &[u8]) -> String {
    match records(input) {
        Ok(records) => lines(&records),
        Err(answer) => refusal(&answer),
    }
}

fn lines(records: &[Record]) -> String {
    let line = |(b, record): (usize, &Record)| {
        let Record {
            section,
            additions,
            selections,
        } = record;
        format!("block {b} {section} {additions} {selections}\n")
    };
    let blocks: String = records.iter().enumerate().map(line).collect();
    let additions: usize = records.iter().map(|record| record.additions).sum();
    let selections: usize = records.iter().map(|record| record.selections).sum();
    blocks + &format!("total {additions} {selections}\n")
}

/// A record for each block, or the refusal that is met first.
fn records(input: &[u8]) -> Result<Vec<Record>, Answer> {
    let byte = |place: usize| input.get(place).copied().unwrap_or(0) as usize;
    let (k, count) = (byte(0), byte(1) + 256 * byte(2));
    if !(1..=MOST_SECTIONS).contains(&k) {
        return Err(Answer::new(8, &[k]));
    }
    if !(1..=MOST_BLOCKS).contains(&count) || input.len() < 3 + count {
        return Err(Answer::new(9, &[count]));
    }
    let (indices, tables) = input[3..].split_at(count);
    if let Some(block) = indices.iter().position(|&section| section as usize >= k) {
        return Err(Answer::new(9, &[block]));
    }
    let sections = all_costs(tables, k)?;
    let record = |&section: &u8| {
        let [additions, selections] = sections[section as usize];
        Record {
            section,
            additions,
            selections,
        }
    };
    Ok(indices.iter().map(record).collect())
}

/// The costs of k tables one behind another, with nothing behind the last.
fn all_costs(tables: &[u8], k: usize) -> Result<Vec<[usize; 2]>, Answer> {
    let mut left = tables;
    let mut found = Vec::new();
    for _ in 0..k {
        let (table, behind) = left.split_at(own_length(left));
        found.push(table_costs(table)?);
        left = behind;
    }
    if left.is_empty() {
        Ok(found)
    } else {
        Err(Answer::new(8, &[k]))
    }
}

/// How many of the bytes are those of the table in front: as many as its W says, or all if they are fewer.
fn own_length(bytes: &[u8]) -> usize {
    let byte = |place: usize| bytes.get(place).copied().unwrap_or(0) as usize;
    bytes.len().min(5 + 4 * (byte(3) + 256 * byte(4)))
}

/// What decoding by a table's section costs, or the table's own refusal.
fn table_costs(file: &[u8]) -> Result<[usize; 2], Answer> {
    let left = expected(file, 9 * 1024, 30_000);
    if left.answer.number != 0 {
        return Err(left.answer);
    }
    let (section, _) = Section::read(&left.section).expect("a whole section");
    Ok(costs(&section))
}

/// An input by its parts, so that each of them can be spoiled alone.
#[derive(Clone)]
pub struct Input {
    pub k: u8,
    pub blocks: u16,
    pub indices: Vec<u8>,
    pub tables: Vec<Vec<u8>>,
    /// What stands behind the last table.
    pub behind: Vec<u8>,
    /// How many bytes there are at most.
    pub cut: usize,
}

impl Input {
    /// Blocks through some tables; K and B are as many as there are.
    pub fn over(tables: Vec<Vec<u8>>, indices: Vec<u8>) -> Input {
        Input {
            k: tables.len() as u8,
            blocks: indices.len() as u16,
            indices,
            tables,
            behind: Vec::new(),
            cut: usize::MAX,
        }
    }

    pub fn bytes(&self) -> Vec<u8> {
        let mut bytes = vec![self.k];
        bytes.extend(self.blocks.to_le_bytes());
        bytes.extend(&self.indices);
        bytes.extend(self.tables.iter().flatten());
        bytes.extend(&self.behind);
        bytes.truncate(self.cut);
        bytes
    }

    /// Where table i begins, if nothing is cut.
    pub fn place(&self, i: usize) -> usize {
        let before: usize = self.tables[..i].iter().map(Vec::len).sum();
        3 + self.indices.len() + before
    }
}

/// As many blocks as that, each section in turn from 0.
pub fn in_turn(k: usize, blocks: usize) -> Vec<u8> {
    (0..blocks).map(|b| (b % k) as u8).collect()
}

/// As many blocks as that: through any section, through a few of them, or all through one.
pub fn some_indices(k: usize, blocks: usize, numbers: &mut Numbers) -> Vec<u8> {
    let used = match numbers.below(3) {
        0 => in_turn(k, k),
        1 => (0..3).map(|_| numbers.below(k) as u8).collect(),
        _ => vec![numbers.below(k) as u8],
    };
    (0..blocks).map(|_| used[numbers.below(used.len())]).collect()
}

/// All words of q 4, n 1, S 16, which are 1,024: the largest table without an inner depth, so that merging it plainly takes little time.
pub fn one_step() -> Vec<u8> {
    let (q, n, states) = (4, 1, MOST_STATES as u8);
    let words = all_words(q, n, states);
    Table { q, n, states, words }.file()
}

/// A file as long as its W says, of zeros behind its sizes.
pub fn claiming(words: u16) -> Vec<u8> {
    let mut file = vec![2, 1, 1];
    file.extend(words.to_le_bytes());
    file.resize(5 + 4 * words as usize, 0);
    file
}
