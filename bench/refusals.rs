//! Tables that the kit is slow to refuse: those that are kept, and a search for others. The search draws tables of each family by their numbers, then
//! changes the numbers of the slowest, and takes the time of the kit's refusal for how hard a table is; what it finds is counted afterwards. It ends
//! within a minute.

use super::common::Numbers;
use super::common::hard::{FAMILIES, Family, hard};
use super::common::tables::Table;
use super::measuring::{Job, fastest, times};
use super::ways::kit_merges;
use link_kit::{ANY_MAP, ANY_SECTION, Merged};
use std::time::{Duration, Instant};

/// A table by its family and the numbers of that.
pub struct Hard {
    pub family: &'static str,
    pub numbers: Vec<usize>,
}

/// The hardest that were found, for ways to search for the words of a refusal that hold each run against each other one, that hold each part of a run
/// against the whole, and that look at a word only a few times.
const KEPT: [(&str, &[usize]); 12] = [
    ("blocks", &[2, 2, 2, 510, 1]),
    ("late", &[2, 510]),
    ("late", &[20, 50]),
    ("one more", &[32, 31]),
    ("one more", &[2, 511]),
    ("odd run", &[1, 0, 2, 576, 0, 3, 44, 0]),
    ("odd run", &[1, 0, 35, 30, 2, 3, 3, 0]),
    ("windows", &[1, 0, 512, 511, 1]),
    ("windows", &[1, 0, 524, 6, 10]),
    ("windows", &[3, 1, 4, 37, 189]),
    ("parts", &[3, 2, 1, 512, 1, 0]),
    ("blocks", &[2, 0, 169, 6, 1]),
];

/// How many tables of a family are drawn, how many changed, from how many at a time, and how long that may take.
const DRAWN: usize = 500;
const CHANGED: usize = 1000;
const SLOWEST: usize = 6;
const LONGEST: Duration = Duration::from_secs(4);

/// How many of a family are counted.
const COUNTED: usize = 2;

impl Hard {
    pub fn table(&self) -> Table {
        hard(self.family, &self.numbers)
    }

    /// The words with which the benchmark counts its refusal.
    pub fn words(&self) -> Vec<String> {
        let mut words = vec!["refuse".to_string(), self.family.to_string()];
        words.extend(self.numbers.iter().map(usize::to_string));
        words
    }
}

pub fn kept() -> Vec<Hard> {
    let whole = |&(family, numbers): &(&'static str, &[usize])| Hard {
        family,
        numbers: numbers.to_vec(),
    };
    KEPT.iter().map(whole).collect()
}

/// A number within bounds, small ones as likely as large ones.
fn draw(bounds: (usize, usize), numbers: &mut Numbers) -> usize {
    let shift = numbers.below(11);
    numbers.from_to(bounds.0, bounds.0 + ((bounds.1 - bounds.0) >> shift))
}

/// The same numbers but one or two, which are drawn anew or moved a little.
fn changed(family: &Family, old: &[usize], numbers: &mut Numbers) -> Vec<usize> {
    let mut new = old.to_vec();
    for _ in 0..numbers.from_to(1, 2) {
        let place = numbers.below(new.len());
        let (low, high) = family.bounds[place];
        new[place] = if numbers.one_in(2) {
            draw((low, high), numbers)
        } else {
            let moved = new[place] + numbers.below(9);
            moved.saturating_sub(4).clamp(low, high)
        };
    }
    new
}

/// How long the kit takes to refuse a table that is not rectangular, if it is longer than some time; nothing for other tables. What seems long is
/// looked at again, since a busy machine makes any table seem so.
fn longer_than(time: f64, table: &Table) -> Option<f64> {
    let (mut map, mut section) = (vec![0; ANY_MAP], vec![0; ANY_SECTION]);
    let Merged::NotRectangular(..) = link_kit::merge(&table.file(), &mut map, &mut section) else {
        return None;
    };
    let mut job = kit_merges(table);
    let mut longer = |runs: usize| Some(fastest(&mut job, runs)).filter(|&found| found > time);
    longer(3)?;
    longer(20)
}

/// A table that was tried.
struct Tried {
    time: f64,
    numbers: Vec<usize>,
    file: Vec<u8>,
}

/// The slowest tables of a family that were found in the time for it, the slowest first.
fn search(family: &Family, numbers: &mut Numbers) -> Vec<Tried> {
    let (start, mut slowest) = (Instant::now(), Vec::<Tried>::new());
    for turn in 0..DRAWN + CHANGED {
        if start.elapsed() > LONGEST {
            break;
        }
        let tried = if turn < DRAWN || slowest.is_empty() {
            family.bounds.iter().map(|&bounds| draw(bounds, numbers)).collect()
        } else {
            changed(family, &slowest[numbers.below(slowest.len())].numbers, numbers)
        };
        let table = (family.table)(&tried);
        let (file, numbers) = (table.file(), tried);
        // many numbers can give one table
        if slowest.iter().any(|old| old.file == file) {
            continue;
        }
        let bound = slowest.get(SLOWEST - 1).map_or(0.0, |last| last.time);
        if let Some(time) = longer_than(bound, &table) {
            slowest.truncate(SLOWEST - 1);
            slowest.push(Tried { time, numbers, file });
            slowest.sort_by(|a, b| b.time.total_cmp(&a.time));
        }
    }
    slowest
}

/// The slowest of a family, by times that are taken in turns.
fn slowest_of(family: &Family, numbers: &mut Numbers) -> Vec<Hard> {
    let mut found = search(family, numbers);
    let mut jobs: Vec<Job> = found
        .iter()
        .map(|tried| kit_merges(&(family.table)(&tried.numbers)))
        .collect();
    for (tried, time) in found.iter_mut().zip(times(&mut jobs)) {
        tried.time = time;
    }
    found.sort_by(|a, b| b.time.total_cmp(&a.time));
    let hard = |tried: Tried| Hard {
        family: family.name,
        numbers: tried.numbers,
    };
    found.into_iter().take(COUNTED).map(hard).collect()
}

/// The slowest tables of each family.
pub fn found() -> Vec<Hard> {
    let mut numbers = Numbers::new();
    FAMILIES
        .iter()
        .flat_map(|family| slowest_of(family, &mut numbers))
        .collect()
}
