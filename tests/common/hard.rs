//! Tables that are hard to refuse: families of them, each table given by a few numbers, so that a search can draw and change these and a table that
//! was hard is kept by them.

use super::codes::{Sum, full_linear};
use super::shapes::{one_in, one_out};
use super::tables::{Table, Word};
use super::{MOST_STATES, Numbers};
use std::collections::BTreeSet;

/// What each number of a family is from and to, and the table that some numbers give.
pub struct Family {
    pub name: &'static str,
    pub bounds: &'static [(usize, usize)],
    pub table: fn(&[usize]) -> Table,
}

const MOST_WORDS: usize = 1024;
const DEPTH: (usize, usize) = (1, 7);
const LAYOUT: (usize, usize) = (0, 5);

pub const FAMILIES: [Family; 8] = [
    Family {
        name: "late",
        bounds: &[(1, 4 * (MOST_STATES - 3)), (1, 1021)],
        table: |x| late(x[0], x[1]),
    },
    Family {
        name: "one more",
        bounds: &[(2, 4 * MOST_STATES), (1, 511)],
        table: |x| one_more(x[0], x[1]),
    },
    Family {
        name: "odd run",
        bounds: &[DEPTH, LAYOUT, (2, 1023), (1, 1022), (0, 2), (0, 6), (1, 1022), (0, 1)],
        table: |x| of_runs(x[0], x[1], &odd_run(&x[2..])),
    },
    Family {
        name: "windows",
        bounds: &[DEPTH, LAYOUT, (2, 1024), (1, 512), (1, 512)],
        table: |x| of_runs(x[0], x[1], &windows(&x[2..])),
    },
    Family {
        name: "parts",
        bounds: &[DEPTH, LAYOUT, (1, 64), (1, 1022), (1, 8), (0, 1)],
        table: |x| of_runs(x[0], x[1], &parts(&x[2..])),
    },
    Family {
        name: "blocks",
        bounds: &[DEPTH, LAYOUT, (1, 1021), (1, 1021), (0, 1)],
        table: |x| of_runs(x[0], x[1], &blocks(&x[2..])),
    },
    Family {
        name: "groups",
        bounds: &[DEPTH, LAYOUT, (0, 9999), (1, 64), (1, 256), (0, 1)],
        table: |x| near(&of_runs(x[0], x[1], &groups(&x[2..])), x[5], x[2]),
    },
    Family {
        name: "linear",
        bounds: &[(0, 2), (0, 9999), (0, 1)],
        table: |x| near(&linear(x[0], x[1]), x[2], x[1]),
    },
];

/// The table of a family by name.
pub fn hard(name: &str, numbers: &[usize]) -> Table {
    let family = FAMILIES.iter().find(|family| family.name == name);
    let table = family.expect("the name of a family").table;
    table(numbers)
}

fn largest(words: Vec<Word>) -> Table {
    Table {
        q: 4,
        n: 8,
        states: MOST_STATES as u8,
        words,
    }
}

/// A word of the beginning b at depth 1, four of them from each root, and the ending e.
fn with_first_symbol(b: usize, e: usize) -> Word {
    ((b / 4) as u8, (b % 4 * 16_384 + e) as u16, 0)
}

/// 1,024 words of which depth 1 refuses only the last three. Before them stand beginnings with the same `run` endings, as many as there is room for,
/// and in front of these words with endings of their own.
fn late(beginnings: usize, run: usize) -> Table {
    let beginnings = beginnings.min(1021 / run);
    let mut words: Vec<Word> = (0..1021 - beginnings * run).map(|i| (0, i as u16, 1)).collect();
    for b in 0..beginnings {
        words.extend((0..run).map(|e| with_first_symbol(4 + b, e)));
    }
    let last = MOST_STATES as u8 - 1;
    words.extend([(last - 1, 16_000, 9), (last - 1, 16_001, 9), (last, 16_000, 9)]);
    largest(words)
}

/// Beginnings with the same `run` endings, as many as there is room for, the last of them with one ending more behind these: its first word is the
/// first of a witness, its last one the second.
fn one_more(beginnings: usize, run: usize) -> Table {
    let beginnings = beginnings.min(1023 / run);
    let mut words: Vec<Word> = Vec::new();
    for b in 0..beginnings {
        words.extend((0..run).map(|e| with_first_symbol(b, e)));
    }
    words.push(with_first_symbol(beginnings - 1, run));
    largest(words)
}

/// The beginning of the run that stands `b` places before the last one, in one of three layouts: beginnings differ in their roots first; in their
/// symbols first; or the last one has another symbol before the depth than all others, so that shallower depths do not see what it shares with them.
fn beginning(depth: usize, layout: usize, b: usize) -> Option<(u8, u16)> {
    let fronts = 1 << (2 * depth);
    let (down, front) = match (layout % 3, b) {
        (0, _) => (b % MOST_STATES, b / MOST_STATES),
        (1, _) => (b / fronts, b % fronts),
        (_, 0) => (0, 3),
        _ => {
            let place = b - 1;
            (1 + place / (fronts / 4 * 3), place / 3 % (fronts / 4) * 4 + place % 3)
        }
    };
    (down < MOST_STATES && front < fronts).then(|| ((MOST_STATES - 1 - down) as u8, (fronts - 1 - front) as u16))
}

/// The ending of a number in one of two layouts: endings differ in their goals first, or in their symbols first.
fn ending(depth: usize, layout: usize, number: usize) -> (u16, u8) {
    let rests = 1 << (2 * (8 - depth));
    let (rest, goal) = if layout < 3 {
        (number / MOST_STATES, number)
    } else {
        (number, number / rests)
    };
    ((rest % rests) as u16, (goal % MOST_STATES) as u8)
}

/// The table with these runs of endings, by their numbers, at a depth; of too many runs, or words, those at the end.
fn of_runs(depth: usize, layout: usize, runs: &[Vec<usize>]) -> Table {
    let mut words: BTreeSet<Word> = BTreeSet::new();
    for (b, run) in runs.iter().rev().enumerate() {
        let Some((root, front)) = beginning(depth, layout, b) else {
            break;
        };
        let endings = run.iter().take(MOST_WORDS - words.len());
        words.extend(endings.map(|&number| {
            let (rest, goal) = ending(depth, layout, number);
            (root, front << (2 * (8 - depth)) | rest, goal)
        }));
    }
    largest(words.into_iter().collect())
}

/// Runs with the same endings and one with some endings more (in front, between, behind, far behind) or fewer (in front, in the middle, behind),
/// which stands first, in the middle or last; and, if wanted, words with endings of their own in front of all.
fn odd_run(x: &[usize]) -> Vec<Vec<usize>> {
    let [runs, length, odd_at, kind, odd, fill] = x else {
        panic!("six numbers");
    };
    let length = (*length).min(1022);
    let runs = (*runs).min(MOST_WORDS / length).max(2);
    let whole: Vec<usize> = (0..length).map(|i| 4096 + 2 * i).collect();
    let (few, middle) = ((*odd).min(length - 1), length / 2);
    let more = |numbers: Vec<usize>| numbers.into_iter().chain(whole.iter().copied()).collect();
    let uneven: BTreeSet<usize> = match kind {
        0 => more((4095 - odd..4095).collect()),
        1 => more((0..*odd).map(|i| 4097 + 2 * ((middle + i) % length)).collect()),
        2 => more((0..*odd).map(|i| 4096 + 2 * length + i).collect()),
        3 => more((0..*odd).map(|i| 65_535 - i).collect()),
        4 => whole[few..].iter().copied().collect(),
        5 => whole
            .iter()
            .copied()
            .filter(|e| !(middle..middle + few).contains(&((e - 4096) / 2)))
            .collect(),
        _ => whole[..length - few].iter().copied().collect(),
    };
    let mut all = vec![whole.clone(); runs];
    all[[0, runs / 2, runs - 1][*odd_at]] = uneven.into_iter().collect();
    let words: usize = all.iter().map(Vec::len).sum();
    let own = if *fill == 1 {
        MOST_WORDS.saturating_sub(words)
    } else {
        0
    };
    all.splice(0..0, [(0..own).map(|i| 10_000 + i).collect()]);
    all
}

/// Runs of a length of which each begins some endings behind the one before it; some runs behind one another begin alike.
fn windows(x: &[usize]) -> Vec<Vec<usize>> {
    let [length, stride, alike] = x else {
        panic!("three numbers");
    };
    let run = |r: usize| {
        let first = r / alike * stride;
        (first..first + length).collect()
    };
    (0..MOST_WORDS / length + 1).map(run).collect()
}

/// Runs that have parts of some endings, one behind the other or interleaved, and behind them runs with all these endings.
fn parts(x: &[usize]) -> Vec<Vec<usize>> {
    let [length, count, wholes, interleaved] = x else {
        panic!("four numbers");
    };
    let wholes = (*wholes).min(MOST_WORDS / length - 1).max(1);
    let count = (*count).min(MOST_WORDS / (length * (1 + wholes)));
    let part = |p: usize| -> Vec<usize> {
        let place = |i: usize| {
            if *interleaved == 1 {
                p + i * count
            } else {
                p * length + i
            }
        };
        (0..*length).map(place).collect()
    };
    let mut all: Vec<Vec<usize>> = (0..count).map(part).collect();
    all.extend(vec![(0..length * count).collect::<Vec<usize>>(); wholes]);
    all
}

/// Blocks of runs with the same endings, each block with endings of its own, and behind them three words that refute: the two endings of the last run
/// but one lie side by side, or far apart, and of these the last run has one.
fn blocks(x: &[usize]) -> Vec<Vec<usize>> {
    let [runs, length, far] = x else {
        panic!("three numbers");
    };
    let length = (*length).min(1021 / runs);
    let run = |r: usize| {
        let block = r / runs;
        (block * length..(block + 1) * length).collect()
    };
    let mut all: Vec<Vec<usize>> = (0..1021 / (runs * length) * runs).map(run).collect();
    let other = [60_001, 20_000][*far];
    all.extend([vec![60_000, other], vec![60_000]]);
    all
}

/// Groups of runs with the same drawn endings, of up to some runs and endings each.
fn groups(x: &[usize]) -> Vec<Vec<usize>> {
    let mut numbers = Numbers::seeded(x[0]);
    let (most_runs, most_endings) = (x[1], x[2]);
    let (mut all, mut words) = (Vec::new(), 0);
    let mut used: BTreeSet<usize> = BTreeSet::new();
    while words < MOST_WORDS {
        let drawn: BTreeSet<usize> = (0..numbers.from_to(1, most_endings))
            .map(|_| numbers.below(65_536))
            .filter(|&ending| used.insert(ending))
            .collect();
        let run: Vec<usize> = drawn.into_iter().collect();
        for _ in 0..numbers.from_to(1, most_runs) {
            words += run.len();
            all.push(run.clone());
        }
    }
    numbers.shuffle(&mut all);
    all
}

/// 1,024 words of a random linear code.
fn linear(kind: usize, seed: usize) -> Table {
    let (q, ends, sum, rows) = [(2, 4, Sum::Modulo, 10), (4, 2, Sum::Bits, 10), (4, 2, Sum::Modulo, 5)][kind];
    full_linear(q, 8, ends, sum, rows, &mut Numbers::seeded(seed))
}

/// The same with one word out or one word in.
fn near(table: &Table, change: usize, seed: usize) -> Table {
    let mut numbers = Numbers::seeded(seed);
    let mut near = if change == 0 {
        one_out(table, &mut numbers)
    } else {
        one_in(&one_out(table, &mut numbers), &mut numbers)
    };
    near.words.truncate(MOST_WORDS);
    near
}
