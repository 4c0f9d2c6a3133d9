//! Table files with faults of every kind, put into the file of a good table.

use super::common::{MOST_STATES, Numbers};

/// Where the words of a file stand that has room for `count`.
struct Places {
    count: usize,
}

impl Places {
    fn root(&self, i: usize) -> usize {
        5 + 2 * i
    }

    fn label(&self, i: usize) -> usize {
        5 + 2 * self.count + 2 * i
    }

    /// The four bytes of word i: root, goal, label.
    fn bytes(&self, i: usize) -> [usize; 4] {
        [self.root(i), self.root(i) + 1, self.label(i), self.label(i) + 1]
    }
}

/// How many kinds of fault there are.
pub const KINDS: usize = 18;

/// Puts a fault of a kind into a file; what cannot be had of it leaves the file as it is.
pub fn spoil(file: &mut Vec<u8>, kind: usize, numbers: &mut Numbers) {
    match kind {
        0 => file.truncate(numbers.below(file.len() + 1)),
        1 => file.extend(vec![0; numbers.from_to(1, 5)]),
        2 => file.resize([65_535, 65_536, 70_000][numbers.below(3)], 0),
        _ if file.len() < 9 => (),
        3..=8 => spoil_size(file, kind, numbers),
        _ => spoil_word(file, kind, numbers),
    }
}

fn pick(choices: &[u8], numbers: &mut Numbers) -> u8 {
    choices[numbers.below(choices.len())]
}

fn spoil_size(file: &mut Vec<u8>, kind: usize, numbers: &mut Numbers) {
    match kind {
        3 => file[0] = pick(&[0, 1, 5, 255], numbers),
        4 => file[1] = pick(&[0, 9, 255], numbers),
        5 => file[2] = pick(&[0, MOST_STATES as u8 + 1, 64, 255], numbers),
        6 => file[3 + numbers.below(2)] = numbers.below(256) as u8,
        // no words at all
        7 => {
            file.truncate(5);
            file[3..].fill(0);
        }
        // one less of q, n or S, so that a word may fall out of its bounds
        _ => {
            let place = numbers.below(3);
            file[place] = file[place].saturating_sub(1);
        }
    }
}

fn spoil_word(file: &mut [u8], kind: usize, numbers: &mut Numbers) {
    let places = Places {
        count: (file.len() - 5) / 4,
    };
    let i = numbers.below(places.count);
    let j = numbers.below(places.count);
    let states = file[2];
    match kind {
        9 => file[places.root(i)] = pick(&[states, 255], numbers),
        10 => file[places.root(i) + 1] = pick(&[states, 255], numbers),
        11..=13 => {
            let (q, n, at) = (file[0], file[1] as usize, places.label(i));
            spoil_label(&mut file[at..at + 2], kind, q, n, numbers);
        }
        // two words exchanged
        14 => exchange(file, places.bytes(i), places.bytes(j)),
        // a word twice
        15 if i > 0 => {
            let before = places.bytes(i - 1).map(|place| file[place]);
            let here = places.bytes(i).into_iter().zip(before);
            here.for_each(|(place, byte)| file[place] = byte);
        }
        // the states of two words exchanged
        16 => file.swap(places.root(i), places.root(j)),
        17 => file.swap(places.root(i) + 1, places.root(j) + 1),
        _ => (),
    }
}

fn exchange(file: &mut [u8], ours: [usize; 4], theirs: [usize; 4]) {
    ours.into_iter().zip(theirs).for_each(|(a, b)| file.swap(a, b));
}

/// A fault in the two bytes of a label.
fn spoil_label(label: &mut [u8], kind: usize, q: u8, n: usize, numbers: &mut Numbers) {
    match kind {
        // a bit just above the label's, or at the top
        11 if n < 8 => {
            let bit = [2 * n, 15][numbers.below(2)];
            label[bit / 8] |= 1 << (bit % 8);
        }
        // a symbol that is q
        12 if q < 4 && (1..=8).contains(&n) => {
            let digit = numbers.below(n);
            let (byte, shift) = (digit / 4, 2 * (digit % 4));
            label[byte] = label[byte] & !(3 << shift) | q << shift;
        }
        // high byte first
        _ => label.swap(0, 1),
    }
}
