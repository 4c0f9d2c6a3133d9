//! Inputs of block sheets whose text is known beforehand: an input cut at every byte, with each fault and with each two at once, so that the order
//! of the checks is seen, and around the bounds. Each text is written down here as document 02 says it; the plain sheet is compared with it too.

use super::common::sheet::{Input, MOST_BLOCKS, claiming, in_turn, one_step};
use super::sheet::Tally;
use link_kit::MOST_INPUT;

/// All four labels of two binary symbols, from state 0 to state 0: marked case 1. States stand from place 5 on, labels from place 13 on.
const CASE_1: [u8; 21] = [2, 2, 1, 4, 0, 0, 0, 0, 0, 0, 0, 0, 0, 0, 0, 1, 0, 4, 0, 5, 0];
/// The labels 00 and 11: marked case 3.
const CASE_3: [u8; 13] = [2, 2, 1, 2, 0, 0, 0, 0, 0, 0, 0, 5, 0];

/// Three blocks over case 1, the same once more, and case 3.
pub fn small() -> Input {
    Input::over(vec![CASE_1.to_vec(), CASE_1.to_vec(), CASE_3.to_vec()], vec![2, 0, 1])
}

const SMALL_TEXT: &str = "block 0 2 4 1\nblock 1 0 4 2\nblock 2 1 4 2\ntotal 12 5\n";

/// The small input cut at every byte. The third table stands where a third one of 21 bytes would.
pub fn cuts(tally: &mut Tally) {
    let bytes = small().bytes();
    tally.known(&bytes, SMALL_TEXT);
    for length in 0..bytes.len() {
        let text = match length {
            0 => "refused 8 0\n".to_string(),
            1 => "refused 9 0\n".to_string(),
            2..6 => "refused 9 3\n".to_string(),
            _ => format!("refused 1 {}\n", (length - 6) % CASE_1.len()),
        };
        tally.known(&bytes[..length], &text);
    }
}

/// A fault put into the small input, and its text.
type Fault = (fn(&mut Input), &'static str);

/// Faults in the order in which they are met.
const FAULTS: [Fault; 25] = [
    (|input| input.cut = 0, "refused 8 0\n"),
    (|input| input.k = 0, "refused 8 0\n"),
    (|input| input.k = 17, "refused 8 17\n"),
    (|input| input.k = 255, "refused 8 255\n"),
    (|input| input.cut = 1, "refused 9 0\n"),
    (|input| input.blocks = 0, "refused 9 0\n"),
    (|input| input.blocks = 257, "refused 9 257\n"),
    (|input| input.blocks = 65_535, "refused 9 65535\n"),
    // two of three indices are there
    (|input| input.cut = 5, "refused 9 3\n"),
    (|input| input.indices[1] = 255, "refused 9 1\n"),
    (|input| input.indices[2] = 3, "refused 9 2\n"),
    (|input| input.cut = input.place(0), "refused 1 0\n"),
    (|input| input.cut = input.place(0) + 10, "refused 1 10\n"),
    (|input| input.tables[0][0] = 5, "refused 2 0\n"),
    (|input| input.tables[0][9] = 255, "refused 3 2\n"),
    (|input| input.tables[0][19] = 0, "refused 4 3\n"),
    // S is 2, and the last word goes to state 1
    (
        |input| (input.tables[0][2], input.tables[0][12]) = (2, 1),
        "refused 6 1 0 1 2\n",
    ),
    (|input| input.cut = input.place(2) - 1, "refused 1 20\n"),
    (|input| input.tables[1][1] = 0, "refused 2 1\n"),
    (|input| input.tables[1][8] = 9, "refused 3 1\n"),
    (|input| input.tables[1][15] = 0, "refused 4 1\n"),
    // S is 2, and the last word but one goes to state 1
    (
        |input| (input.tables[1][2], input.tables[1][10]) = (2, 1),
        "refused 6 1 1 0 3\n",
    ),
    (|input| input.tables[2][2] = 17, "refused 2 2\n"),
    (|input| input.behind = vec![0], "refused 8 3\n"),
    (|input| input.behind = vec![2; 70_000], "refused 8 3\n"),
];

/// Each fault alone and with each that is met later, which leaves the text as it is.
pub fn faults(tally: &mut Tally) {
    (0..FAULTS.len()).for_each(|first| with_later(tally, first));
}

fn with_later(tally: &mut Tally, first: usize) {
    let (fault, text) = FAULTS[first];
    for (later, _) in &FAULTS[first..] {
        let mut input = small();
        later(&mut input);
        fault(&mut input);
        tally.known(&input.bytes(), text);
    }
}

/// K, B and indices on each side of their bounds, and tables and inputs longer than any that is accepted.
pub fn bounds(tally: &mut Tally) {
    sections(tally);
    blocks(tally);
    cut_at_blocks(tally);
    (1..=16).for_each(|k| indices(tally, k));
    for words in [1025, 65_535] {
        (0..16).for_each(|before| claims(tally, words, before));
    }
    longest(tally);
}

/// As many sections as that, each of one word by one symbol, which is one edge and nothing to select, and blocks through them.
fn of_one_word(k: usize, indices: &[u8]) -> Vec<u8> {
    Input::over(vec![claiming(1); k], indices.to_vec()).bytes()
}

/// Their sheet.
fn one_word_text(indices: &[u8]) -> String {
    let line = |(b, section)| format!("block {b} {section} 1 0\n");
    let lines: String = indices.iter().enumerate().map(line).collect();
    lines + &format!("total {} 0\n", indices.len())
}

fn sections(tally: &mut Tally) {
    for (k, bad) in [(0, true), (1, false), (16, false), (17, true), (255, true)] {
        let refused = format!("refused 8 {k}\n");
        tally.known(
            &of_one_word(k, &[0]),
            if bad { &refused } else { "block 0 0 1 0\ntotal 1 0\n" },
        );
    }
}

fn blocks(tally: &mut Tally) {
    for (count, bad) in [(0, true), (1, false), (256, false), (257, true), (65_535, true)] {
        let indices = vec![0; count];
        let (refused, sheet) = (format!("refused 9 {count}\n"), one_word_text(&indices));
        tally.known(&of_one_word(1, &indices), if bad { &refused } else { &sheet });
    }
}

/// B without its high byte, which counts as 0, and without any index.
fn cut_at_blocks(tally: &mut Tally) {
    for (input, count) in [
        ([1, 1].as_slice(), 1),
        (&[1, 255], 255),
        (&[1, 0, 1], 256),
        (&[1, 1, 1], 257),
    ] {
        tally.known(input, &format!("refused 9 {count}\n"));
    }
}

/// Indices around K, at the first bad block of several and at the last block.
fn indices(tally: &mut Tally, k: u8) {
    for index in [k - 1, k, k + 1, 255] {
        let some = [vec![0; 40], vec![index; 2], vec![255; 3]].concat();
        let first_bad = if index < k { 42 } else { 40 };
        tally.known(&of_one_word(k as usize, &some), &format!("refused 9 {first_bad}\n"));
        let last = [vec![0; 255], vec![index]].concat();
        let sheet = one_word_text(&last);
        tally.known(
            &of_one_word(k as usize, &last),
            if index < k { &sheet } else { "refused 9 255\n" },
        );
    }
}

/// A table of too many words behind some others, whole with more behind it, and cut short.
fn claims(tally: &mut Tally, words: u16, before: usize) {
    let mut tables = vec![claiming(1); 16];
    tables[before] = claiming(words);
    let mut input = Input::over(tables, vec![0]);
    tally.known(&input.bytes(), "refused 2 3\n");
    for kept in [0, 1, 3, 4, 5, 6, 4 + 4 * words as usize] {
        input.cut = input.place(before) + kept;
        tally.known(&input.bytes(), &format!("refused 1 {kept}\n"));
    }
}

/// The longest input of which the last byte counts, and lengths around it; and an input with many bytes left over.
fn longest(tally: &mut Tally) {
    let tables = [vec![one_step(); 15], vec![claiming(65_535)]].concat();
    let mut input = Input::over(tables, in_turn(16, MOST_BLOCKS));
    input.behind = vec![0; 76_081];
    tally.known(&input.bytes(), "refused 2 3\n");
    for (length, text) in [
        (MOST_INPUT - 1, "refused 1 262144\n"),
        (MOST_INPUT, "refused 2 3\n"),
        (MOST_INPUT + 1, "refused 2 3\n"),
    ] {
        input.cut = length;
        tally.known(&input.bytes(), text);
    }
    let mut left_over = small();
    left_over.behind = vec![0; 1_000_000];
    tally.known(&left_over.bytes(), "refused 8 3\n");
}
