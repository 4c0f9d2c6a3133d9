//! Shows by running that a section is the only one with its words, document 02's eighth request: sections of accepted tables with their inner vertices
//! renumbered are usable, read back to the same table, and `link_same_section` finds them the same, and of all ways to match vertices just one carries edges
//! to edges; sections with other words are not the same. Each answer is compared with plain code that goes by the words, written from documents 01 and 02
//! alone.

#[path = "../common/mod.rs"]
mod common;

mod changed;
mod large;
mod matchings;
mod pairs;
mod refusals;
mod renumbered;

use common::archive::{self, Answer};
use common::tables::{Table, small_tables};
use common::{Differing, Numbers, merging, same};
use std::collections::BTreeMap;

/// What was compared of one group: answers by number and first value.
#[derive(Default)]
pub struct Tally {
    pairs: usize,
    outcomes: BTreeMap<(u32, usize), usize>,
    differing: Differing,
}

impl Tally {
    /// Compares the compiled answer with one that is wanted, and both lists with what they were before.
    fn expect(&mut self, a: &[u16], b: &[u16], wanted: Answer) {
        let before = (a.to_vec(), b.to_vec());
        let given = archive::same_section(a, b);
        self.pairs += 1;
        *self.outcomes.entry((wanted.number, wanted.value())).or_default() += 1;
        let left = (a.to_vec(), b.to_vec());
        self.differing.compare(&(wanted, before), &(given, left), || {
            "comparing two sections".to_string()
        });
    }

    /// Compares with the plain answer, and gives that.
    fn compare(&mut self, a: &[u16], b: &[u16]) -> Answer {
        let wanted = same::same_section(a, b);
        self.expect(a, b, wanted.clone());
        wanted
    }

    /// The same both ways round; gives the plain answer to the first.
    fn both_ways(&mut self, a: &[u16], b: &[u16]) -> Answer {
        self.compare(b, a);
        self.compare(a, b)
    }

    fn hold<T: PartialEq + std::fmt::Debug>(&mut self, wanted: T, got: T, what: &str) {
        self.differing.compare(&wanted, &got, || what.to_string());
    }

    fn report(&self, what: &str) {
        println!("{what}: {} pairs, outcomes with values {:?}", self.pairs, self.outcomes);
    }
}

/// The answer for two usable sections.
pub fn verdict(is_same: bool) -> Answer {
    Answer::new(0, &[is_same as usize])
}

/// The small tables that merging accepts.
fn accepted(numbers: &mut Numbers) -> Vec<Table> {
    let small = small_tables(numbers);
    let mut tables = [small.all, small.drawn, small.deep, small.scattered].concat();
    tables.retain(|table| merging::witness(table).is_none());
    tables
}

fn main() {
    let mut numbers = Numbers::new();
    let small = accepted(&mut numbers);
    let mut all = Differing::default();
    let mut finish = |what: &str, tally: Tally| {
        tally.report(what);
        all.add(&tally.differing);
    };
    finish("small tables renumbered", renumbered::small(&small, &mut numbers));
    finish("codes and large tables renumbered", renumbered::codes(&mut numbers));
    finish("small tables with one another", pairs::run(&small, &mut numbers));
    finish("one edge moved", changed::moved(&small, &mut numbers));
    for (what, tally) in changed::others(&mut numbers) {
        finish(what, tally);
    }
    finish("at the bounds and of many words", large::run(&mut numbers));
    finish("refused", refusals::run(&mut numbers));
    all.finish();
}
