//! Lists of numbers that are no usable section, in the first place, in the second and in both: the first of them is named.

use super::Tally;
use super::common::Numbers;
use super::common::archive::Answer;
use super::common::codes::{case_3, case_9};
use super::common::merging::section_of;
use super::common::tables::across;

/// The section cut at every place, continued, and twice.
fn cut_and_continued(section: &[u16]) -> Vec<Vec<u16>> {
    let mut lists: Vec<Vec<u16>> = (0..section.len()).map(|length| section[..length].to_vec()).collect();
    lists.push([section, &[0]].concat());
    lists.push([section, &section[..3]].concat());
    lists.push([section, section].concat());
    lists
}

/// Each number as one of some others.
fn one_number_changed(section: &[u16]) -> Vec<Vec<u16>> {
    let with = |place: usize, number: u16| {
        let mut list = section.to_vec();
        list[place] = number;
        list
    };
    let others = [0, 1, 2, 3, 4, 5, 8, 9, 15, 16, 17, 1023, 1024, 1025, 32_768, 65_535];
    let places = 0..section.len();
    places
        .flat_map(|place| others.map(|number| with(place, number)))
        .collect()
}

pub fn run(numbers: &mut Numbers) -> Tally {
    let mut tally = Tally::default();
    let sections = [case_3(), case_9(), across(3)].map(|table| section_of(&table));
    let good = &sections[0];
    let [first, second] = [0, 1].map(|which| Answer::new(8, &[which]));
    for section in &sections {
        let lists = cut_and_continued(section);
        for list in &lists {
            tally.expect(list, good, first.clone());
            tally.expect(good, list, second.clone());
            tally.expect(list, &lists[numbers.below(lists.len())], first.clone());
        }
        for list in one_number_changed(section) {
            tally.both_ways(section, &list);
            tally.compare(&list, &lists[numbers.below(lists.len())]);
            tally.compare(&list, &list);
        }
    }
    tally
}
