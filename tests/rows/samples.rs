//! The rows of samples/, whose files are tables there. `docs/FORMATS.md` has their format.

use super::common::Differing;
use super::common::archive;
use super::common::codes::{case_9, rate_1_2_of_4};
use super::common::rows::{Generator, compiled};
use super::common::tables::Table;
use super::properties;
use link_kit::ANY_TEXT;

struct Sample {
    name: &'static str,
    rows: &'static str,
    file: &'static [u8],
    listing: &'static str,
    /// The table by the code's own rule.
    table: Table,
    /// How many vertices each depth has, and how many edges each step.
    counts: &'static [u16],
}

fn samples() -> [Sample; 2] {
    [
        Sample {
            name: "case_9",
            rows: include_str!("../../samples/case_9.rows"),
            file: include_bytes!("../../samples/case_9.table"),
            listing: include_str!("../../samples/case_9.listing"),
            table: case_9(),
            counts: &[4, 8, 8, 4, 8, 16, 8],
        },
        Sample {
            name: "rows_7_5",
            rows: include_str!("../../samples/rows_7_5.rows"),
            file: include_bytes!("../../samples/rows_7_5.table"),
            listing: include_str!("../../samples/rows_7_5.listing"),
            table: rate_1_2_of_4(4),
            counts: &[4, 8, 4, 8, 4, 8, 4, 8, 4, 8, 8, 8, 8, 8, 8, 8, 8],
        },
    ]
}

/// The first line that is no comment has state bits and n, each further one the bits of a row, with spaces anywhere.
fn read(text: &str) -> Generator {
    let code = text
        .lines()
        .map(|line| line.split('#').next().unwrap_or_default().trim());
    let lines: Vec<&str> = code.filter(|line| !line.is_empty()).collect();
    let size = |word: &str| word.parse::<usize>().expect("a size");
    let sizes: Vec<usize> = lines[0].split_whitespace().map(size).collect();
    let row = |line: &&str| u16::from_str_radix(&line.replace(' ', ""), 2).expect("a row of bits");
    let rows: Vec<u16> = lines[1..].iter().map(row).collect();
    Generator::new(sizes[0], sizes[1], &rows)
}

fn hold(differing: &mut Differing, sample: &Sample) {
    let (name, generator) = (sample.name, read(sample.rows));
    let made = generator.made();
    let lengths = made.as_ref().expect("rows that are accepted").lengths();
    let (answer, left) = compiled(&generator, lengths);
    differing.compare(&0, &answer.number, || format!("{name}: {answer:?}"));
    differing.compare(&sample.file, &&left.file[..], || format!("{name}: its file"));
    differing.compare(&sample.table.file(), &left.file, || format!("{name}: its code"));
    differing.compare(&made.as_ref(), &Ok(&left), || format!("{name}: all buffers"));
    let counts = &left.section[3..3 + sample.counts.len()];
    differing.compare(&sample.counts, &counts, || format!("{name}: its counts"));
    let mut text = [0; ANY_TEXT];
    let length = archive::listing(&left.file, &mut text).value();
    differing.compare(&sample.listing.as_bytes(), &&text[..length], || {
        format!("{name}: its listing")
    });
    properties::hold(differing, &generator, &left);
    println!(
        "{name}: {} rows of {} bits, {} words, a section of {} numbers",
        generator.rows.len(),
        generator.width(),
        sample.table.words.len(),
        left.section.len()
    );
}

pub fn run(differing: &mut Differing) {
    samples().iter().for_each(|sample| hold(differing, sample));
}
