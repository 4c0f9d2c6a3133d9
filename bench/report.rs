//! The figures of the benchmark: rows of a table with what each way takes, and lines that say whether an aim is met.

use super::measuring::{self, Count};
use super::ways::{NAMES, jobs};

/// One argument's line: microseconds and, where they can be counted, instructions of each way.
pub struct Row {
    pub name: String,
    pub sizes: Vec<usize>,
    pub times: Vec<f64>,
    pub counts: Option<Vec<f64>>,
    /// What was left out of the kit's count.
    pub bulk: Option<f64>,
}

/// Times of the first jobs that some words name, as many as there are ways, and the counts of all.
pub fn measure(words: &[String], ways: usize) -> (Vec<f64>, Option<Vec<Count>>) {
    let mut jobs = jobs(words);
    let times = measuring::times(&mut jobs[..ways]);
    (times, measuring::counts(words, jobs.len()))
}

impl Row {
    /// A row whose jobs are one for each way.
    pub fn new(name: String, sizes: Vec<usize>, words: &[String], ways: usize) -> Row {
        let (times, counts) = measure(words, ways);
        Row {
            name,
            sizes,
            times,
            bulk: counts.as_ref().map(|counts| counts[0].bulk as f64),
            counts: counts.map(|counts| counts.iter().map(|count| count.own as f64).collect()),
        }
    }

    /// The kit's instructions.
    pub fn kit(&self) -> Option<f64> {
        self.counts.as_ref().map(|counts| counts[0])
    }

    /// How many times as long the kit takes as another way.
    pub fn slower(&self, way: usize) -> f64 {
        self.times[0] / self.times[way]
    }

    fn print(&self) {
        let ways = self.times.len();
        print!("{:38}", self.name);
        self.sizes.iter().for_each(|size| print!("{size:>7}"));
        for way in 0..ways {
            print!("{:>10}", or_dash(self.counts.as_ref().map(|counts| counts[way]), 0));
        }
        for way in 1..ways {
            let more = self.counts.as_ref().map(|counts| counts[0] / counts[way]);
            print!("{:>11}", or_dash(more, 2));
        }
        print!("{:>9}{:>9.1}", or_dash(self.bulk, 0), self.times[0]);
        (1..ways).for_each(|way| print!("{:>11.2}", self.slower(way)));
        println!();
    }
}

fn or_dash(figure: Option<f64>, digits: usize) -> String {
    figure.map_or("-".to_string(), |figure| format!("{figure:.digits$}"))
}

pub fn print_legend() {
    println!(
        "'safe' and 'unchecked' are the kit's algorithm in plain Rust, with bounds checks in its hot loops and without;"
    );
    println!("a column with / says how many times as many instructions, or as much time, the kit takes.");
    println!(
        "Instructions are those of a call and of all that it calls, without libc's memset, memcpy and memmove, where a string"
    );
    println!("instruction would count once for each byte. What this leaves out of the kit's is under 'left out'.");
}

/// A table of rows that have the same sizes and ways.
pub fn print_rows(title: &str, sizes: &[&str], ways: usize, rows: &[Row]) {
    print!("\n{title:38}");
    sizes.iter().for_each(|size| print!("{size:>7}"));
    NAMES[..ways].iter().for_each(|name| print!("{name:>10}"));
    NAMES[1..ways]
        .iter()
        .for_each(|name| print!("{:>11}", format!("/{name}")));
    print!("{:>9}{:>9}", "left out", "kit us");
    NAMES[1..ways]
        .iter()
        .for_each(|name| print!("{:>11}", format!("/{name}")));
    println!();
    rows.iter().for_each(Row::print);
}

/// Says whether the highest of some figures is within a bound.
pub fn hold(what: &str, bound: f64, figures: impl Iterator<Item = Option<f64>>) {
    match figures.collect::<Option<Vec<f64>>>() {
        Some(figures) => {
            let highest = figures.into_iter().fold(0.0, f64::max);
            let verdict = if highest <= bound { "met" } else { "not met" };
            let digits = if bound < 1000.0 { 2 } else { 0 };
            println!("{what}: at most {highest:.digits$}, wanted {bound}: {verdict}");
        }
        None => println!("{what}: not counted, for want of valgrind or of the names of libc's functions"),
    }
}
