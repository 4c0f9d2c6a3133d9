//! Time and instructions of jobs that do the same in different ways.

use std::path::Path;
use std::process::Command;
use std::time::{Duration, Instant};

pub type Job = Box<dyn FnMut()>;

/// The function whose instructions are counted: all of a job, and nothing else.
#[unsafe(no_mangle)]
#[inline(never)]
pub extern "Rust" fn measured(job: &mut Job) {
    job();
}

fn elapsed(job: &mut Job, runs: u32) -> Duration {
    let start = Instant::now();
    for _ in 0..runs {
        job();
    }
    start.elapsed()
}

/// How often to run a job for some milliseconds.
fn runs_for(job: &mut Job, time: Duration) -> u32 {
    let mut runs = 1;
    while elapsed(job, runs) < time {
        runs *= 2;
    }
    runs
}

/// Microseconds of each job's fastest turn. The jobs take turns, so that a busy machine slows all of them.
pub fn times(jobs: &mut [Job]) -> Vec<f64> {
    let runs: Vec<u32> = jobs
        .iter_mut()
        .map(|job| runs_for(job, Duration::from_millis(4)))
        .collect();
    let mut best = vec![f64::INFINITY; jobs.len()];
    for _ in 0..40 {
        for (i, job) in jobs.iter_mut().enumerate() {
            let time = elapsed(job, runs[i]).as_secs_f64() * 1e6 / runs[i] as f64;
            best[i] = best[i].min(time);
        }
    }
    best
}

/// Microseconds of the fastest of some runs of a job.
pub fn fastest(job: &mut Job, runs: usize) -> f64 {
    let times = (0..runs).map(|_| elapsed(job, 1).as_secs_f64() * 1e6);
    times.fold(f64::INFINITY, f64::min)
}

/// libc's clearing and copying in bulk is left out of what is counted: much of it is by string instructions, which callgrind counts once for each
/// byte. Neither the kit nor the plain Rust has string instructions of its own, as compilers call these functions for what is long.
const BULK: [&str; 3] = ["memset", "memcpy", "memmove"];

/// The instructions of a job, and how many more were left out.
#[derive(Clone, Copy, Default)]
pub struct Count {
    pub own: u64,
    pub bulk: u64,
}

/// Adds up the costs of functions, not of calls, in a file that callgrind wrote. Without the names of libc's functions bulk cannot be told.
fn read_count(dump: &str) -> Option<Count> {
    let (mut count, mut total, mut name, mut of_call) = (Count::default(), 0, "", false);
    for line in dump.lines() {
        if let Some(next) = line.strip_prefix("fn=") {
            name = next;
        } else if let Some(sum) = line.strip_prefix("totals: ") {
            total = sum.trim().parse().ok()?;
        } else if line.starts_with("calls=") {
            of_call = true;
        } else if line.starts_with(|first: char| first.is_ascii_digit()) {
            let cost: u64 = line.split(' ').next_back()?.parse().ok()?;
            match (
                std::mem::take(&mut of_call),
                BULK.iter().any(|bulk| name.contains(bulk)),
            ) {
                (true, _) => {}
                _ if name.starts_with("0x") => return None,
                (false, true) => count.bulk += cost,
                (false, false) => count.own += cost,
            }
        }
    }
    assert_eq!(count.own + count.bulk, total, "callgrind's file was read wrongly");
    Some(count)
}

/// The instructions of each job that this program does when started with some words, if valgrind is there to count them.
pub fn counts(words: &[String], jobs: usize) -> Option<Vec<Count>> {
    let own = std::env::current_exe().ok()?;
    let out = own.with_extension("counts");
    let ran = Command::new("valgrind")
        .args(["--tool=callgrind", "--compress-strings=no", "--compress-pos=no"])
        .args(["--toggle-collect=measured", "--dump-after=measured"])
        .arg(format!("--callgrind-out-file={}", out.display()))
        .arg(&own)
        .args(words)
        .output()
        .ok()?;
    assert!(ran.status.success(), "{}", String::from_utf8_lossy(&ran.stderr));
    let _ = std::fs::remove_file(&out);
    (1..=jobs)
        .map(|job| taken(format!("{}.{job}", out.display()).as_ref()))
        .map(|dump| read_count(&dump?))
        .collect()
}

/// What a file has, which is then removed.
fn taken(path: &Path) -> Option<String> {
    let text = std::fs::read_to_string(path).ok()?;
    std::fs::remove_file(path).ok()?;
    Some(text)
}
