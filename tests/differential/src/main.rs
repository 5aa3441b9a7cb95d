//! Every call of the library under test beside the second implementation:
//! the whole answer is compared, with every byte of every buffer.
//!
//!     differential [--seed N] [--only GROUP] [--sample] [--soak SECONDS]
//!
//! A line tells of each group. `--sample` makes a small part of the cases,
//! `--soak` goes on with new seeds for so many seconds.

mod groups;
mod run;

use differential::show;
use groups::{groups, Group};
use run::Run;
use std::io::Write;
use std::process::ExitCode;
use std::sync::atomic::{AtomicBool, AtomicUsize, Ordering};
use std::sync::Mutex;
use std::time::{Duration, Instant, SystemTime, UNIX_EPOCH};

/// After so many faults nothing more is tried.
const MOST_FAULTS: usize = 5;

struct Options {
    seed: u64,
    only: Option<String>,
    sample: bool,
    soak: Option<u64>,
}

fn options() -> Option<Options> {
    let mut options = Options {
        seed: 1,
        only: None,
        sample: false,
        soak: None,
    };
    let mut words = std::env::args().skip(1);
    while let Some(word) = words.next() {
        match word.as_str() {
            "--seed" => options.seed = words.next()?.parse().ok()?,
            "--only" => options.only = Some(words.next()?),
            "--sample" => options.sample = true,
            "--soak" => options.soak = Some(words.next()?.parse().ok()?),
            _ => return None,
        }
    }
    Some(options)
}

/// What the chunks of a group came to.
#[derive(Default)]
struct Tally {
    cases: u64,
    faults: Vec<String>,
    seconds: f64,
}

/// Runs all chunks of these groups on some threads.
fn run_all(groups: &[Group], seed: u64, sample: bool, until: Option<Instant>) -> Vec<Tally> {
    let mut parts: Vec<(usize, u64)> = Vec::new();
    for (index, group) in groups.iter().enumerate() {
        let step = if sample { 8 } else { 1 };
        parts.extend((0..group.chunks).step_by(step).map(|chunk| (index, chunk)));
    }
    let next = AtomicUsize::new(0);
    let stop = AtomicBool::new(false);
    let tallies: Vec<Mutex<Tally>> = groups.iter().map(|_| Mutex::default()).collect();
    let work = || {
        let mut run = Run::new(sample);
        while let Some(&(index, chunk)) = parts.get(next.fetch_add(1, Ordering::Relaxed)) {
            let late = until.is_some_and(|end| Instant::now() >= end);
            if late || stop.load(Ordering::Relaxed) {
                break;
            }
            let group = &groups[index];
            let began = Instant::now();
            run.start(seed, group.name, chunk);
            (group.run)(&mut run);
            let mut tally = tallies[index].lock().unwrap();
            tally.cases += run.cases;
            tally.seconds += began.elapsed().as_secs_f64();
            tally.faults.append(&mut run.faults);
            if tally.faults.len() >= MOST_FAULTS {
                stop.store(true, Ordering::Relaxed);
            }
        }
    };
    let threads = std::thread::available_parallelism().map_or(1, |count| count.get().min(2));
    std::thread::scope(|scope| {
        for _ in 0..threads {
            scope.spawn(work);
        }
    });
    tallies
        .into_iter()
        .map(|tally| tally.into_inner().unwrap())
        .collect()
}

/// Prints the faults of a group, the first few in full.
fn report(name: &str, tally: &Tally) {
    for fault in tally.faults.iter().take(3) {
        println!("{fault}");
    }
    println!(
        "FAIL {name}: {} of {} cases",
        tally.faults.len(),
        tally.cases
    );
}

fn main() -> ExitCode {
    let Some(options) = options() else {
        eprintln!("usage: differential [--seed N] [--only GROUP] [--sample] [--soak SECONDS]");
        return ExitCode::from(2);
    };
    differential::crash::watch(|call, signal| {
        println!("FAIL signal {signal} in {}", show::call(call));
        let _ = std::io::stdout().flush();
    });
    let mut chosen = groups();
    if let Some(only) = &options.only {
        chosen.retain(|group| group.name == only);
    }
    match options.soak {
        _ if chosen.is_empty() => {
            eprintln!("there is no such group");
            ExitCode::from(2)
        }
        None => once(&chosen, &options),
        Some(seconds) => soak(chosen, seconds),
    }
}

/// One round over all groups.
fn once(chosen: &[Group], options: &Options) -> ExitCode {
    let began = Instant::now();
    println!("seed {}", options.seed);
    let tallies = run_all(chosen, options.seed, options.sample, None);
    let mut cases = 0;
    let mut failed = false;
    for (group, tally) in chosen.iter().zip(&tallies) {
        cases += tally.cases;
        if !tally.faults.is_empty() {
            failed = true;
            report(group.name, tally);
        } else if tally.cases > 0 {
            let (name, seconds) = (group.name, tally.seconds);
            println!("ok   {name}: {} cases, {seconds:.1} s", tally.cases);
        }
    }
    println!("{cases} cases, {:.1} s", began.elapsed().as_secs_f64());
    if failed || cases == 0 {
        ExitCode::FAILURE
    } else {
        ExitCode::SUCCESS
    }
}

/// Round after round with new seeds.
fn soak(mut chosen: Vec<Group>, seconds: u64) -> ExitCode {
    chosen.retain(|group| group.seeded);
    let now = SystemTime::now().duration_since(UNIX_EPOCH);
    let mut seed = now.map_or(1, |since| since.as_secs());
    let end = Instant::now() + Duration::from_secs(seconds);
    let mut cases = 0;
    while Instant::now() < end {
        let tallies = run_all(&chosen, seed, false, Some(end));
        for (group, tally) in chosen.iter().zip(&tallies) {
            cases += tally.cases;
            if !tally.faults.is_empty() {
                report(group.name, tally);
                return ExitCode::FAILURE;
            }
        }
        println!("ok   seed {seed}: {cases} cases so far");
        seed += 1;
    }
    if cases == 0 {
        return ExitCode::FAILURE;
    }
    ExitCode::SUCCESS
}
