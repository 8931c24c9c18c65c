//! Random histories of several participants on one thread, replayed on crossbeam-epoch and on the program `epoch-run`.
use crate::replay::{on_original, on_port, Calls};
use crate::script::{history, History, Line};
use std::collections::BTreeMap;

/// Lines of one history, but for those that end it.
const LENGTH: u64 = 2_000;

/// What was counted over all histories.
#[derive(Default)]
struct Counts {
    histories: u64,
    lines: u64,
    flushes: u64,
    looks: u64,
    jobs: u64,
    at_once: u64,
    same: u64,
    lines_that_call: u64,
    lines_that_differ: u64,
    other_order: u64,
    /// How many jobs the original called later, or earlier, by that many flushes.
    later: BTreeMap<u64, u64>,
    earlier: BTreeMap<u64, u64>,
}

/// Replays histories until they have that many lines, and prints what was counted.
pub fn replay(program: &str, lines: u64, seed: u64) -> Result<(), String> {
    let mut counts = Counts::default();
    while counts.lines < lines {
        let number = seed.wrapping_add(counts.histories);
        let history = history(LENGTH.min(lines - counts.lines), number);
        compare(&history, program, &mut counts).map_err(|text| format!("history {number}: {text}"))?;
    }
    tell(&counts, seed);
    Ok(())
}

/// Prints one history as a script of `epoch-run`.
pub fn print(lines: u64, seed: u64) {
    print!("{}", history(lines, seed).text());
}

fn compare(history: &History, program: &str, counts: &mut Counts) -> Result<(), String> {
    let original = on_original(history);
    let port = on_port(history, program)?;
    counts.histories += 1;
    counts.lines += history.lines.len() as u64;
    let mut flushes = 0;
    let flushes_before: Vec<u64> = history
        .lines
        .iter()
        .map(|line| {
            flushes += u64::from(matches!(line, Line::Flush(..)));
            flushes
        })
        .collect();
    counts.flushes += flushes;
    compare_lines(history, &original, &port, counts)?;
    let (called, called_by_port) = (lines_of_jobs(history, &original)?, lines_of_jobs(history, &port)?);
    counts.jobs += history.jobs;
    for (job, line) in called {
        let by_port = called_by_port[&job];
        let between = flushes_before[line].abs_diff(flushes_before[by_port]);
        match line.cmp(&by_port) {
            std::cmp::Ordering::Equal => counts.same += 1,
            std::cmp::Ordering::Greater => *counts.later.entry(between).or_default() += 1,
            std::cmp::Ordering::Less => *counts.earlier.entry(between).or_default() += 1,
        }
    }
    Ok(())
}

/// Compares what each line called, and whether participants were seen pinned.
fn compare_lines(history: &History, original: &Calls, port: &Calls, counts: &mut Counts) -> Result<(), String> {
    for (number, line) in history.lines.iter().enumerate() {
        if original.at_once[number] != port.at_once[number] {
            return Err(format!(
                "line {}: only one side called a job at once: {line}",
                number + 2
            ));
        }
        counts.at_once += u64::from(original.at_once[number]);
        if original.pinned[number] != port.pinned[number] {
            return Err(format!("line {}: pinned on one side only: {line}", number + 2));
        }
        counts.looks += u64::from(original.pinned[number].is_some());
        let (mut jobs, mut port_jobs) = (original.jobs[number].clone(), port.jobs[number].clone());
        counts.lines_that_call += u64::from(!jobs.is_empty() || !port_jobs.is_empty());
        let ordered = jobs == port_jobs;
        jobs.sort_unstable();
        port_jobs.sort_unstable();
        counts.lines_that_differ += u64::from(jobs != port_jobs);
        counts.other_order += u64::from(jobs == port_jobs && !ordered);
    }
    Ok(())
}

/// The line that called each job. Each is called once.
fn lines_of_jobs(history: &History, calls: &Calls) -> Result<BTreeMap<u64, usize>, String> {
    let mut lines = BTreeMap::new();
    for (number, jobs) in calls.jobs.iter().enumerate() {
        for job in jobs {
            if lines.insert(*job, number).is_some() {
                return Err(format!("job {job} is called twice"));
            }
        }
    }
    if lines.len() as u64 != history.jobs {
        return Err(format!(
            "{} jobs were deferred, and {} called",
            history.jobs,
            lines.len()
        ));
    }
    Ok(lines)
}

fn tell(counts: &Counts, seed: u64) {
    let by = |map: &BTreeMap<u64, u64>| {
        let parts: Vec<String> = map
            .iter()
            .map(|(flushes, jobs)| format!("{jobs} by {flushes}"))
            .collect();
        format!(
            "{} ({})",
            map.values().sum::<u64>(),
            if parts.is_empty() {
                "none".into()
            } else {
                parts.join(", ")
            }
        )
    };
    println!(
        "{} lines in {} histories, seeds from {seed} on",
        counts.lines, counts.histories
    );
    println!(
        "{} flushes; {} looks at whether a participant is pinned, alike on both sides",
        counts.flushes, counts.looks
    );
    println!(
        "{} jobs deferred, each called once on both sides; {} called at once on both",
        counts.jobs, counts.at_once
    );
    println!("called by the same line: {}", counts.same);
    println!(
        "called later by crossbeam-epoch, by how many flushes: {}",
        by(&counts.later)
    );
    println!(
        "called earlier by crossbeam-epoch, by how many flushes: {}",
        by(&counts.earlier)
    );
    println!(
        "lines that call jobs: {}, of which {} call other ones, and {} the same ones in another order",
        counts.lines_that_call, counts.lines_that_differ, counts.other_order
    );
}
