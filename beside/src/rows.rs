//! The rows of the table: their names, on how many threads each is measured, and how many turns a round has.
use crate::original::*;
use std::hint::black_box;
use std::time::Duration;

type Round = Box<dyn Fn(usize, u64) -> Duration>;

struct Row {
    name: &'static str,
    threads: &'static [usize],
    /// Turns of a round, which mostly takes about a millisecond. A multiple of 64, of 128 where the work pins.
    turns: u64,
    round: Round,
}

fn row(
    name: &'static str,
    threads: &'static [usize],
    turns: u64,
    round: impl Fn(usize, u64) -> Duration + 'static,
) -> Row {
    Row {
        name,
        threads,
        turns,
        round: Box::new(round),
    }
}

/// Another row is a line here, a line in `ROWS` of `crates/epoch_beside`, and the same work on both sides.
fn rows() -> Vec<Row> {
    let one: &[usize] = &[1];
    let several: &[usize] = &[1, 2, 4];
    vec![
        row("pin_unpin", several, 64_000, pins),
        row("pin_unpin_64_idle", one, 64_000, pins_among_64),
        row("pin_unpin_nested", several, 256_000, nested_pins),
        row("repin", one, 64_000, repins),
        row("flush_empty_1_registered", one, 25_600, |_, turns| {
            flushes_again(1, turns)
        }),
        row("flush_empty_16_registered", one, 25_600, |_, turns| {
            flushes_again(16, turns)
        }),
        row("flush_empty_64_registered", one, 6_400, |_, turns| {
            flushes_again(64, turns)
        }),
        row("flush_empty_1024_registered", one, 640, |_, turns| {
            flushes_again(1024, turns)
        }),
        row("pin_flush_empty_1_registered", one, 25_600, |_, turns| {
            flushes(1, turns)
        }),
        row("pin_flush_empty_16_registered", one, 25_600, |_, turns| {
            flushes(16, turns)
        }),
        row("pin_flush_empty_64_registered", one, 6_400, |_, turns| {
            flushes(64, turns)
        }),
        row("pin_flush_empty_1024_registered", one, 640, |_, turns| {
            flushes(1024, turns)
        }),
        row("defer_made_64_a_guard_flush", one, 25_600, defers_64),
        row("defer_made_pin_each_flush_64", one, 25_600, defers_apart),
        row("load_one_pointer", one, 512_000, loads),
        row("load_deref_one_cell", several, 51_200, reads),
        row("load_deref_own_cell", &[2, 4], 51_200, own_reads),
        row("pin_load_deref_one_cell", several, 32_000, pinned_reads),
        row("load_get_one_cell", &[1, 4], 51_200, reads),
        row("pin_renew_look_lending", several, 128_000, pinned_reads),
        row("list_100_contains", &[1, 4], 5_120, walks),
        row("map_100_contains", &[1, 4], 5_120, walks),
        row("pin_unpin_lending", &[1, 4], 64_000, pins),
        row("cas_shared_success", one, 128_000, exchanges),
        row("owned_atomic_owned", one, 25_600, places),
        row("owned_atomic_owned_lending", one, 25_600, places),
        row("replace_swap", several, 12_800, replaces),
        row("replace_cas", several, 12_800, replaces_cas),
        row("replace_store", one, 12_800, replaces_store),
        row("replace_swap_64_a_guard_flush", several, 12_800, replaces_64),
        row("replace_swap_lending", several, 12_800, replaces),
        row(
            "replace_swap_64_a_guard_flush_lending",
            several,
            12_800,
            replaces_64,
        ),
        row("treiber_push_pop", several, 12_800, pushes),
        row("treiber_push_pop_lending", several, 12_800, pushes),
        row("treiber_push_pop_renewed", several, 12_800, pushes),
        row("queue_push_pop_lending", several, 12_800, enqueues),
        row("queue_push_pop_renewed", several, 12_800, enqueues),
        row("register_drop", several, 1_280, registers),
    ]
}

/// Prints a line a row: its name, its numbers of threads, and its turns.
pub fn list() {
    for row in rows() {
        let threads: Vec<String> = row.threads.iter().map(usize::to_string).collect();
        println!("{} {} {}", row.name, threads.join(","), row.turns);
    }
}

/// Prints the least and the middle time of that many rounds, in nanoseconds a turn.
pub fn time(name: &str, threads: usize, turns: u64, rounds: u64) -> Result<(), String> {
    let row = rows()
        .into_iter()
        .find(|row| row.name == name)
        .ok_or(format!("no such row: {name}"))?;
    let mut times: Vec<f64> = (0..rounds.max(1))
        .map(|_| black_box((row.round)(threads, turns)).as_nanos() as f64 / turns as f64)
        .collect();
    times.sort_by(f64::total_cmp);
    println!("{name} {threads} {:.2} {:.2}", times[0], times[times.len() / 2]);
    Ok(())
}
