//! The work of `crates/epoch_rivals` done by crates that a user would pick instead of this library.
mod draw;
mod lines;
mod maps;
mod michael;
#[path = "../../src/queue.rs"]
mod queue;
mod rounds;
mod skip_list;
#[path = "../../src/stack.rs"]
mod stack;
mod values;

use rounds::{Answer, Size};
use std::io::Read;
use std::process::ExitCode;

const USAGE: &str = "usage: rivals ROW SIDE THREADS TURNS ROUNDS
       rivals busy THREADS";

fn main() -> ExitCode {
    let words: Vec<String> = std::env::args().skip(1).collect();
    let words: Vec<&str> = words.iter().map(String::as_str).collect();
    match words[..] {
        ["busy", threads] => busy(number(threads)),
        [row, side, threads, turns, rounds] => {
            let size = Size {
                threads: number(threads),
                turns: number(turns),
                rounds: number(rounds),
            };
            match time(row, side, size) {
                Some(answer) => answer.print(size),
                None => {
                    eprintln!("no such row and side: {row} {side}");
                    return ExitCode::from(2);
                }
            }
        }
        _ => {
            eprintln!("{USAGE}");
            return ExitCode::from(2);
        }
    }
    ExitCode::SUCCESS
}

fn number(word: &str) -> u64 {
    word.parse().unwrap_or_else(|_| panic!("not a number: {word}"))
}

fn time(row: &str, side: &str, size: Size) -> Option<Answer> {
    match row {
        "read_pin_each" => values::read(side, 1, size),
        "read_64_a_pin" => values::read(side, 64, size),
        "replace_retire"
        | "replace_retire_busy_4096"
        | "replace_retire_busy_262144"
        | "replace_retire_busy_1048576" => values::replace(side, size),
        "queue_push_pop" => lines::queue_pairs(side, size),
        "stack_push_pop" => lines::stack_pairs(side, size),
        "map_get_1000" => maps::time::<1_000, 1_000, 0, 1>(side, size),
        "map_get_100000" => maps::time::<100_000, 100_000, 0, 1>(side, size),
        "map_64_a_pin_100000" => maps::time::<100_000, 100_000, 0, 64>(side, size),
        "map_zipfian_100000" => maps::time::<100_000, 100_000, 15, 1>(side, size),
        "map_90_5_5_100000" => maps::time::<100_000, 200_000, 0, 1>(side, size),
        "map_get_1000000" => maps::time::<1_000_000, 1_000_000, 0, 1>(side, size),
        "ordered_get_10000" => maps::ordered_get::<10_000>(side, size),
        "ordered_get_100000" => maps::ordered_get::<100_000>(side, size),
        "ordered_range_100" => maps::ordered_range(side, size),
        _ => None,
    }
}

/// Keeps that many threads busy until nobody writes to the standard input any more.
fn busy(threads: u64) {
    for _ in 0..threads {
        std::thread::spawn(|| {
            let mut draw = draw::Draw::of(0, 0);
            loop {
                std::hint::black_box(draw.number());
            }
        });
    }
    let mut rest = Vec::new();
    let _ = std::io::stdin().read_to_end(&mut rest);
}
