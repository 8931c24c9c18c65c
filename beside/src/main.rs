//! The work of `crates/epoch_beside` done by crossbeam-epoch itself, and histories that are replayed on both.
mod histories;
mod made;
mod original;
mod queue;
mod replay;
mod rows;
mod script;
mod stack;
mod timing;

use std::process::ExitCode;

const USAGE: &str = "usage: beside rows
       beside time NAME THREADS TURNS ROUNDS
       beside histories PROGRAM LINES SEED
       beside script LINES SEED";

fn main() -> ExitCode {
    let words: Vec<String> = std::env::args().skip(1).collect();
    let words: Vec<&str> = words.iter().map(String::as_str).collect();
    let done = match words[..] {
        ["rows"] => {
            rows::list();
            Ok(())
        }
        ["time", name, threads, turns, rounds] => {
            rows::time(name, number(threads) as usize, number(turns), number(rounds))
        }
        ["histories", program, lines, seed] => histories::replay(program, number(lines), number(seed)),
        ["script", lines, seed] => {
            histories::print(number(lines), number(seed));
            Ok(())
        }
        _ => Err(USAGE.to_string()),
    };
    match done {
        Ok(()) => ExitCode::SUCCESS,
        Err(text) => {
            eprintln!("{text}");
            ExitCode::from(2)
        }
    }
}

fn number(word: &str) -> u64 {
    word.parse().unwrap_or_else(|_| panic!("not a number: {word}"))
}
