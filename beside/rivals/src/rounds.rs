//! Rounds of several threads, which begin together. A round takes as long as its slowest thread.
use std::sync::atomic::{AtomicU64, Ordering::SeqCst};
use std::time::Instant;

/// How many threads a round has, how many turns each of them makes, and how many rounds there are.
#[derive(Clone, Copy)]
pub struct Size {
    pub threads: u64,
    pub turns: u64,
    pub rounds: u64,
}

/// The nanoseconds that a turn took in each round, and how many turns of the last round did what they should.
pub struct Answer {
    times: Vec<f64>,
    done: u64,
}

impl Answer {
    pub fn print(&self, size: Size) {
        print!("{} {}", self.done, size.turns * size.threads);
        for time in &self.times {
            print!(" {time:.2}");
        }
        println!();
    }
}

/// Makes the rounds. `part` is given the thread and the round, and says how many of its turns did what they should.
pub fn rounds(size: Size, part: impl Fn(u64, u64) -> u64 + Sync) -> Answer {
    let mut answer = Answer {
        times: Vec::new(),
        done: 0,
    };
    for round in 0..size.rounds {
        let [ready, ended, longest, done] = [0; 4].map(AtomicU64::new);
        let work = |index: u64| {
            arrive(&ready, size.threads);
            let start = Instant::now();
            let did = part(index, round);
            longest.fetch_max(start.elapsed().as_nanos() as u64, SeqCst);
            done.fetch_add(did, SeqCst);
            arrive(&ended, size.threads);
        };
        std::thread::scope(|scope| {
            let work = &work;
            for index in 1..size.threads {
                scope.spawn(move || work(index));
            }
            work(0);
        });
        answer.times.push(longest.load(SeqCst) as f64 / size.turns as f64);
        answer.done = done.load(SeqCst);
    }
    answer
}

fn arrive(count: &AtomicU64, threads: u64) {
    count.fetch_add(1, SeqCst);
    while count.load(SeqCst) < threads {
        std::hint::spin_loop();
    }
}
