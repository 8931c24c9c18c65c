//! Times of rounds on one thread or several.
use std::sync::atomic::{AtomicUsize, Ordering::SeqCst};
use std::time::{Duration, Instant};

/// Does `body` on that many threads, which begin together, and gives the time of the slowest one. What `before` makes and
/// `after` takes down isn't in the time.
pub fn on_threads<S, R>(
    threads: usize,
    before: impl Fn() -> S + Sync,
    body: impl Fn(&mut S) -> R + Sync,
    after: impl Fn(S) + Sync,
) -> Duration {
    let (ready, ended) = (AtomicUsize::new(0), AtomicUsize::new(0));
    let work = || {
        let mut state = before();
        arrive(&ready, threads);
        let start = Instant::now();
        let answer = body(&mut state);
        let time = start.elapsed();
        std::hint::black_box(answer);
        // Nothing is taken down before each thread has ended its work.
        arrive(&ended, threads);
        after(state);
        time
    };
    if threads == 1 {
        return work();
    }
    std::thread::scope(|scope| {
        let workers: Vec<_> = (0..threads).map(|_| scope.spawn(work)).collect();
        workers.into_iter().map(|worker| worker.join().unwrap()).max().unwrap()
    })
}

fn arrive(count: &AtomicUsize, threads: usize) {
    count.fetch_add(1, SeqCst);
    while count.load(SeqCst) < threads {
        std::hint::spin_loop();
    }
}
