//! What each row does, on crossbeam-epoch.
use crate::made::functions;
use crate::queue::Queue;
use crate::stack::Stack;
use crate::timing::on_threads;
use crossbeam_epoch::{Atomic, Collector, Guard, LocalHandle, Owned};
use std::hint::black_box;
use std::sync::atomic::Ordering::SeqCst;
use std::time::{Duration, Instant};

/// Jobs that are deferred under one guard: as many as a bag takes.
const JOBS: u64 = 64;

#[repr(align(128))]
struct Padded<T>(T);

/// A round of participants of one collector, one on each thread.
fn on_handles<R>(threads: usize, body: impl Fn(&LocalHandle) -> R + Sync) -> Duration {
    let collector = Collector::new();
    on_threads(threads, || collector.register(), |handle| body(handle), drop)
}

/// Pins and unpins.
pub fn pins(threads: usize, turns: u64) -> Duration {
    on_handles(threads, |handle| {
        for _ in 0..turns {
            black_box(&handle.pin());
        }
    })
}

/// The same beside 63 other participants.
pub fn pins_among_64(threads: usize, turns: u64) -> Duration {
    let collector = Collector::new();
    let _others: Vec<_> = (1..64).map(|_| collector.register()).collect();
    on_threads(
        threads,
        || collector.register(),
        |handle| {
            for _ in 0..turns {
                black_box(&handle.pin());
            }
        },
        drop,
    )
}

/// Pins and unpins under one pin.
pub fn nested_pins(threads: usize, turns: u64) -> Duration {
    on_handles(threads, |handle| {
        let _guard = handle.pin();
        for _ in 0..turns {
            black_box(&handle.pin());
        }
    })
}

/// Repins one guard.
pub fn repins(threads: usize, turns: u64) -> Duration {
    on_handles(threads, |handle| {
        let mut guard = handle.pin();
        for _ in 0..turns {
            black_box(&mut guard).repin();
        }
    })
}

/// Flushes nothing under one guard, among that many participants.
pub fn flushes_again(participants: u64, turns: u64) -> Duration {
    let collector = Collector::new();
    let _others: Vec<_> = (1..participants).map(|_| collector.register()).collect();
    let handle = collector.register();
    let guard = handle.pin();
    let start = Instant::now();
    for _ in 0..turns {
        guard.flush();
    }
    start.elapsed()
}

/// Pins, flushes nothing and unpins, among that many participants.
pub fn flushes(participants: u64, turns: u64) -> Duration {
    let collector = Collector::new();
    let _others: Vec<_> = (1..participants).map(|_| collector.register()).collect();
    let handle = collector.register();
    let start = Instant::now();
    for _ in 0..turns {
        handle.pin().flush();
    }
    start.elapsed()
}

/// Pins, defers 64 boxed functions, flushes and unpins. A turn is one function.
pub fn defers_64(threads: usize, turns: u64) -> Duration {
    let collector = Collector::new();
    on_threads(
        threads,
        || (collector.register(), functions(turns)),
        |(handle, functions)| {
            for _ in 0..turns / JOBS {
                let guard = handle.pin();
                for _ in 0..JOBS {
                    if let Some(function) = functions.pop() {
                        guard.defer(move || function());
                    }
                }
                guard.flush();
            }
            for _ in 0..3 {
                handle.pin().flush();
            }
        },
        drop,
    )
}

/// Pins, defers one boxed function and unpins, 64 times, and then flushes. A turn is one function.
pub fn defers_apart(threads: usize, turns: u64) -> Duration {
    let collector = Collector::new();
    on_threads(
        threads,
        || (collector.register(), functions(turns)),
        |(handle, functions)| {
            for _ in 0..turns / JOBS {
                for _ in 0..JOBS {
                    let guard = handle.pin();
                    if let Some(function) = functions.pop() {
                        guard.defer(move || function());
                    }
                }
                handle.pin().flush();
            }
            for _ in 0..3 {
                handle.pin().flush();
            }
        },
        drop,
    )
}

/// A round on one pointer that all threads share. Nothing else refers to its value after the round.
fn on_one_pointer<R>(threads: usize, body: impl Fn(&LocalHandle, &Atomic<u64>) -> R + Sync) -> Duration {
    let pointer = Padded(Atomic::new(7u64));
    let time = on_handles(threads, |handle| body(handle, &pointer.0));
    // SAFETY: the threads have ended, and what stands behind the pointer was deferred by none.
    drop(unsafe { pointer.0.into_owned() });
    time
}

fn read(pointer: &Atomic<u64>, guard: &Guard) -> u64 {
    // SAFETY: the pointer is never null, and what it led to is destroyed two epochs later at the soonest.
    unsafe { *black_box(pointer).load(SeqCst, guard).deref() }
}

/// Loads of a pointer, each of whose values is read.
pub fn reads(threads: usize, turns: u64) -> Duration {
    on_one_pointer(threads, |handle, pointer| {
        let guard = handle.pin();
        (0..turns).fold(0u64, |sum, _| sum.wrapping_add(read(pointer, &guard)))
    })
}

/// The same with a pointer for each thread.
pub fn own_reads(threads: usize, turns: u64) -> Duration {
    let collector = Collector::new();
    on_threads(
        threads,
        || (collector.register(), Padded(Atomic::new(Padded(7u64)))),
        |(handle, pointer)| {
            let guard = handle.pin();
            (0..turns).fold(0u64, |sum, _| {
                let value = black_box(&pointer.0).load(SeqCst, &guard);
                // SAFETY: the pointer isn't null, and nothing takes its value away before `after`.
                sum.wrapping_add(unsafe { value.deref() }.0)
            })
        },
        // SAFETY: nobody else has the pointer.
        |(_, pointer)| drop(unsafe { pointer.0.into_owned() }),
    )
}

/// The keys of the list.
const KEYS: u64 = 100;

struct Entry {
    key: u64,
    next: Atomic<Entry>,
}

/// Whether the key is in the sorted list, as the library's sorted list tells it.
#[inline(never)]
fn contains(first: &Atomic<Entry>, key: u64, steps: u32, guard: &Guard) -> Option<bool> {
    let mut at = first.load(SeqCst, guard);
    for _ in 0..steps {
        // SAFETY: no entry is destroyed before the threads have ended.
        let Some(entry) = (unsafe { at.as_ref() }) else {
            return Some(false);
        };
        if entry.key >= key {
            return Some(entry.key == key);
        }
        at = entry.next.load(SeqCst, guard);
    }
    None
}

/// Walks to the last of 100 keys, under one guard.
pub fn walks(threads: usize, turns: u64) -> Duration {
    let first = (1..=KEYS)
        .rev()
        .fold(Atomic::null(), |next, key| Atomic::new(Entry { key, next }));
    let first = Padded(first);
    let time = on_handles(threads, |handle| {
        let guard = handle.pin();
        (0..turns)
            .filter(|_| contains(black_box(&first.0), KEYS, 1_000, &guard) == Some(true))
            .count()
    });
    let mut at = first.0;
    // SAFETY: the threads have ended, and nobody else has the entries.
    while let Some(entry) = unsafe { at.try_into_owned() } {
        at = entry.into_box().next;
    }
    time
}

/// The same with a pin for each.
pub fn pinned_reads(threads: usize, turns: u64) -> Duration {
    on_one_pointer(threads, |handle, pointer| {
        (0..turns).fold(0u64, |sum, _| sum.wrapping_add(read(pointer, &handle.pin())))
    })
}

/// Loads of a pointer, whose tags are added up.
pub fn loads(threads: usize, turns: u64) -> Duration {
    on_one_pointer(threads, |handle, pointer| {
        let guard = handle.pin();
        (0..turns).fold(0, |sum: usize, _| {
            sum.wrapping_add(black_box(pointer).load(SeqCst, &guard).tag())
        })
    })
}

/// Exchanges of a pointer by one with the next tag.
pub fn exchanges(threads: usize, turns: u64) -> Duration {
    on_one_pointer(threads, |handle, pointer| {
        let guard = handle.pin();
        let mut current = pointer.load(SeqCst, &guard);
        for turn in 0..turns {
            let new = current.with_tag(turn as usize & 1);
            current = pointer
                .compare_exchange(current, new, SeqCst, SeqCst, &guard)
                .unwrap_or(current);
        }
    })
}

/// Values that are put behind a pointer and taken back.
pub fn places(_threads: usize, turns: u64) -> Duration {
    let start = Instant::now();
    for turn in 0..turns {
        let pointer = Atomic::new(turn);
        // SAFETY: nobody else has the pointer.
        black_box(unsafe { black_box(pointer).into_owned() });
    }
    start.elapsed()
}

fn replace(pointer: &Atomic<u64>, value: u64, guard: &Guard) {
    let before = pointer.swap(Owned::new(value), SeqCst, guard);
    // SAFETY: the value was taken out of reach by this call.
    unsafe { guard.defer_destroy(before) };
}

/// Replaces an object and defers the destruction of the one before, each under a pin of its own.
pub fn replaces(threads: usize, turns: u64) -> Duration {
    on_one_pointer(threads, |handle, pointer| {
        for turn in 0..turns {
            replace(pointer, turn, &handle.pin());
        }
    })
}

/// The same by an exchange, with tries until one is won.
pub fn replaces_cas(threads: usize, turns: u64) -> Duration {
    on_one_pointer(threads, |handle, pointer| {
        for turn in 0..turns {
            let guard = handle.pin();
            let mut new = Owned::new(turn);
            loop {
                let before = pointer.load(SeqCst, &guard);
                match pointer.compare_exchange(before, new, SeqCst, SeqCst, &guard) {
                    Ok(_) => {
                        // SAFETY: the value was taken out of reach by this exchange.
                        unsafe { guard.defer_destroy(before) };
                        break;
                    }
                    Err(lost) => new = lost.new,
                }
            }
        }
    })
}

/// The same by a load and a store, where no other thread stores.
pub fn replaces_store(threads: usize, turns: u64) -> Duration {
    on_one_pointer(threads, |handle, pointer| {
        for turn in 0..turns {
            let guard = handle.pin();
            let before = pointer.load(SeqCst, &guard);
            pointer.store(Owned::new(turn), SeqCst);
            // SAFETY: the value was taken out of reach by this store.
            unsafe { guard.defer_destroy(before) };
        }
    })
}

/// Pins, replaces 64 objects, flushes and unpins. A turn is one object.
pub fn replaces_64(threads: usize, turns: u64) -> Duration {
    on_one_pointer(threads, |handle, pointer| {
        for _ in 0..turns / JOBS {
            let guard = handle.pin();
            for value in 0..JOBS {
                replace(pointer, value, &guard);
            }
            guard.flush();
        }
    })
}

/// Pushes and pops, each under a pin of its own. A turn is both.
pub fn pushes(threads: usize, turns: u64) -> Duration {
    let collector = Collector::new();
    let stack: Stack<u64> = Stack::new();
    let time = on_threads(
        threads,
        || collector.register(),
        |handle| {
            for turn in 0..turns {
                stack.push(turn, &handle.pin());
                black_box(stack.pop(&handle.pin()));
            }
        },
        drop,
    );
    let handle = collector.register();
    while stack.pop(&handle.pin()).is_some() {}
    time
}

/// The same with a queue.
pub fn enqueues(threads: usize, turns: u64) -> Duration {
    let queue: Queue<u64> = Queue::new();
    on_handles(threads, |handle| {
        for turn in 0..turns {
            queue.push(turn, &handle.pin());
            black_box(queue.pop(&handle.pin()));
        }
    })
}

/// Registers a participant and drops it.
pub fn registers(threads: usize, turns: u64) -> Duration {
    let collector = Collector::new();
    on_threads(
        threads,
        || collector.clone(),
        |collector| {
            for _ in 0..turns {
                black_box(collector.register());
            }
        },
        drop,
    )
}
