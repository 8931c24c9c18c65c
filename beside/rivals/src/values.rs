//! A small value that all threads read and one of them replaces, and one that all threads replace.
use crate::rounds::{rounds, Answer, Size};
use arc_swap::{ArcSwap, Cache};
use crossbeam_epoch::{self as epoch, Atomic, Owned};
use std::sync::atomic::Ordering::{AcqRel, Acquire};
use std::sync::Arc;

/// Four words, as a small configuration has.
struct Small([u64; 4]);

impl Small {
    fn of(word: u64) -> Small {
        Small([word; 4])
    }

    #[inline(always)]
    fn sum(&self) -> u64 {
        // (a loop over the words would cost more than the rest of a read)
        let [first, second, third, fourth] = self.0;
        first.wrapping_add(second).wrapping_add(third).wrapping_add(fourth)
    }
}

/// After so many reads, the first thread replaces the value.
const READS: u64 = 1_024;

#[inline(always)]
fn reads(thread: u64, size: Size, together: u64, mut read: impl FnMut() -> u64, mut replace: impl FnMut(u64)) -> u64 {
    let mut sum: u64 = 0;
    for count in 0..size.turns / READS {
        for _ in 0..READS / together {
            sum = sum.wrapping_add(read());
        }
        if thread == 0 {
            replace(count);
        }
    }
    std::hint::black_box(sum);
    size.turns / READS * READS
}

fn replace_one(at: &Atomic<Small>, word: u64) {
    let guard = epoch::pin();
    let old = at.swap(Owned::new(Small::of(word)), AcqRel, &guard);
    // SAFETY: the value was swapped out here, and no later load finds it.
    unsafe { guard.defer_destroy(old) };
}

/// Reads, with so many reads under one pin.
pub fn read(side: &str, together: u64, size: Size) -> Option<Answer> {
    match side {
        "crossbeam_epoch" => {
            let at = Atomic::new(Small::of(1));
            let read = || {
                let guard = epoch::pin();
                (0..together).fold(0, |sum: u64, _| {
                    // SAFETY: a value is destroyed two epochs after it was swapped out, and the guard is pinned.
                    sum.wrapping_add(unsafe { at.load(Acquire, &guard).deref() }.sum())
                })
            };
            Some(rounds(size, |thread, _| {
                reads(thread, size, together, read, |word| replace_one(&at, word))
            }))
        }
        "arc_swap_cache" if together == 1 => {
            let at = ArcSwap::from_pointee(Small::of(1));
            Some(rounds(size, |thread, _| {
                let mut cache = Cache::new(&at);
                reads(
                    thread,
                    size,
                    1,
                    // (the sum isn't to be kept from one read to the next)
                    || std::hint::black_box(cache.load()).sum(),
                    |word| at.store(Arc::new(Small::of(word))),
                )
            }))
        }
        _ => None,
    }
}

/// Replaces the value in each turn, and defers the destruction of the one before.
pub fn replace(side: &str, size: Size) -> Option<Answer> {
    if side != "crossbeam_epoch" {
        return None;
    }
    let at = Atomic::new(Small::of(1));
    Some(rounds(size, |_, _| {
        for word in 0..size.turns {
            replace_one(&at, word);
        }
        size.turns
    }))
}
