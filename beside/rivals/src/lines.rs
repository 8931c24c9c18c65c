//! Queues and stacks of numbers, to which each thread pushes a number and pops one in turn.
use crate::queue::Queue;
use crate::rounds::{rounds, Answer, Size};
use crate::stack::Stack;
use crossbeam_epoch as epoch;
use crossbeam_queue::SegQueue;

#[inline(always)]
fn pairs(size: Size, push: impl Fn(u64) + Sync, pop: impl Fn() -> Option<u64> + Sync) -> Option<Answer> {
    Some(rounds(size, |_, _| {
        let mut done = 0;
        for number in 0..size.turns {
            push(number);
            done += u64::from(pop().is_some());
        }
        done
    }))
}

pub fn queue_pairs(side: &str, size: Size) -> Option<Answer> {
    match side {
        "crossbeam_epoch" => {
            let queue = Queue::new();
            pairs(
                size,
                |number| queue.push(number, &epoch::pin()),
                || queue.pop(&epoch::pin()),
            )
        }
        "seg_queue" => {
            let queue = SegQueue::new();
            pairs(size, |number| queue.push(number), || queue.pop())
        }
        _ => None,
    }
}

pub fn stack_pairs(side: &str, size: Size) -> Option<Answer> {
    if side != "crossbeam_epoch" {
        return None;
    }
    let stack = Stack::new();
    pairs(
        size,
        |number| stack.push(number, &epoch::pin()),
        || stack.pop(&epoch::pin()),
    )
}
