//! Michael's hash map of sorted lists on crossbeam-epoch: the same algorithm as the library's map, with the key as its
//! own hash, as there.
use crossbeam_epoch::{Atomic, Guard, Owned, Shared};
use std::sync::atomic::Ordering::{AcqRel, Acquire, Relaxed, Release};

/// The map of so many keys has 2 to this many buckets: the next power of two, as the library's in the same row.
pub fn bits_for(keys: u64) -> u32 {
    u64::BITS - keys.leading_zeros()
}

struct Node {
    key: u64,
    value: u64,
    next: Atomic<Node>,
}

pub struct Map {
    mask: u64,
    buckets: Vec<Atomic<Node>>,
}

struct Found<'g> {
    here: bool,
    prev: &'g Atomic<Node>,
    cur: Shared<'g, Node>,
}

impl Map {
    pub fn new(bits: u32) -> Map {
        let count = 1u64 << bits;
        Map {
            mask: count - 1,
            buckets: (0..count).map(|_| Atomic::null()).collect(),
        }
    }

    #[inline(always)]
    pub fn get(&self, key: u64, guard: &Guard) -> Option<u64> {
        let mut cur = self.buckets[(key & self.mask) as usize].load(Acquire, guard);
        loop {
            // SAFETY: a node is destroyed two epochs after it was unlinked, and the guard is pinned.
            let node = unsafe { cur.as_ref() }?;
            if node.key >= key {
                if node.key != key || node.next.load(Acquire, guard).tag() == 1 {
                    return None;
                }
                return Some(node.value);
            }
            cur = node.next.load(Acquire, guard).with_tag(0);
        }
    }

    #[inline]
    fn find<'g>(&'g self, key: u64, guard: &'g Guard) -> Found<'g> {
        'again: loop {
            let mut prev = &self.buckets[(key & self.mask) as usize];
            let mut cur = prev.load(Acquire, guard);
            loop {
                // SAFETY: as above.
                let Some(node) = (unsafe { cur.as_ref() }) else {
                    return Found { here: false, prev, cur };
                };
                let next = node.next.load(Acquire, guard);
                if next.tag() == 1 {
                    let next = next.with_tag(0);
                    match prev.compare_exchange(cur, next, AcqRel, Acquire, guard) {
                        // SAFETY: the node was unlinked here, and no later load finds it.
                        Ok(_) => unsafe { guard.defer_destroy(cur) },
                        Err(_) => continue 'again,
                    }
                    cur = next;
                    continue;
                }
                if node.key >= key {
                    return Found {
                        here: node.key == key,
                        prev,
                        cur,
                    };
                }
                prev = &node.next;
                cur = next;
            }
        }
    }

    pub fn insert(&self, key: u64, value: u64, guard: &Guard) -> bool {
        let mut own = Owned::new(Node {
            key,
            value,
            next: Atomic::null(),
        });
        loop {
            let found = self.find(key, guard);
            if found.here {
                return false;
            }
            own.next.store(found.cur, Relaxed);
            match found.prev.compare_exchange(found.cur, own, Release, Relaxed, guard) {
                Ok(_) => return true,
                Err(lost) => own = lost.new,
            }
        }
    }

    pub fn remove(&self, key: u64, guard: &Guard) -> bool {
        loop {
            let found = self.find(key, guard);
            if !found.here {
                return false;
            }
            // SAFETY: as above.
            let node = unsafe { found.cur.deref() };
            let next = node.next.load(Acquire, guard);
            if next.tag() == 1 {
                continue;
            }
            if node
                .next
                .compare_exchange(next, next.with_tag(1), AcqRel, Relaxed, guard)
                .is_err()
            {
                continue;
            }
            match found.prev.compare_exchange(found.cur, next, AcqRel, Relaxed, guard) {
                // SAFETY: as above.
                Ok(_) => unsafe { guard.defer_destroy(found.cur) },
                Err(_) => {
                    self.find(key, guard);
                }
            }
            return true;
        }
    }
}
