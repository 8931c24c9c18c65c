//! Maps from numbers to numbers: look-ups alone, or ninety in a hundred beside five inserts and five removals. In an
//! ordered map also walks over the entries from a key on.
use crate::draw::{key, percent, Draw, SCATTER};
use crate::michael;
use crate::rounds::{rounds, Answer, Size};
use crate::skip_list;
use crossbeam_epoch as epoch;
use dashmap::DashMap;
use std::collections::hash_map::RandomState;
use std::hash::{BuildHasher, BuildHasherDefault, Hasher};

/// A hash by one multiplication, as a user picks for keys that are numbers.
#[derive(Default)]
struct Multiply(u64);

impl Hasher for Multiply {
    fn finish(&self) -> u64 {
        self.0
    }

    fn write(&mut self, bytes: &[u8]) {
        for byte in bytes {
            self.write_u64(u64::from(*byte));
        }
    }

    #[inline(always)]
    fn write_u64(&mut self, word: u64) {
        self.0 = (self.0.rotate_left(5) ^ word).wrapping_mul(0x517c_c1b7_2722_0a95);
    }
}

trait Map: Sync {
    /// What calls are made under.
    type Pin;

    fn pin(&self) -> Self::Pin;
    fn get(&self, key: u64, pin: &Self::Pin) -> Option<u64>;
    fn insert(&self, key: u64, pin: &Self::Pin);
    fn remove(&self, key: u64, pin: &Self::Pin);
}

impl<S: BuildHasher + Clone + Sync + Send> Map for DashMap<u64, u64, S> {
    type Pin = ();

    fn pin(&self) {}

    #[inline(always)]
    fn get(&self, key: u64, _pin: &()) -> Option<u64> {
        DashMap::get(self, &key).map(|value| *value)
    }

    #[inline(always)]
    fn insert(&self, key: u64, _pin: &()) {
        self.entry(key).or_insert(key);
    }

    #[inline(always)]
    fn remove(&self, key: u64, _pin: &()) {
        DashMap::remove(self, &key);
    }
}

impl Map for michael::Map {
    type Pin = epoch::Guard;

    #[inline(always)]
    fn pin(&self) -> epoch::Guard {
        epoch::pin()
    }

    #[inline(always)]
    fn get(&self, key: u64, pin: &epoch::Guard) -> Option<u64> {
        michael::Map::get(self, key, pin)
    }

    #[inline(always)]
    fn insert(&self, key: u64, pin: &epoch::Guard) {
        michael::Map::insert(self, key, key, pin);
    }

    #[inline(always)]
    fn remove(&self, key: u64, pin: &epoch::Guard) {
        michael::Map::remove(self, key, pin);
    }
}

/// Works on a map that has `KEYS` of the keys below `SPACE` at first. If there are more keys than that, a tenth of the
/// calls change the map. `TOGETHER` calls are made under a pin. A look-up that finds another key's value isn't counted
/// as done.
fn work<const KEYS: u64, const SPACE: u64, const SKEW: u64, const TOGETHER: u64>(
    map: impl Map,
    size: Size,
) -> Option<Answer> {
    for index in 0..KEYS {
        map.insert(index * SCATTER % SPACE, &map.pin());
    }
    Some(rounds(size, |thread, round| {
        let mut draw = Draw::of(thread, round);
        let mut done = 0;
        for _ in 0..size.turns / TOGETHER {
            let pin = map.pin();
            for _ in 0..TOGETHER {
                let number = draw.number();
                let key = key::<SPACE, SKEW>(number);
                match if SPACE == KEYS { 0 } else { percent(number) } {
                    0..=89 => done += u64::from(map.get(key, &pin).map_or(SPACE > KEYS, |value| value == key)),
                    90..=94 => {
                        map.insert(key, &pin);
                        done += 1;
                    }
                    _ => {
                        map.remove(key, &pin);
                        done += 1;
                    }
                }
            }
        }
        done
    }))
}

pub fn time<const KEYS: u64, const SPACE: u64, const SKEW: u64, const TOGETHER: u64>(
    side: &str,
    size: Size,
) -> Option<Answer> {
    match side {
        "crossbeam_epoch" => {
            work::<KEYS, SPACE, SKEW, TOGETHER>(michael::Map::new(michael::bits_for(KEYS)), size)
        }
        "dashmap" => work::<KEYS, SPACE, SKEW, TOGETHER>(DashMap::<u64, u64, RandomState>::default(), size),
        "dashmap_fast_hash" => {
            work::<KEYS, SPACE, SKEW, TOGETHER>(DashMap::<u64, u64, BuildHasherDefault<Multiply>>::default(), size)
        }
        _ => None,
    }
}

/// Entries that a turn goes over in an ordered map.
const TOGETHER: u64 = 100;

/// Works on an ordered map of the numbers below `KEYS`. A turn is given one of those below `SPACE`, and returns whether
/// it found what it should.
fn ordered<const KEYS: u64, const SPACE: u64>(
    side: &str,
    size: Size,
    turn: impl Fn(&skip_list::Map, u64) -> bool + Sync,
) -> Option<Answer> {
    if side != "crossbeam_epoch" {
        return None;
    }
    let map = skip_list::Map::new();
    for index in 0..KEYS {
        let key = index * SCATTER % KEYS;
        map.insert(key, key, &epoch::pin());
    }
    Some(rounds(size, |thread, round| {
        let mut draw = Draw::of(thread, round);
        let mut done = 0;
        for _ in 0..size.turns {
            done += u64::from(turn(&map, key::<SPACE, 0>(draw.number())));
        }
        done
    }))
}

pub fn ordered_get<const KEYS: u64>(side: &str, size: Size) -> Option<Answer> {
    ordered::<KEYS, KEYS>(side, size, |map, key| map.get(key, &epoch::pin()) == Some(key))
}

/// Each value is its key, so the values' sum shows whether these are the entries from the key on. From each key on that
/// is drawn, there are as many entries as a turn goes over.
pub fn ordered_range(side: &str, size: Size) -> Option<Answer> {
    ordered::<100_000, 99_901>(side, size, |map, key| {
        let guard = epoch::pin();
        let sum: u64 = map.range_from(key, &guard).take(TOGETHER as usize).sum();
        sum == TOGETHER * key + TOGETHER * (TOGETHER - 1) / 2
    })
}
