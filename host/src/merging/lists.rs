//! Lists of widths and falling gains (001's DP lists) in one store, merged in series and in parallel. Gain and order of ties
//! are one number, a key, so that one comparison decides.

use std::cmp::Ordering;

/// The byte of a key that settles ties.
const TIES: u64 = 255;

/// Ticks that gain the same. The key is 256 times the gain, which stays far below 2^56, plus 255 minus the highest gate that
/// they slow: a greater key is taken first, so of equal gains the one that spares the higher gate (document 02, K8). Parts in
/// series have no gate in common, so no key stands in the lists of two of them.
#[derive(Clone, Copy)]
pub struct Pair {
    pub width: u64,
    key: u64,
}

impl Pair {
    pub fn gain(&self) -> u64 {
        self.key / (TIES + 1)
    }
}

/// The key of two gates or parts slowed at once: the gains are added, and the smaller byte stays, that of the higher gate.
fn both(one: u64, other: u64) -> u64 {
    one + other - (one & TIES).max(other & TIES)
}

/// A list: a range of the store.
#[derive(Clone, Copy)]
pub struct List {
    from: u32,
    to: u32,
}

pub const NONE: List = List { from: 0, to: 0 };

pub struct Store {
    pairs: Vec<Pair>,
}

impl Store {
    pub fn with_capacity(capacity: usize) -> Store {
        Store { pairs: Vec::with_capacity(capacity) }
    }

    pub fn of(&self, list: List) -> &[Pair] {
        &self.pairs[list.from as usize..list.to as usize]
    }

    fn since(&self, from: usize) -> List {
        List { from: from as u32, to: self.pairs.len() as u32 }
    }

    /// The list of a gate.
    pub fn of_gate(&mut self, gate: usize, steps: &[(u16, u16)], activity: u32) -> List {
        if activity == 0 {
            return NONE;
        }
        let from = self.pairs.len();
        for &(width, drop) in steps {
            let gain = u64::from(drop) * u64::from(activity);
            self.pairs.push(Pair { width: u64::from(width), key: gain * (TIES + 1) + TIES - gate as u64 });
        }
        self.since(from)
    }

    /// Merged by falling key: the shorter list's pairs are put into the longer.
    pub fn series(&mut self, one: List, other: List) -> List {
        let (short, long) = if one.to - one.from < other.to - other.from { (one, other) } else { (other, one) };
        if short.from == short.to {
            return long;
        }
        let from = self.pairs.len();
        let (mut at, to) = (long.from as usize, long.to as usize);
        self.pairs.reserve(to - at + (short.to - short.from) as usize);
        for i in short.from as usize..short.to as usize {
            let pair = self.pairs[i];
            let before = at + self.pairs[at..to].partition_point(|p| p.key > pair.key);
            self.pairs.extend_from_within(at..before);
            self.pairs.push(pair);
            at = before;
        }
        self.pairs.extend_from_within(at..to);
        self.since(from)
    }

    /// Shares ticks out among three lists by falling key; `merged` is what they were merged to. The last key stands in one of
    /// them only, which gets what the greater keys leave.
    pub fn shares(&self, ticks: u64, merged: List, lists: [List; 3]) -> [u64; 3] {
        let (mut left, mut last_key) = (ticks, 0);
        for pair in self.of(merged) {
            if left <= pair.width {
                last_key = pair.key;
                break;
            }
            left -= pair.width;
        }
        lists.map(|list| {
            let mut share = 0;
            for pair in self.of(list) {
                if pair.key <= last_key {
                    if pair.key == last_key {
                        share += left;
                    }
                    break;
                }
                share += pair.width;
            }
            share
        })
    }

    /// The list without its first ticks, and what these earn.
    pub fn raised(&mut self, list: List, ticks: u64) -> (List, u64) {
        let (mut left, mut earned, mut at) = (ticks, 0, list.from);
        while left > 0 && at < list.to {
            let pair = self.pairs[at as usize];
            let taken = left.min(pair.width);
            earned += taken * pair.gain();
            left -= taken;
            if taken < pair.width {
                let from = self.pairs.len();
                self.pairs.push(Pair { width: pair.width - taken, ..pair });
                self.pairs.extend_from_within(at as usize + 1..list.to as usize);
                return (self.since(from), earned);
            }
            at += 1;
        }
        (List { from: at, to: list.to }, earned)
    }

    /// 001's ParallelMerge. Equal keys, of a gate beside several of equal gain that are lower, are joined.
    pub fn parallel(&mut self, one: List, other: List) -> List {
        if one.from == one.to || other.from == other.to {
            return if one.from == one.to { other } else { one };
        }
        let from = self.pairs.len();
        let (mut i, mut j) = (one.from as usize, other.from as usize);
        let (mut p, mut q) = (self.pairs[i], self.pairs[j]);
        let (one_to, other_to) = (one.to as usize, other.to as usize);
        let mut last_key = 0;
        while i < one_to && j < other_to {
            let (width, key) = (p.width.min(q.width), both(p.key, q.key));
            if key == last_key {
                self.pairs.last_mut().expect("a pair of that key").width += width;
            } else {
                self.pairs.push(Pair { width, key });
                last_key = key;
            }
            let shorter = p.width.cmp(&q.width);
            p.width -= width;
            q.width -= width;
            if shorter != Ordering::Greater {
                i += 1;
                p = self.pairs[i];
            }
            if shorter != Ordering::Less {
                j += 1;
                q = self.pairs[j];
            }
        }
        for (rest, at, to) in [(p, i, one_to), (q, j, other_to)] {
            if at < to {
                self.pairs.push(rest);
                self.pairs.extend_from_within(at + 1..to);
            }
        }
        self.since(from)
    }
}
