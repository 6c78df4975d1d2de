//! Times of which only is known how far two of them may lie apart (difference constraints).

use std::cmp::Reverse;
use std::collections::{BinaryHeap, VecDeque};

const UNBOUNDED: i64 = i64::MAX / 4;

/// Points in time, each of which is bounded by every other one, at least by way of others.
#[derive(Clone)]
pub struct Apart {
    /// `most[a]` has each b whose time may exceed that at a by so many ticks and no more.
    most: Vec<Vec<(usize, i64)>>,
    /// Times that agree with all of these, where some are known.
    times: Option<Vec<i64>>,
}

impl Apart {
    /// Times that nothing is known of.
    pub fn free(points: usize) -> Apart {
        Apart { most: vec![Vec::new(); points], times: None }
    }

    /// The time at b exceeds that at a by at most so many ticks.
    pub fn at_most(&mut self, a: usize, b: usize, ticks: i64) {
        self.most[a].push((b, ticks));
        self.times = None;
    }

    /// The most that each time can exceed that at a point, by passing bounds on until none is narrower (Bellman and Ford). Some
    /// times must fit what is known.
    fn passed_on(&self, from: usize) -> Vec<i64> {
        let mut most = vec![UNBOUNDED; self.most.len()];
        let (mut turns, mut waits) = (vec![0; most.len()], vec![false; most.len()]);
        let mut waiting = VecDeque::from([from]);
        most[from] = 0;
        while let Some(a) = waiting.pop_front() {
            turns[a] += 1;
            waits[a] = false;
            assert!(turns[a] <= most.len(), "no times fit");
            for &(b, ticks) in &self.most[a] {
                if most[a] + ticks < most[b] {
                    most[b] = most[a] + ticks;
                    if !waits[b] {
                        waits[b] = true;
                        waiting.push_back(b);
                    }
                }
            }
        }
        most
    }

    /// The same where times are known that agree: measured from these, no bound is below 0 (Dijkstra).
    fn measured(&self, from: usize, times: &[i64]) -> Vec<i64> {
        let mut above = vec![UNBOUNDED; self.most.len()];
        let mut waiting = BinaryHeap::from([Reverse((0, from))]);
        above[from] = 0;
        while let Some(Reverse((least, a))) = waiting.pop() {
            if least > above[a] {
                continue;
            }
            for &(b, ticks) in &self.most[a] {
                let found = least + ticks + times[a] - times[b];
                if found < above[b] {
                    above[b] = found;
                    waiting.push(Reverse((found, b)));
                }
            }
        }
        (0..above.len()).map(|b| above[b] + times[b] - times[from]).collect()
    }

    /// The least by which the time at b can exceed that at a. From now on it exceeds it by no more.
    pub fn settle(&mut self, a: usize, b: usize) -> i64 {
        let most = match &self.times {
            None => self.passed_on(b),
            Some(times) => self.measured(b, times),
        };
        let least = -most[a];
        self.at_most(a, b, least);
        // as late after b as can be: b itself is then as early after a as can be
        self.times = Some(most);
        least
    }
}

#[cfg(test)]
mod tests {
    use super::*;

    /// b is 3 to 7 after a, c 2 to 4 after b, and at most 8 after a.
    #[test]
    fn least_times_by_hand() {
        let mut apart = Apart::free(3);
        for (a, b, ticks) in [(0, 1, 7), (1, 0, -3), (1, 2, 4), (2, 1, -2), (0, 2, 8), (2, 0, 0)] {
            apart.at_most(a, b, ticks);
        }
        let settled = |pairs: [(usize, usize); 2]| {
            let mut apart = apart.clone();
            pairs.map(|(a, b)| apart.settle(a, b))
        };
        assert_eq!(settled([(0, 1), (1, 2)]), [3, 2]);
        assert_eq!(settled([(0, 2), (0, 1)]), [5, 3]);
        // c is at most 8 after a and at least 2 after b
        assert_eq!(settled([(1, 0), (0, 1)]), [-6, 6]);
        assert_eq!(settled([(2, 1), (0, 1)]), [-4, 3]);
    }

    #[test]
    #[should_panic(expected = "no times fit")]
    fn times_that_cannot_be_are_noticed() {
        let mut apart = Apart::free(2);
        apart.at_most(0, 1, 2);
        apart.at_most(1, 0, -3);
        apart.settle(0, 1);
    }
}
