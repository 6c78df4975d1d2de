//! Memory that is lent to a call, between elements that must stay as they are.

use crate::random::Random;
use std::fmt::Debug;

/// A number that a call reads or writes in lent memory; any bytes are one.
pub trait Element: Copy + Debug + PartialEq {
    fn any(random: &mut Random) -> Self;
}

impl Element for u8 {
    fn any(random: &mut Random) -> u8 {
        random.next() as u8
    }
}

impl Element for u32 {
    fn any(random: &mut Random) -> u32 {
        random.next() as u32
    }
}

impl Element for u64 {
    fn any(random: &mut Random) -> u64 {
        random.next()
    }
}

impl Element for i32 {
    fn any(random: &mut Random) -> i32 {
        random.next() as i32
    }
}

/// Elements of any value.
pub fn any_elements<T: Element>(random: &mut Random, count: usize) -> Vec<T> {
    (0..count).map(|_| T::any(random)).collect()
}

/// Elements on either side of the lent ones.
const GUARD: usize = 50;

/// Elements that are lent, between two guards.
pub struct Memory<T> {
    before: Vec<T>,
    now: Vec<T>,
}

impl<T: Element> Memory<T> {
    /// These elements, to be lent.
    pub fn holding(random: &mut Random, lent: &[T]) -> Memory<T> {
        let before = [any_elements(random, GUARD), lent.to_vec(), any_elements(random, GUARD)].concat();
        Memory { now: before.clone(), before }
    }

    /// So many elements of any value.
    pub fn any(random: &mut Random, lent: usize) -> Memory<T> {
        let elements = any_elements(random, lent);
        Memory::holding(random, &elements)
    }

    pub fn lent(&mut self) -> &mut [T] {
        let end = self.now.len() - GUARD;
        &mut self.now[GUARD..end]
    }

    /// That these were written to the front of what was lent, and nothing else was changed; or the first element that differs.
    pub fn check(&self, written: &[T]) -> Result<(), String> {
        let mut right = self.before.clone();
        right[GUARD..GUARD + written.len()].copy_from_slice(written);
        match (0..right.len()).find(|&i| self.now[i] != right[i]) {
            Some(at) => {
                let (place, found) = (at as i64 - GUARD as i64, self.now[at]);
                Err(format!("element {place} is {found:?} in place of {:?}", right[at]))
            }
            None => Ok(()),
        }
    }
}

#[cfg(test)]
mod tests {
    use super::*;

    /// Memory that lends four elements, with another number in place of one, counted from the first guard.
    fn changed(at: usize) -> Memory<u32> {
        let mut memory = Memory::holding(&mut Random::from_seed(1), &[1, 2, 3, 4]);
        memory.now[at] ^= 1;
        memory
    }

    #[test]
    fn what_is_written_stands_in_front() {
        let mut memory = Memory::holding(&mut Random::from_seed(1), &[1, 2, 3, 4]);
        assert_eq!(memory.lent(), [1, 2, 3, 4]);
        assert_eq!(memory.check(&[]), Ok(()));
        memory.lent()[..2].copy_from_slice(&[8, 9]);
        assert_eq!(memory.check(&[8, 9]), Ok(()));
        assert_eq!(memory.check(&[8]), Err("element 1 is 9 in place of 2".to_string()));
    }

    #[test]
    fn every_other_change_is_noticed() {
        for at in 0..GUARD + 4 + GUARD {
            let first = format!("element {} is ", at as i64 - GUARD as i64);
            assert!(changed(at).check(&[]).unwrap_err().starts_with(&first));
            assert!(changed(at).check(&[1, 2, 3, 4]).is_err());
        }
    }
}
