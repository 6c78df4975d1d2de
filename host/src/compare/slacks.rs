//! The slacks held to the reference.

use super::calls::slacks;
use super::{any_file, compare_lengths, each_file, every_kind, random_block, Asked, Met, Writing};
use crate::random::Random;
use crate::{parts, timing};
use std::fmt::{Display, Formatter};

/// The call on a file and a lent slice.
pub type Call<'a> = Writing<'a, i32>;

/// What was met; how many of the random blocks answered are late, so that slacks are negative, and how many are not
/// series-parallel.
#[derive(Default)]
pub struct Compared {
    pub met: Met,
    pub late: usize,
    pub others: usize,
}

impl Compared {
    fn file(&mut self, call: Call, asked: &Asked, random: &mut Random) -> Result<(), String> {
        compare_lengths(call, slacks, &asked.file, 1, random, &mut self.met)?;
        if let Some(block) = random_block(asked) {
            self.met.answered.count(&block);
            self.late += usize::from(timing::spare(&block) < 0);
            self.others += usize::from(!parts::reduces(&block));
        }
        Ok(())
    }
}

impl Display for Compared {
    fn fmt(&self, f: &mut Formatter) -> std::fmt::Result {
        write!(f, "{}, {} late, {} not series-parallel", self.met, self.late, self.others)
    }
}

/// Compares so many files; it fails too if the random ones are not complete.
pub fn compare(call: Call, files: usize, seed: u64) -> Result<Compared, String> {
    let mut compared = Compared::default();
    each_file(files, seed, any_file, |asked, random| compared.file(call, asked, random))?;
    every_kind(&compared.met.kinds())?;
    every_kind(&[
        (compared.met.numbers[10], "no slice was too short"),
        (compared.late, "no random block that is late was answered"),
        (compared.others, "no random block that is not series-parallel was answered"),
    ])?;
    Ok(compared)
}

#[cfg(test)]
mod tests;
