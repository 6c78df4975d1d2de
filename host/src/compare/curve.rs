//! The curve held to the reference.

use super::calls::curve;
use super::memory::Memory;
use super::ticks::file_for_ticks;
use super::{each_file, every_kind, random_block, same, Asked, Met};
use crate::block::MAX_PAIRS;
use crate::ffi::CurveAnswer;
use crate::random::Random;

/// The call on a file and two lent slices, for widths and gains.
pub type Call<'a> = &'a mut dyn FnMut(&[u8], &mut [u32], &mut [u64]) -> CurveAnswer;

/// Lengths of the two slices: enough, one or the other a little more than that; one of them too short, or both.
fn lengths(random: &mut Random) -> [(usize, usize); 5] {
    let (more, fewer) = (MAX_PAIRS + random.below(4), random.below(MAX_PAIRS));
    let enough = random.pick(&[(MAX_PAIRS, MAX_PAIRS), (more, MAX_PAIRS), (MAX_PAIRS, more)]);
    [enough, (MAX_PAIRS, MAX_PAIRS - 1), (MAX_PAIRS - 1, MAX_PAIRS), (fewer, more), (0, fewer)]
}

/// One call; the number that it must return.
fn compare_call(call: Call, file: &[u8], lent: (usize, usize), random: &mut Random) -> Result<u32, String> {
    let (mut widths, mut gains) = (Memory::any(random, lent.0), Memory::any(random, lent.1));
    let answer = call(file, widths.lent(), gains.lent());
    let (right, right_widths, right_gains) = curve(file, lent.0, lent.1);
    same(answer, right)?;
    widths.check(&right_widths).map_err(|difference| format!("of the widths {difference}"))?;
    gains.check(&right_gains).map_err(|difference| format!("of the gains {difference}"))?;
    Ok(right.number)
}

/// The call on slices of several lengths.
fn compare_file(call: Call, asked: &Asked, random: &mut Random, met: &mut Met) -> Result<(), String> {
    for lent in lengths(random) {
        let compared = compare_call(call, &asked.file, lent, random);
        let number = compared.map_err(|difference| format!("{lent:?} lent, {difference}"))?;
        met.call(number);
        if let Some(block) = random_block(asked).filter(|_| number == 0) {
            met.answered.count(&block);
        }
    }
    Ok(())
}

/// Compares so many files; it fails too if the random ones are not complete.
pub fn compare(call: Call, files: usize, seed: u64) -> Result<Met, String> {
    let mut met = Met::default();
    each_file(files, seed, file_for_ticks, |asked, random| compare_file(call, asked, random, &mut met))?;
    every_kind(&met.kinds())?;
    every_kind(&[(met.numbers[10], "no slice was too short"), (met.numbers[11], "no file got 11")])?;
    Ok(met)
}

#[cfg(test)]
mod tests;
