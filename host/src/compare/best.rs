//! The best increases held to the reference, in finer ticks too.

use super::calls::best_increases;
use super::{
    any_file, compare_lengths, complete, each_file, elevens, every_kind, random_block, same, Asked, Met, Writing,
};
use crate::block::{decode, encode, MAX_GATES};
use crate::ffi::Answer;
use crate::finer::{scaled, scaled_best};
use crate::random::Random;
use crate::search::Best;
use std::fmt::{Display, Formatter};

/// The call on a file and a lent slice of bytes.
pub type Call<'a> = Writing<'a, u8>;

/// What the call says of a file, its refusal or the list that it writes with the saving.
fn said(call: Call, file: &[u8]) -> Result<Best, Answer> {
    let mut lent = [0; 4 * MAX_GATES];
    let answer = call(file, &mut lent);
    if answer.number != 0 {
        return Err(answer);
    }
    let increase = |bytes: &[u8]| u32::from_be_bytes(bytes.try_into().expect("four bytes"));
    let increases = lent.chunks_exact(4).take(answer.place as usize).map(increase).collect();
    Ok(Best { increases, saving: answer.saving })
}

/// The file of the same block in ticks m times as fine (document 02, K14), where there is one.
fn finer_file(file: &[u8], m: u32) -> Option<Vec<u8>> {
    scaled(&decode(file).ok()?, m).map(|finer| encode(&finer))
}

/// That the call says m times of a file in ticks m times as fine what it says of the file; a refusal is to stay as it is.
fn compare_finer(call: Call, file: &[u8], finer: &[u8], m: u32) -> Result<(), String> {
    let right = said(call, file).map(|best| scaled_best(&best, m));
    same(said(call, finer), right).map_err(|difference| format!("{m} times as fine: {difference}"))
}

/// What was met; of the random files the places of 11, and how many of those that were sized were so in finer ticks too.
#[derive(Default)]
pub struct Compared {
    pub met: Met,
    pub places: Vec<u32>,
    pub finer: usize,
}

impl Compared {
    fn file(&mut self, call: Call, asked: &Asked, random: &mut Random) -> Result<(), String> {
        compare_lengths(call, best_increases, &asked.file, 4, random, &mut self.met)?;
        let m = random.pick(&[2, 3, 5, 10]);
        let finer = finer_file(&asked.file, m);
        if let Some(finer) = &finer {
            compare_finer(call, &asked.file, finer, m)?;
        }
        if let Some(block) = random_block(asked) {
            match best_increases(&asked.file, 4 * MAX_GATES).0 {
                Answer { number: 0, .. } => {
                    self.met.answered.count(&block);
                    self.finer += usize::from(finer.is_some());
                }
                Answer { number: 11, place, .. } => self.places.push(place),
                _ => {}
            }
        }
        Ok(())
    }
}

impl Display for Compared {
    fn fmt(&self, f: &mut Formatter) -> std::fmt::Result {
        write!(f, "{}, {} in finer ticks too; {}", self.met, self.finer, elevens(&self.places))
    }
}

/// Compares so many files; it fails too if the random ones are not complete.
pub fn compare(call: Call, files: usize, seed: u64) -> Result<Compared, String> {
    let mut compared = Compared::default();
    each_file(files, seed, any_file, |asked, random| compared.file(call, asked, random))?;
    complete(&compared.places, &compared.met.answered)?;
    every_kind(&[(compared.finer, "no random block was sized in finer ticks")])?;
    Ok(compared)
}

#[cfg(test)]
mod tests;
