//! The fewest ticks for a wanted saving (document 02, K6) held to the reference.

use super::calls::ticks_by;
use super::{any_file, each_file, every_kind, random_block, same, Asked, Met};
use crate::answers;
use crate::block::{encode, Refusal, MAX_GATES, MAX_PAIRS, MAX_TIME, MAX_WIDTH};
use crate::edition::MAX_EDITION;
use crate::ffi::TicksAnswer;
use crate::generate::ticks::{scattered, uneven_block};
use crate::generate::MIDDLE_GATES;
use crate::random::Random;
use crate::search::Curve;
use crate::timing;
use std::fmt::{Display, Formatter};

/// The call on a file and a wanted saving.
pub type Call<'a> = &'a mut dyn FnMut(&[u8], u64) -> TicksAnswer;

/// Wanted savings of a file: nothing, one, all that 64 bits hold and any number; of one that gets its curve besides what no tick,
/// the ticks up to the end of a pair, any ticks and all ticks earn, one less and one more, and some between.
fn wanted_savings(random: &mut Random, curve: &Result<Curve, Refusal>) -> Vec<u64> {
    let mut wanted = vec![0, 1, u64::MAX, random.next()];
    if let Ok(curve) = curve {
        let pairs = random.below(curve.pairs.len() + 1);
        let end = curve.pairs[..pairs].iter().map(|pair| pair.0).sum();
        let any = random.below(curve.ticks() as usize + 1) as u64;
        for ticks in [0, end, any, curve.ticks()] {
            let saving = curve.counted_off(ticks);
            wanted.extend([saving.saturating_sub(1), saving, saving + 1]);
        }
        wanted.extend(scattered(random, curve, 4));
    }
    wanted
}

/// A file as the other calls are compared on; every eighth one of uneven gains and with wide steps, so that the curve is often
/// longer than a deadline can be.
pub fn file_for_ticks(random: &mut Random) -> Vec<u8> {
    if !random.chance(1, 8) {
        return any_file(random);
    }
    let edition = random.between(1, u32::from(MAX_EDITION)) as u8;
    let most_gates = random.pick(&[MAX_GATES, MIDDLE_GATES, MIDDLE_GATES, MIDDLE_GATES, MIDDLE_GATES]);
    let gates = 1 + random.below(most_gates);
    encode(&uneven_block(random, edition, gates, MAX_WIDTH))
}

/// What was met; of the random files how often no tick was enough, some ticks were needed, more than a deadline can leave, and a
/// late block was answered.
#[derive(Default)]
pub struct Compared {
    pub met: Met,
    pub none: usize,
    pub some: usize,
    pub beyond_deadlines: usize,
    pub late: usize,
}

impl Compared {
    fn count(&mut self, answer: &TicksAnswer, late: bool) {
        if answer.number == 0 {
            self.none += usize::from(answer.ticks == 0);
            self.some += usize::from(answer.ticks > 0);
            self.beyond_deadlines += usize::from(answer.ticks > u64::from(MAX_TIME));
            self.late += usize::from(late);
        }
    }

    fn file(&mut self, call: Call, asked: &Asked, random: &mut Random) -> Result<(), String> {
        let curve = answers::curve(&asked.file, MAX_PAIRS, MAX_PAIRS);
        let block = random_block(asked).filter(|_| curve.is_ok());
        let late = block.as_ref().map_or(false, |block| timing::spare(block) < 0);
        for wanted in wanted_savings(random, &curve) {
            let right = ticks_by(&curve, wanted);
            let compared = same(call(&asked.file, wanted), right);
            compared.map_err(|difference| format!("{wanted} wanted, {difference}"))?;
            if asked.is_random {
                self.count(&right, late);
            }
            self.met.call(right.number);
        }
        block.iter().for_each(|block| self.met.answered.count(block));
        Ok(())
    }
}

impl Display for Compared {
    fn fmt(&self, f: &mut Formatter) -> std::fmt::Result {
        let Compared { met, none, some, beyond_deadlines, late } = self;
        write!(
            f,
            "{met}; {none} times no tick, {some} times some, {beyond_deadlines} times more than a deadline can leave, {late} \
            answers of late blocks; {} times 17",
            met.numbers[17]
        )
    }
}

/// Compares so many files; it fails too if the random ones are not complete.
pub fn compare(call: Call, files: usize, seed: u64) -> Result<Compared, String> {
    let mut compared = Compared::default();
    each_file(files, seed, file_for_ticks, |asked, random| compared.file(call, asked, random))?;
    every_kind(&compared.met.kinds())?;
    every_kind(&[
        (compared.none, "no random file needed no tick"),
        (compared.some, "no random file needed a tick"),
        (compared.beyond_deadlines, "no random file needed more ticks than a deadline can leave"),
        (compared.late, "no random block that is late was answered"),
        (compared.met.numbers[11], "no file got 11"),
        (compared.met.numbers[17], "no file got 17"),
    ])?;
    Ok(compared)
}

#[cfg(test)]
mod tests;
