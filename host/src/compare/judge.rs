//! The verdict on a list held to the reference.

use super::calls::judge;
use super::memory::{any_elements, Memory};
use super::{any_file, each_file, every_kind, random_block, same, Asked, Met, MOST_LENT};
use crate::answers::well_formed;
use crate::block::{Block, Gate};
use crate::exact;
use crate::ffi::Answer;
use crate::random::Random;
use std::fmt::{Display, Formatter};

/// The call on a file and a lent slice.
pub type Call<'a> = &'a mut dyn FnMut(&[u8], &[u32]) -> Answer;

/// The list with another increase at one gate.
fn with(list: &[u32], gate: usize, increase: u32) -> Vec<u32> {
    let mut list = list.to_vec();
    list[gate] = increase;
    list
}

/// Lists for a block: no increase, all widths, some of them, the best list; each also with one tick more, one tick less and an
/// increase beyond its widths at some gate; and numbers of any size.
fn lists(block: &Block, random: &mut Random) -> Vec<Vec<u32>> {
    let n = block.gates.len();
    let widths: Vec<u32> = block.gates.iter().map(Gate::widths).collect();
    let some = widths.iter().map(|&width| random.between(0, width)).collect();
    let best = exact::best(block).map_or(vec![0; n], |best| best.increases);
    let mut lists = vec![any_elements(random, n)];
    for list in [vec![0; n], widths.clone(), some, best] {
        let gate = random.below(n);
        let beyond = random.pick(&[widths[gate] + 1, widths[gate] + 65_536, u32::MAX]);
        let other = [list[gate] + 1, list[gate].saturating_sub(1), beyond];
        lists.extend(other.map(|increase| with(&list, gate, increase)));
        lists.push(list);
    }
    lists
}

/// Slices for a file: each list of its block as it is and with anything behind it, one cut short; of another file any numbers.
fn slices(file: &[u8], random: &mut Random) -> Vec<Vec<u32>> {
    let mut slices = vec![Vec::new()];
    match well_formed(file) {
        Err(_) => {
            let count = random.below(MOST_LENT);
            slices.push(any_elements(random, count));
        }
        Ok(block) => {
            for list in lists(&block, random) {
                let behind = any_elements(random, 1 + list.len() % 11);
                slices.push([&list[..], &behind].concat());
                slices.push(list);
            }
            slices.push(vec![0; random.below(block.gates.len())]);
            slices.push(vec![0; block.gates.len() - 1]);
        }
    }
    slices
}

/// What was met; how many lists of random files were in time with some increase.
#[derive(Default)]
pub struct Compared {
    pub met: Met,
    pub saving: usize,
}

impl Compared {
    fn file(&mut self, call: Call, asked: &Asked, random: &mut Random) -> Result<(), String> {
        let mut accepted = false;
        for slice in slices(&asked.file, random) {
            let mut memory = Memory::holding(random, &slice);
            let answer = call(&asked.file, memory.lent());
            let right = judge(&asked.file, &slice);
            let compared = same(answer, right).and_then(|_| memory.check(&[]));
            compared.map_err(|difference| format!("{slice:?} lent, {difference}"))?;
            self.met.call(right.number);
            self.saving += usize::from(asked.is_random && right.saving > 0);
            accepted |= right.number == 0;
        }
        if let Some(block) = random_block(asked).filter(|_| accepted) {
            self.met.answered.count(&block);
        }
        Ok(())
    }
}

impl Display for Compared {
    fn fmt(&self, f: &mut Formatter) -> std::fmt::Result {
        let [outside, late] = [13, 14].map(|number: usize| self.met.numbers[number]);
        write!(f, "{}; {} of their lists save something; {outside} times 13, {late} times 14", self.met, self.saving)
    }
}

/// Compares so many files; it fails too if the random ones are not complete.
pub fn compare(call: Call, files: usize, seed: u64) -> Result<Compared, String> {
    let mut compared = Compared::default();
    each_file(files, seed, any_file, |asked, random| compared.file(call, asked, random))?;
    every_kind(&compared.met.kinds())?;
    every_kind(&[
        (compared.met.numbers[10], "no slice was too short"),
        (compared.met.numbers[13], "no list got 13"),
        (compared.met.numbers[14], "no list got 14"),
        (compared.saving, "no list of a random block saved anything"),
    ])?;
    Ok(compared)
}

#[cfg(test)]
mod tests;
