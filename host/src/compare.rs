//! The library's calls held to the reference, on files of every edition, valid and damaged; what calls them is handed in.

pub mod best;
pub mod calls;
pub mod curve;
pub mod judge;
pub mod memory;
pub mod slacks;
pub mod ticks;

use crate::answers::well_formed;
use crate::block::{encode, Block, MAX_GATES};
use crate::ffi::Answer;
use crate::generate::editions::Counted;
use crate::generate::{compared_block, MIDDLE_GATES};
use crate::random::Random;
use crate::{boundaries, damage, text, worked};
use memory::{Element, Memory};
use std::cmp::Reverse;
use std::collections::HashSet;
use std::fmt::{Debug, Display, Formatter};

/// More elements than any block has gates.
const MOST_LENT: usize = MAX_GATES + 11;

/// How many gates a random block has at most: mostly few, since the reference needs long for many.
fn most_gates(random: &mut Random) -> usize {
    if random.chance(1, 8) {
        MAX_GATES
    } else {
        random.pick(&[4, 8, 8, 16, MIDDLE_GATES])
    }
}

/// A block file of any edition, every third one damaged.
fn any_file(random: &mut Random) -> Vec<u8> {
    let most_gates = most_gates(random);
    let file = encode(&compared_block(random, most_gates));
    if random.chance(1, 3) {
        damage::damaged(random, &file)
    } else {
        file
    }
}

/// Files that are compared before random ones, the last one first: boundaries and worked cases, by falling length.
fn fixed_files() -> Vec<Vec<u8>> {
    let worked = worked::all().into_iter().map(|w| w.file);
    let mut files: Vec<Vec<u8>> = worked.chain(boundaries::all().into_iter().map(|b| b.file)).collect();
    files.sort_by_key(|file| Reverse(file.len()));
    files
}

/// A file to compare, and whether it is a random one.
struct Asked {
    file: Vec<u8>,
    is_random: bool,
}

/// Compares so many files: boundaries and worked cases, then random ones as `draw` makes them; the first difference ends it, with
/// the file.
fn each_file(
    files: usize,
    seed: u64,
    draw: fn(&mut Random) -> Vec<u8>,
    mut compare: impl FnMut(&Asked, &mut Random) -> Result<(), String>,
) -> Result<(), String> {
    let random = &mut Random::from_seed(seed);
    let mut waiting = fixed_files();
    for _ in 0..files {
        let is_random = waiting.is_empty();
        let asked = Asked { file: waiting.pop().unwrap_or_else(|| draw(random)), is_random };
        let compared = compare(&asked, random);
        compared.map_err(|difference| format!("{difference}, for {}", text::shown(&asked.file)))?;
    }
    Ok(())
}

/// That a call returned what it must, or what it returned.
fn same<T: Debug + PartialEq>(found: T, right: T) -> Result<(), String> {
    if found == right {
        Ok(())
    } else {
        Err(format!("{found:?} in place of {right:?}"))
    }
}

/// That something was met of each kind, or what is said of the first kind that was not.
fn every_kind(kinds: &[(usize, &str)]) -> Result<(), String> {
    match kinds.iter().find(|kind| kind.0 == 0) {
        Some(kind) => Err(kind.1.to_string()),
        None => Ok(()),
    }
}

/// How many calls were compared and how often each number came back; of the random files those that were answered.
#[derive(Default)]
pub struct Met {
    pub calls: usize,
    pub numbers: [usize; 18],
    pub answered: Counted,
}

impl Met {
    fn call(&mut self, number: u32) {
        self.calls += 1;
        self.numbers[number as usize] += 1;
    }

    /// How many random files with wire delays, with measured activities and of many gates were answered, as kinds that there must
    /// be.
    fn kinds(&self) -> [(usize, &'static str); 3] {
        [
            (self.answered.delayed, "no random block with a wire delay above 0 was answered"),
            (self.answered.measured, "no random block with measured activities was answered"),
            (self.answered.large, "no random block of more gates than before K10 was answered"),
        ]
    }
}

impl Display for Met {
    fn fmt(&self, f: &mut Formatter) -> std::fmt::Result {
        write!(f, "{} calls, {} accepted; of the random blocks answered {}", self.calls, self.numbers[0], self.answered)
    }
}

/// The block of a random file that is well-formed.
fn random_block(asked: &Asked) -> Option<Block> {
    well_formed(&asked.file).ok().filter(|_| asked.is_random)
}

/// A call that writes to one lent slice.
pub type Writing<'a, T> = &'a mut dyn FnMut(&[u8], &mut [T]) -> Answer;

/// What such a call must return and write to a slice of so many elements.
type Written<T> = fn(&[u8], usize) -> (Answer, Vec<T>);

/// Lengths of a lent slice with so many elements for each gate: enough, just enough, one too few, none, any.
fn lengths(file: &[u8], for_each: usize, random: &mut Random) -> [usize; 5] {
    let needed = well_formed(file).map_or(0, |block| for_each * block.gates.len());
    [for_each * MAX_GATES, needed, needed.saturating_sub(1), 0, random.below(for_each * MOST_LENT)]
}

/// A call on slices of several lengths that have so many elements for each gate.
fn compare_lengths<T: Element>(
    call: Writing<T>,
    right: Written<T>,
    file: &[u8],
    for_each: usize,
    random: &mut Random,
    met: &mut Met,
) -> Result<(), String> {
    for lent in lengths(file, for_each, random) {
        let mut memory = Memory::any(random, lent);
        let answer = call(file, memory.lent());
        let (right, written) = right(file, lent);
        let compared = same(answer, right).and_then(|_| memory.check(&written));
        compared.map_err(|difference| format!("{lent} lent, {difference}"))?;
        met.call(right.number);
    }
    Ok(())
}

/// That random files which press on document 02's requests were among those compared, or what was missing.
pub fn complete(places: &[u32], sized: &Counted) -> Result<(), String> {
    every_kind(&[
        (places.len(), "no random file got 11"),
        (sized.delayed, "no random block with a wire delay above 0 was sized"),
        (sized.measured, "no random block with measured activities was sized"),
        (sized.tied, "no random block with ties was sized"),
        (sized.large, "no random block of more gates than before K10 was sized"),
    ])
}

/// How many files got 11, and at how many different places, in words.
pub fn elevens(places: &[u32]) -> String {
    let different: HashSet<&u32> = places.iter().collect();
    format!("{} got 11, at {} different places", places.len(), different.len())
}

#[cfg(test)]
mod tests {
    use super::*;

    #[test]
    fn without_a_random_file_of_each_kind_it_fails() {
        let complete = |places: &[u32], [delayed, measured, tied, large]: [usize; 4]| {
            complete(places, &Counted { delayed, measured, tied, large }).is_ok()
        };
        assert!(complete(&[1], [1; 4]) && !complete(&[], [1; 4]));
        assert!([[0, 1, 1, 1], [1, 0, 1, 1], [1, 1, 0, 1], [1, 1, 1, 0]].iter().all(|&sized| !complete(&[1], sized)));
    }

    /// The first files are not random; a difference comes with its file.
    #[test]
    fn every_file_is_compared_and_shown() {
        let (mut fixed, mut random) = (0, 0);
        let all = fixed_files().len();
        let compared = each_file(all + 5, 1, any_file, |asked, _| {
            *(if asked.is_random { &mut random } else { &mut fixed }) += 1;
            Ok(())
        });
        assert_eq!((compared, fixed, random), (Ok(()), all, 5));
        let shown = each_file(1, 1, any_file, |_, _| Err("other".to_string()));
        assert!(shown.unwrap_err().starts_with("other, for the file "));
    }
}
