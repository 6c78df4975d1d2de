//! The wanted savings of a case, and the fewest ticks for them (document 02, K6).

use crate::answers::{self, fewest_on, FewestTicks};
use crate::block::MAX_PAIRS;
use crate::search::Curve;

/// Wanted savings that a record has at most.
pub const MOST_WANTED: usize = 8;

/// Ticks that end in the middle of a pair, where there is one; the pair is chosen by `choice`.
fn inside(curve: &Curve, choice: usize) -> u64 {
    if curve.pairs.is_empty() {
        return 0;
    }
    let chosen = choice % curve.pairs.len();
    let before: u64 = curve.pairs[..chosen].iter().map(|pair| pair.0).sum();
    before + (curve.pairs[chosen].0 + 1) / 2
}

/// The wanted savings of a file that gets its curve: nothing; what no tick, some ticks and all ticks earn, and one more each; and
/// all that 64 bits hold. Of another file the first and the last. Where the ticks are m times as fine as in another file, the
/// ticks in the middle are m times as many as there.
pub fn wanted(file: &[u8], choice: usize, m: u64) -> Vec<u64> {
    let curve = match answers::curve(file, MAX_PAIRS, MAX_PAIRS) {
        Ok(curve) => curve,
        Err(_) => return vec![0, u64::MAX],
    };
    let coarse = Curve { pairs: curve.pairs.iter().map(|&(width, gain)| (width / m, gain)).collect(), ..curve };
    let earned = [0, m * inside(&coarse, choice), curve.ticks()].map(|ticks| curve.counted_off(ticks));
    let mut wanted = vec![0];
    wanted.extend(earned.iter().flat_map(|saving| [*saving, saving + 1]));
    wanted.push(u64::MAX);
    wanted
}

/// The fewest ticks for each of the wanted savings of a file.
pub fn fewest(file: &[u8], wanted: &[u64]) -> Vec<FewestTicks> {
    match answers::curve(file, MAX_PAIRS, MAX_PAIRS) {
        Ok(curve) => wanted.iter().map(|&wanted| fewest_on(&curve, wanted)).collect(),
        Err(refusal) => vec![Err(refusal); wanted.len()],
    }
}
