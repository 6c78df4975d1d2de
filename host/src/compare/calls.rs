//! What the library's calls must return and write, by the reference.

use crate::answers::{self, fewest_on};
use crate::block::{Refusal, MAX_PAIRS};
use crate::ffi::{Answer, CurveAnswer, TicksAnswer};
use crate::search::Curve;

/// A refusal as best increases, slacks and judging return it.
pub fn refused(Refusal { number, place }: Refusal) -> Answer {
    Answer { number, place, saving: 0 }
}

/// An answer with so many gates, and a saving.
fn accepted(gates: usize, saving: u64) -> Answer {
    Answer { number: 0, place: gates as u32, saving }
}

/// The bytes of a list: four for each increase, high byte first.
pub fn bytes_of(increases: &[u32]) -> Vec<u8> {
    increases.iter().flat_map(|x| x.to_be_bytes()).collect()
}

/// The best increases to so many bytes: the answer and the bytes that are written.
pub fn best_increases(file: &[u8], lent: usize) -> (Answer, Vec<u8>) {
    match answers::layout_call(file, lent) {
        Err(refusal) => (refused(refusal), Vec::new()),
        Ok(best) => (accepted(best.increases.len(), best.saving), bytes_of(&best.increases)),
    }
}

/// The slacks to so many elements: the answer and the slacks that are written.
pub fn slacks(file: &[u8], lent: usize) -> (Answer, Vec<i32>) {
    match answers::slacks(file, lent) {
        Err(refusal) => (refused(refusal), Vec::new()),
        Ok(slacks) => {
            let slacks: Vec<i32> = slacks.into_iter().map(|slack| slack.try_into().expect("32 bits")).collect();
            (accepted(slacks.len(), 0), slacks)
        }
    }
}

/// The curve to so many elements each: the answer, and the widths and gains that are written.
pub fn curve(file: &[u8], lent_widths: usize, lent_gains: usize) -> (CurveAnswer, Vec<u32>, Vec<u64>) {
    let number = |number: u64| u32::try_from(number).expect("32 bits");
    match answers::curve(file, lent_widths, lent_gains) {
        Err(Refusal { number, place }) => {
            (CurveAnswer { number, place, ..CurveAnswer::default() }, Vec::new(), Vec::new())
        }
        Ok(Curve { start, at_start, pairs }) => {
            let (start, count) = (number(start), pairs.len() as u32);
            let (widths, gains) = pairs.into_iter().map(|(width, gain)| (number(width), gain)).unzip();
            (CurveAnswer { number: 0, place: 0, start, pairs: count, at_start }, widths, gains)
        }
    }
}

/// The verdict on the list that stands in front of the elements lent.
pub fn judge(file: &[u8], lent: &[u32]) -> Answer {
    answers::judge(file, lent).map_or_else(refused, |saving| accepted(0, saving))
}

/// The fewest ticks by the curve of the file or its refusal.
pub fn ticks_by(curve: &Result<Curve, Refusal>, wanted: u64) -> TicksAnswer {
    match curve.as_ref().map_err(|refusal| *refusal).and_then(|curve| fewest_on(curve, wanted)) {
        Ok(ticks) => TicksAnswer { number: 0, place: 0, ticks },
        Err(Refusal { number, place }) => TicksAnswer { number, place, ticks: 0 },
    }
}

/// The same of a file.
pub fn fewest_ticks(file: &[u8], wanted: u64) -> TicksAnswer {
    ticks_by(&answers::curve(file, MAX_PAIRS, MAX_PAIRS), wanted)
}

#[cfg(test)]
mod tests {
    use super::*;
    use crate::block::encode;
    use crate::worked::{diamond, U};

    /// D, late where the deadline plays a part.
    #[test]
    fn answers_by_hand() {
        let (d, late) = (encode(&diamond(10)), encode(&diamond(0)));
        let increases = vec![0, 0, 0, 0, 0, 0, 0, 0, 0, 0, 0, 2, 0, 0, 0, 3];
        assert_eq!(best_increases(&d, 16), (Answer { number: 0, place: 4, saving: 44 * U }, increases));
        assert_eq!(slacks(&d, 4), (Answer { number: 0, place: 4, saving: 0 }, vec![3, 3, 5, 3]));
        assert_eq!(slacks(&late, 9).1, [-7, -7, -5, -7]);
        assert_eq!(judge(&d, &[0, 0, 0, 3, 99]), Answer { number: 0, place: 0, saving: 36 * U });
        let (answer, widths, gains) = curve(&late, MAX_PAIRS, MAX_PAIRS);
        assert_eq!(answer, CurveAnswer { number: 0, place: 0, start: 7, pairs: 3, at_start: 8 * U });
        assert_eq!((widths, gains), (vec![5, 2, 3], vec![12 * U, 9 * U, 2 * U]));
        let ticks = [44 * U, 44 * U + 1].map(|wanted| fewest_ticks(&late, wanted));
        assert_eq!(ticks, [3, 4].map(|ticks| TicksAnswer { number: 0, place: 0, ticks }));
    }

    #[test]
    fn refusals_by_hand() {
        let (d, late) = (encode(&diamond(10)), encode(&diamond(0)));
        let refused = |number, place| Answer { number, place, saving: 0 };
        assert_eq!(best_increases(&d, 15), (refused(10, 16), Vec::new()));
        assert_eq!(best_increases(&late, 16), (refused(12, 0), Vec::new()));
        assert_eq!(slacks(&d, 3), (refused(10, 4), Vec::new()));
        assert_eq!(judge(&d, &[0, 0, 0]), refused(10, 4));
        assert_eq!(judge(&d, &[0, 6, 0, 9]), refused(13, 1));
        assert_eq!(judge(&d, &[0, 0, 2, 4]), refused(14, 0));
        let short = CurveAnswer { number: 10, place: MAX_PAIRS as u32, ..CurveAnswer::default() };
        assert_eq!(curve(&late, MAX_PAIRS, MAX_PAIRS - 1), (short, Vec::new(), Vec::new()));
        assert_eq!(fewest_ticks(&late, 92 * U + 1), TicksAnswer { number: 17, place: 0, ticks: 0 });
        assert_eq!(fewest_ticks(&late[..20], 0), TicksAnswer { number: 1, place: 18, ticks: 0 });
    }
}
