//! Mistakes that the comparison of the slacks must notice.

use super::*;
use crate::answers::well_formed;
use crate::block::{decode, encode, Block};
use crate::ffi::Answer;

/// The reference itself, as a call.
fn right(file: &[u8], lent: &mut [i32]) -> Answer {
    let (answer, written) = slacks(file, lent.len());
    lent[..written.len()].copy_from_slice(&written);
    answer
}

fn noticed(call: Call) -> bool {
    compare(call, 700, 7).is_err()
}

#[test]
fn the_reference_is_like_itself_and_every_number_occurs() {
    let compared = compare(&mut right, 1_150, 7).ok().expect("no difference");
    assert!((0..=10).all(|number| compared.met.numbers[number] > 0), "{:?}", compared.met.numbers);
    assert!(compared.met.numbers[11..].iter().all(|&count| count == 0));
    assert!(!noticed(&mut right));
}

/// The first files are not random.
#[test]
fn without_random_files_it_fails() {
    assert!(compare(&mut right, 20, 7).is_err());
}

#[test]
fn a_wrong_answer_is_noticed() {
    let changes: [fn(&mut Answer); 5] = [
        |answer| answer.place += u32::from(answer.number == 0),
        |answer| answer.saving += u64::from(answer.number == 0),
        |answer| answer.saving += u64::from(answer.number == 10),
        |answer| answer.place *= if answer.number == 10 { 4 } else { 1 },
        |answer| answer.place += u32::from(answer.number == 9),
    ];
    for change in changes {
        assert!(noticed(&mut |file, lent| {
            let mut answer = right(file, lent);
            change(&mut answer);
            answer
        }));
    }
}

/// 11 and 12 where the best increases get them.
#[test]
fn a_needless_refusal_is_noticed() {
    let refused: [(u32, fn(&Block) -> bool); 2] =
        [(11, |block| !parts::reduces(block)), (12, |block| timing::spare(block) < 0)];
    for (number, is_refused) in refused {
        assert!(noticed(&mut |file, lent| match well_formed(file) {
            Ok(block) if is_refused(&block) => Answer { number, place: 0, saving: 0 },
            _ => right(file, lent),
        }));
    }
}

/// The arrival left out, negative slacks cut at 0, bytes in the other order, the slacks of the gates in reverse; an element behind
/// the gates, or one lent to a refused call, changed.
#[test]
fn wrong_elements_are_noticed() {
    assert!(noticed(&mut |file, lent| match decode(file) {
        Ok(block) => right(&encode(&Block { arrival: 0, ..block }), lent),
        Err(_) => right(file, lent),
    }));
    let changes: [fn(&mut [i32]); 3] = [
        |slacks| slacks.iter_mut().for_each(|slack| *slack = (*slack).max(0)),
        |slacks| slacks.iter_mut().for_each(|slack| *slack = slack.swap_bytes()),
        |slacks| slacks.reverse(),
    ];
    for change in changes {
        assert!(noticed(&mut |file, lent| {
            let answer = right(file, lent);
            if answer.number == 0 {
                change(&mut lent[..answer.place as usize]);
            }
            answer
        }));
    }
    for number in [0, 1, 10] {
        assert!(noticed(&mut |file, lent| {
            let answer = right(file, lent);
            let behind = if number == 0 { answer.place as usize } else { 0 };
            lent.iter_mut().skip(behind).filter(|_| answer.number == number).take(1).for_each(|slack| *slack ^= 1);
            answer
        }));
    }
}
