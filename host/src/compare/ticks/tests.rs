//! Mistakes that the comparison of the fewest ticks must notice.

use super::*;
use crate::block::decode;
use crate::compare::calls::fewest_ticks;

fn noticed(call: Call) -> bool {
    compare(call, 750, 6).is_err()
}

/// The reference with another answer where a block gets its curve and the fewest ticks are given.
fn other_ticks(file: &[u8], wanted: u64, other: impl Fn(&Curve, u64) -> u64) -> TicksAnswer {
    let curve = answers::curve(file, MAX_PAIRS, MAX_PAIRS);
    let right = ticks_by(&curve, wanted);
    match curve {
        Ok(curve) if right.number == 0 => TicksAnswer { ticks: other(&curve, right.ticks), ..right },
        _ => right,
    }
}

/// The reference with another curve.
fn on_other(file: &[u8], wanted: u64, change: impl Fn(&mut Curve)) -> TicksAnswer {
    let mut curve = answers::curve(file, MAX_PAIRS, MAX_PAIRS);
    curve.iter_mut().for_each(change);
    ticks_by(&curve, wanted)
}

#[test]
fn the_reference_is_like_itself_and_every_number_occurs() {
    let compared = compare(&mut fewest_ticks, 1_500, 6).ok().expect("no difference");
    for number in [0, 1, 2, 3, 4, 5, 6, 7, 8, 9, 11, 17] {
        assert!(compared.met.numbers[number] > 0, "number {number} does not occur");
    }
    assert!([10, 12, 13, 14].iter().all(|&number| compared.met.numbers[number] == 0));
    assert!(!noticed(&mut fewest_ticks));
}

/// The first files are not random.
#[test]
fn without_random_files_it_fails() {
    assert!(compare(&mut fewest_ticks, 20, 6).is_err());
}

/// A tick too few where the last one is not earned in full, one too many where it is, and the end of a pair; the ticks in 16 bits;
/// at least one; at most what the deadline leaves.
#[test]
fn another_number_of_ticks_is_noticed() {
    assert!(noticed(&mut |file, wanted| other_ticks(file, wanted, |curve, ticks| {
        ticks - u64::from(ticks > 0 && curve.counted_off(ticks) > wanted)
    })));
    assert!(noticed(&mut |file, wanted| other_ticks(file, wanted, |curve, ticks| {
        ticks + u64::from(curve.counted_off(ticks) == wanted && ticks < curve.ticks())
    })));
    assert!(noticed(&mut |file, wanted| other_ticks(file, wanted, |curve, ticks| {
        let mut end = 0;
        for pair in curve.pairs.iter().take_while(|_| ticks > 0) {
            end += pair.0;
            if end >= ticks {
                break;
            }
        }
        end
    })));
    let others: [fn(u64) -> u64; 3] = [|ticks| ticks % 65_536, |ticks| ticks.max(1), |ticks| ticks.min(65_535)];
    for other in others {
        assert!(noticed(&mut |file, wanted| other_ticks(file, wanted, |_, ticks| other(ticks))));
    }
}

/// The saving at start not counted; the last pair, the first pair left out; the last pair a tick shorter.
#[test]
fn another_curve_is_noticed() {
    let changes: [fn(&mut Curve); 4] = [
        |curve| curve.at_start = 0,
        |curve| curve.pairs.truncate(curve.pairs.len().saturating_sub(1)),
        |curve| curve.pairs = curve.pairs.split_off(curve.pairs.len().min(1)),
        |curve| curve.pairs.iter_mut().rev().take(1).for_each(|pair| pair.0 -= 1),
    ];
    for change in changes {
        assert!(noticed(&mut |file, wanted| on_other(file, wanted, change)));
    }
}

/// 12 for a late block; 17 before 11, and with another place; ticks beside a refusal, a place beside ticks.
#[test]
fn another_refusal_is_noticed() {
    let late = |file: &[u8]| decode(file).map_or(false, |block| timing::spare(&block) < 0);
    assert!(noticed(&mut |file, wanted| match fewest_ticks(file, wanted) {
        answer if answer.number == 0 && late(file) => TicksAnswer { number: 12, place: 0, ticks: 0 },
        answer => answer,
    }));
    assert!(noticed(&mut |file, wanted| match fewest_ticks(file, wanted) {
        answer if answer.number == 11 && wanted == u64::MAX => TicksAnswer { number: 17, place: 0, ticks: 0 },
        answer => answer,
    }));
    let changes: [fn(&mut TicksAnswer); 4] = [
        |answer| answer.place += u32::from(answer.number == 17),
        |answer| answer.ticks += u64::from(answer.number == 17),
        |answer| answer.ticks += u64::from(answer.number == 1),
        |answer| answer.place += u32::from(answer.number == 0),
    ];
    for change in changes {
        assert!(noticed(&mut |file, wanted| {
            let mut answer = fewest_ticks(file, wanted);
            change(&mut answer);
            answer
        }));
    }
}
