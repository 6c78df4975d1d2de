//! Mistakes that the comparison of the verdict must notice.

use super::*;
use crate::block::{decode, encode};
use crate::{parts, timing};

fn noticed(call: Call) -> bool {
    compare(call, 700, 8).is_err()
}

#[test]
fn the_reference_is_like_itself_and_every_number_occurs() {
    let compared = compare(&mut judge, 1_150, 8).ok().expect("no difference");
    let numbers = compared.met.numbers;
    assert!((0..=14).all(|number| (numbers[number] > 0) != [11, 12].contains(&number)), "{numbers:?}");
    assert!(numbers[15..].iter().all(|&count| count == 0));
    assert!(!noticed(&mut judge));
}

/// The first files are not random.
#[test]
fn without_random_files_it_fails() {
    assert!(compare(&mut judge, 20, 8).is_err());
}

#[test]
fn a_wrong_answer_is_noticed() {
    let changes: [fn(&mut Answer); 6] = [
        |answer| answer.saving += u64::from(answer.number == 0),
        |answer| answer.place += u32::from(answer.number == 0),
        |answer| answer.saving += u64::from(answer.number == 14),
        |answer| answer.place += u32::from(answer.number == 13),
        |answer| answer.place *= if answer.number == 10 { 4 } else { 1 },
        |answer| answer.saving %= 1 << 32,
    ];
    for change in changes {
        assert!(noticed(&mut |file, lent| {
            let mut answer = judge(file, lent);
            change(&mut answer);
            answer
        }));
    }
}

/// 13 and 14 exchanged or in the other order; 11 and 12 where the best increases get them.
#[test]
fn another_refusal_is_noticed() {
    assert!(noticed(&mut |file, lent| match judge(file, lent) {
        Answer { number: 13, .. } => Answer { number: 14, place: 0, saving: 0 },
        answer => answer,
    }));
    let outside = |block: &Block, lent: &[u32]| timing::longest(block, &lent[..block.gates.len()]) > 65_535;
    assert!(noticed(&mut |file, lent| match (judge(file, lent), decode(file)) {
        (Answer { number: 13, .. }, Ok(block)) if outside(&block, lent) => Answer { number: 14, place: 0, saving: 0 },
        (answer, _) => answer,
    }));
    let refused: [(u32, fn(&Block) -> bool); 2] =
        [(11, |block| !parts::reduces(block)), (12, |block| timing::spare(block) < 0)];
    for (number, is_refused) in refused {
        assert!(noticed(&mut |file, lent| match well_formed(file) {
            Ok(block) if is_refused(&block) && lent.len() >= block.gates.len() =>
                Answer { number, place: 0, saving: 0 },
            _ => judge(file, lent),
        }));
    }
}

/// The highest gate at fault in place of the lowest; a gate behind the last judged; the last gate left out.
#[test]
fn other_elements_judged_are_noticed() {
    assert!(noticed(&mut |file, lent| match (judge(file, lent), decode(file)) {
        (answer @ Answer { number: 13, .. }, Ok(block)) => {
            let at_fault = |gate: &usize| lent[*gate] > block.gates[*gate].widths();
            let highest = (0..block.gates.len()).rev().find(at_fault).expect("a gate at fault");
            Answer { place: highest as u32, ..answer }
        }
        (answer, _) => answer,
    }));
    assert!(noticed(&mut |file, lent| match well_formed(file) {
        Ok(block) if lent.len() > block.gates.len() => judge(file, &lent[1..]),
        _ => judge(file, lent),
    }));
    assert!(noticed(&mut |file, lent| match well_formed(file) {
        Ok(block) if lent.len() >= block.gates.len() => judge(file, &with(lent, block.gates.len() - 1, 0)),
        _ => judge(file, lent),
    }));
    assert!(noticed(&mut |file, lent| judge(
        file,
        &lent.iter().map(|&increase| increase % 65_536).collect::<Vec<_>>()
    )));
}

/// The arrival left out; a deadline one tick sooner or later.
#[test]
fn another_time_is_noticed() {
    let changes: [fn(&mut Block); 3] = [
        |block| block.arrival = 0,
        |block| block.deadline = block.deadline.saturating_sub(1),
        |block| block.deadline = (block.deadline + 1).min(65_535),
    ];
    for change in changes {
        assert!(noticed(&mut |file, lent| match decode(file) {
            Ok(mut block) => {
                change(&mut block);
                judge(&encode(&block), lent)
            }
            Err(_) => judge(file, lent),
        }));
    }
}
