//! Wrong answers that the comparison of the best increases must notice.

use super::*;
use crate::block::{Block, Wire};
use crate::compare::calls::bytes_of;
use crate::exact::best_from_gate_0;
use crate::parts::gates_left;
use crate::worked;

/// The reference itself, as a call.
fn right(file: &[u8], lent: &mut [u8]) -> Answer {
    let (answer, bytes) = best_increases(file, lent.len());
    lent[..bytes.len()].copy_from_slice(&bytes);
    answer
}

fn noticed(call: Call) -> bool {
    compare(call, 750, 5).is_err()
}

#[test]
fn the_reference_is_like_itself_and_every_number_occurs() {
    let compared = compare(&mut right, 1_500, 5).ok().expect("no difference");
    for number in 0..=12 {
        assert!(compared.met.numbers[number] > 0, "number {number} does not occur");
    }
    assert!(compared.met.numbers[13..].iter().all(|&count| count == 0));
    assert!(!noticed(&mut right));
}

/// The first files are not random.
#[test]
fn without_random_files_it_fails() {
    assert!(compare(&mut right, 20, 5).is_err());
}

#[test]
fn a_wrong_answer_is_noticed() {
    assert!(noticed(&mut |file, lent| Answer { place: 0, ..right(file, lent) }));
    assert!(noticed(&mut |file, lent| Answer { saving: 0, ..right(file, lent) }));
    assert!(noticed(&mut |file, lent| match right(file, lent) {
        Answer { number: 12, .. } => Answer { number: 11, place: 0, saving: 0 },
        answer => answer,
    }));
    assert!(noticed(&mut |file, lent| match right(file, lent) {
        Answer { number: 10, place, saving } => Answer { number: 10, place: place / 4, saving },
        answer => answer,
    }));
}

/// The highest gate left other than the last.
fn highest_left(block: &Block) -> usize {
    let left = gates_left(block, &mut Random::from_seed(1));
    left[left.len() - 2]
}

/// 0, which was the place before document 02's K1; any one gate; the highest in place of the lowest.
#[test]
fn another_place_of_11_is_noticed() {
    let places: [fn(&Block) -> usize; 3] = [|_| 0, |_| 1, highest_left];
    for place in places {
        assert!(noticed(&mut |file, lent| match right(file, lent) {
            answer @ Answer { number: 11, .. } => {
                Answer { place: place(&decode(file).expect("a block")) as u32, ..answer }
            }
            answer => answer,
        }));
    }
}

/// The call with another block in place of the one that the file says.
fn with_block(file: &[u8], lent: &mut [u8], change: impl Fn(&mut Block)) -> Answer {
    match decode(file) {
        Ok(mut block) => {
            change(&mut block);
            right(&encode(&block), lent)
        }
        Err(_) => right(file, lent),
    }
}

/// Delays of all wires left out, read from one of their two bytes, or counted twice; the delay of the first wire, of the
/// last, and of those from gate 0 left out.
#[test]
fn wrong_wire_delays_are_noticed() {
    let wrong: [fn(u32) -> u32; 4] = [|_| 0, |delay| delay % 256, |delay| delay / 256, |delay| (2 * delay).min(4_095)];
    for wrong in wrong {
        assert!(noticed(&mut |file, lent| with_block(file, lent, |block| {
            block.wires.iter_mut().for_each(|wire| wire.delay = wrong(wire.delay));
        })));
    }
    let left_out: [fn(usize, usize, &Wire) -> bool; 3] =
        [|i, _, _| i == 0, |i, last, _| i == last, |_, _, wire| wire.from == 0];
    for left_out in left_out {
        assert!(noticed(&mut |file, lent| with_block(file, lent, |block| {
            let last = block.wires.len().saturating_sub(1);
            let wires = block.wires.iter_mut().enumerate();
            wires.filter(|(i, wire)| left_out(*i, last, wire)).for_each(|(_, wire)| wire.delay = 0);
        })));
    }
}

/// The field at the end of an edition 2 file is left out where it gets this number: a second wire is let pass, or a delay
/// above 4,095.
#[test]
fn a_wire_let_pass_is_noticed() {
    for number in [6, 4] {
        assert!(noticed(&mut |file, lent| match right(file, lent) {
            Answer { number: found, place, .. } if found == number && place > 0 && file[3] == 2 => {
                right(&file[..place as usize], lent)
            }
            answer => answer,
        }));
    }
}

/// Edition 2 or 3 refused; an edition read as the one before, or 3 as 4.
#[test]
fn another_edition_is_noticed() {
    for edition in [2, 3] {
        assert!(noticed(&mut |file, lent| match right(file, lent) {
            answer if answer.number == 0 && file[3] == edition => Answer { number: 4, place: 0, saving: 0 },
            answer => answer,
        }));
    }
    for (edition, read_as) in [(2, 1), (3, 2), (4, 3), (3, 4)] {
        assert!(noticed(&mut |file, lent| {
            let mut file = file.to_vec();
            file.iter_mut().skip(3).take(1).filter(|byte| **byte == edition).for_each(|byte| *byte = read_as);
            right(&file, lent)
        }));
    }
}

/// The call on a file of edition 3 with other activities of its input and its outputs.
fn with_activities(file: &[u8], lent: &mut [u8], input: fn(u32) -> u32, output: fn(u32) -> u32) -> Answer {
    with_block(file, lent, |block| {
        if block.edition == 3 {
            block.switching = input(block.switching);
            block.gates.iter_mut().for_each(|gate| gate.switching = output(gate.switching));
        }
    })
}

/// The formula applied to a measured activity, as far as it can be.
fn by_formula(activity: u32) -> u32 {
    2 * activity * 256u32.saturating_sub(activity)
}

/// Measured activities by the formula, from one of their two bytes, with the bytes exchanged, cut at 256, at the greatest
/// activity of the table, or left out: those of all nets, only the input's, only the outputs'.
#[test]
fn wrong_activities_are_noticed() {
    let wrong: [fn(u32) -> u32; 7] = [
        by_formula,
        |activity| activity % 256,
        |activity| activity / 256,
        |activity| activity % 256 * 256 + activity / 256,
        |activity| activity.min(256),
        |activity| activity.min(32_768),
        |_| 0,
    ];
    for wrong in wrong {
        assert!(noticed(&mut |file, lent| with_activities(file, lent, wrong, wrong)));
        assert!(noticed(&mut |file, lent| with_activities(file, lent, wrong, |activity| activity)));
        assert!(noticed(&mut |file, lent| with_activities(file, lent, |activity| activity, wrong)));
    }
}

/// A number above 256 refused in edition 3, or let pass up to edition 2.
#[test]
fn another_range_of_numbers_is_noticed() {
    let above = |file: &[u8]| decode(file).map_or(false, |block| block.gates.iter().any(|gate| gate.switching > 256));
    assert!(noticed(&mut |file, lent| match right(file, lent) {
        answer if answer.number == 0 && above(file) => Answer { number: 4, place: 0, saving: 0 },
        answer => answer,
    }));
    for edition in [1, 2] {
        assert!(noticed(&mut |file, lent| match right(file, lent) {
            Answer { number: 4, place: 0, .. } if file[3] == edition && file[9] > 0 => {
                let mut passed = file.to_vec();
                passed[9] = 0;
                right(&passed, lent)
            }
            answer => answer,
        }));
    }
}

#[test]
fn room_judged_after_the_parts_is_noticed() {
    assert!(noticed(&mut |file, lent| {
        let answer = right(file, lent);
        let with_room = best_increases(file, 4 * MAX_GATES).0;
        if answer.number == 10 && with_room.number == 11 {
            with_room
        } else {
            answer
        }
    }));
}

#[test]
fn wrong_bytes_are_noticed() {
    assert!(noticed(&mut |file, lent| {
        let answer = right(file, lent);
        if answer.number == 0 {
            lent[..4 * answer.place as usize].chunks_mut(4).for_each(|bytes| bytes.reverse());
        }
        answer
    }));
    assert!(noticed(&mut |file, lent| {
        let answer = right(file, lent);
        if let Some(byte) = lent.get_mut(4 * answer.place as usize) {
            *byte ^= 1;
        }
        answer
    }));
    assert!(noticed(&mut |file, lent| {
        let answer = right(file, lent);
        if answer.number == 12 && !lent.is_empty() {
            lent[0] ^= 255;
        }
        answer
    }));
}

/// The best list in the order from gate 0, document 01's before document 02's K8: as good, but it comes later.
#[test]
fn another_order_of_ties_is_noticed() {
    assert!(noticed(&mut |file, lent| {
        let answer = right(file, lent);
        if answer.number == 0 {
            let block = decode(file).expect("a block");
            let best = best_from_gate_0(&block).expect("a list in time");
            let bytes = bytes_of(&best.increases);
            lent[..bytes.len()].copy_from_slice(&bytes);
        }
        answer
    }));
}

/// The list and saving of the file itself, its list with the right saving, and one tick more at a gate, in place of m times as
/// much; a refusal in place of a list, and another place of a refusal.
#[test]
fn another_answer_in_finer_ticks_is_noticed() {
    let file = encode(&worked::diamond(10));
    let finer = finer_file(&file, 10).expect("a block that fits a file");
    let noticed = |call: Call| compare_finer(call, &file, &finer, 10).is_err();
    assert!(!noticed(&mut right) && compare_finer(&mut right, &file, &finer, 5).is_err());
    assert_eq!(finer_file(&encode(&worked::diamond(6_554)), 10), None);
    assert!(noticed(&mut |_, lent| right(&file, lent)));
    assert!(noticed(&mut |asked, lent| Answer {
        saving: right(asked, &mut lent.to_vec()).saving,
        ..right(&file, lent)
    }));
    assert!(noticed(&mut |asked, lent| {
        let answer = right(asked, lent);
        lent[15] += u8::from(asked == finer);
        answer
    }));
    let refused = |place| Answer { number: 12, place, saving: 0 };
    assert!(noticed(&mut |asked, lent| if asked == finer { refused(0) } else { right(asked, lent) }));
    assert!(noticed(&mut |asked, _| refused(u32::from(asked == finer))));
    assert!(!noticed(&mut |_, _| refused(0)));
}

/// A call that is right but for a file that says the same as the one before in finer ticks, which it answers as that one.
#[test]
fn finer_files_are_among_those_compared() {
    let mut last = Vec::new();
    assert!(noticed(&mut |file, lent| {
        if ![2, 3, 5, 10].iter().any(|&m| finer_file(&last, m).as_deref() == Some(file)) {
            last = file.to_vec();
        }
        right(&last, lent)
    }));
}
