//! Mistakes that the comparison of the curve must notice.

use super::*;

/// The reference itself, as a call.
fn right(file: &[u8], widths: &mut [u32], gains: &mut [u64]) -> CurveAnswer {
    let (answer, right_widths, right_gains) = curve(file, widths.len(), gains.len());
    widths[..right_widths.len()].copy_from_slice(&right_widths);
    gains[..right_gains.len()].copy_from_slice(&right_gains);
    answer
}

fn noticed(call: Call) -> bool {
    compare(call, 700, 6).is_err()
}

#[test]
fn the_reference_is_like_itself_and_every_number_occurs() {
    let met = compare(&mut right, 1_150, 6).ok().expect("no difference");
    assert!((0..=11).all(|number| met.numbers[number] > 0), "{:?}", met.numbers);
    assert!(met.numbers[12..].iter().all(|&count| count == 0));
    assert!(!noticed(&mut right));
}

/// The first files are not random.
#[test]
fn without_random_files_it_fails() {
    assert!(compare(&mut right, 20, 6).is_err());
}

#[test]
fn a_wrong_answer_is_noticed() {
    let changes: [fn(&mut CurveAnswer); 8] = [
        |answer| answer.start += u32::from(answer.number == 0),
        |answer| answer.at_start += u64::from(answer.number == 0),
        |answer| answer.pairs += u32::from(answer.number == 0),
        |answer| answer.place += u32::from(answer.number == 0),
        |answer| answer.place += u32::from(answer.number == 10),
        |answer| answer.start += u32::from(answer.number == 10),
        |answer| answer.pairs += u32::from(answer.number == 11),
        |answer| answer.at_start += u64::from(answer.number == 1),
    ];
    for change in changes {
        assert!(noticed(&mut |file, widths, gains| {
            let mut answer = right(file, widths, gains);
            change(&mut answer);
            answer
        }));
    }
}

/// Room judged by one of the slices alone, after the parts, or with one element too few let pass.
#[test]
fn other_room_is_noticed() {
    let rooms: [fn(usize, usize) -> (usize, usize); 3] =
        [|widths, _| (widths, widths), |_, gains| (gains, gains), |widths, gains| (widths + 1, gains + 1)];
    for room in rooms {
        assert!(noticed(&mut |file, widths, gains| {
            let (for_widths, for_gains) = room(widths.len(), gains.len());
            curve(file, for_widths, for_gains).0
        }));
    }
    assert!(noticed(&mut |file, widths, gains| {
        let (answer, with_room) = (right(file, widths, gains), curve(file, MAX_PAIRS, MAX_PAIRS).0);
        if answer.number == 10 && with_room.number == 11 {
            with_room
        } else {
            answer
        }
    }));
}

/// Widths and gains exchanged; gains of 32 bits; an element behind the pairs, or one lent to a refused call, changed.
#[test]
fn wrong_elements_are_noticed() {
    let changes: [fn(&mut u32, &mut u64); 2] =
        [|width, gain| (*width, *gain) = (*gain as u32, u64::from(*width)), |_, gain| *gain = u64::from(*gain as u32)];
    for change in changes {
        assert!(noticed(&mut |file, widths, gains| {
            let answer = right(file, widths, gains);
            widths.iter_mut().zip(gains).take(answer.pairs as usize).for_each(|(width, gain)| change(width, gain));
            answer
        }));
    }
    assert!(noticed(&mut |file, widths, gains| {
        let answer = right(file, widths, gains);
        widths.iter_mut().skip(answer.pairs as usize).take(1).for_each(|width| *width ^= 1);
        answer
    }));
    for number in [1, 10, 11] {
        assert!(noticed(&mut |file, widths, gains| {
            let answer = right(file, widths, gains);
            gains.iter_mut().filter(|_| answer.number == number).take(1).for_each(|gain| *gain ^= 1);
            answer
        }));
    }
}
