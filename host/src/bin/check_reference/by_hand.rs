//! Answers that were worked out by hand: document 01's, those of blocks with wire delays, with measured activities, with ties and
//! in finer ticks, the fewest ticks for wanted savings, and those at the boundaries of the refusals.

use reference::answers;
use reference::block::{decode, encode, Refusal, MAX_BYTES, MAX_GATES, MAX_PAIRS, MAX_TICKS, MAX_WIRES};
use reference::boundaries::ticks::Wanted;
use reference::boundaries::{self, Boundary};
use reference::edition::max_gain;
use reference::generate::limits;
use reference::search::Best;
use reference::worked::{self, Expected, U};
use reference::{exact, merging, parts, printout, search};

fn refusal<T>(answer: Result<T, Refusal>) -> Option<(u32, u32)> {
    answer.err().map(|r| (r.number, r.place))
}

/// Worked blocks of more lists are not held to the exhaustive search.
const MOST_LISTS: u64 = 100_000;

/// Whether this is the best list by flows, by list merging and, where there are not too many lists, by trying every one.
fn is_best(file: &[u8], best: &Best) -> bool {
    let block = decode(file).expect("a block");
    let gates = best.increases.len();
    let mut merged = [0; MAX_GATES];
    answers::best_increases(file, MAX_GATES).as_ref() == Ok(best)
        && merging::best_increases(file, &mut merged) == Ok((gates, best.saving))
        && merged[..gates] == best.increases
        && (search::count_of_lists(&block) > MOST_LISTS || search::best(&block).as_ref() == Some(best))
}

/// Whether these are the fewest ticks for the wanted saving, or `None` where no number of ticks reaches it: by flows and, where
/// there are not too many lists, by trying every one.
fn are_fewest(file: &[u8], wanted: u64, ticks: Option<u64>) -> bool {
    let block = decode(file).expect("a block");
    let answer = answers::fewest_ticks(file, wanted);
    let refused = if ticks.is_none() { Some((17, 0)) } else { None };
    (answer.ok(), refusal(answer)) == (ticks, refused)
        && (search::count_of_lists(&block) > MOST_LISTS || search::fewest_ticks(&block, wanted) == ticks)
}

/// Whether a worked block gets the answer that was worked out.
fn holds(file: &[u8], expected: &Expected) -> bool {
    let curve = || answers::curve(file, MAX_PAIRS, MAX_PAIRS).expect("a curve");
    match expected {
        Expected::Best(increases, saving) => is_best(file, &Best { increases: increases.to_vec(), saving: *saving }),
        Expected::AtStart(saving) => curve().at_start == *saving,
        Expected::Curve(start, at_start, pairs) => {
            let curve = curve();
            (curve.start, curve.at_start, &curve.pairs[..]) == (*start, *at_start, *pairs)
        }
        Expected::Pairs(pairs) => curve().pairs == *pairs,
        Expected::Refused(number, place) => {
            refusal(answers::best_increases(file, MAX_GATES)) == Some((*number, *place))
        }
        Expected::Judged(list, saving) => answers::judge(file, list) == Ok(*saving),
        Expected::NotJudged(list, number, place) => refusal(answers::judge(file, list)) == Some((*number, *place)),
        Expected::Ticks(all) => all.iter().all(|&(wanted, ticks)| are_fewest(file, wanted, Some(ticks))),
        Expected::NoTicks(wanted, 17, 0) => are_fewest(file, *wanted, None),
        Expected::NoTicks(wanted, number, place) => {
            refusal(answers::fewest_ticks(file, *wanted)) == Some((*number, *place))
        }
        Expected::SeriesParallel => {
            let block = answers::well_formed(file).expect("a block");
            parts::built_up(&block) && parts::reduces(&block)
        }
        Expected::Printed(text) => printout::printout(file) == *text,
    }
}

pub fn check_worked() -> usize {
    let mut count = 0;
    for block in worked::all() {
        for expected in &block.expected {
            assert!(holds(&block.file, expected), "{}: {:?}", block.name, expected);
            count += 1;
        }
    }
    count
}

/// Every boundary gets the refusal written beside it: from the reference's calls (the curve and the fewest ticks have no 12, and
/// these 17 in its place and for every block that is sized, where too much is wanted), in the printout, and from list merging.
pub fn check_boundaries() -> usize {
    let all = boundaries::all();
    for Boundary { name, file, refused } in &all {
        let of_curve = refused.filter(|r| r.0 != 12);
        assert_eq!(refusal(answers::best_increases(file, MAX_GATES)), *refused, "{name}");
        assert_eq!(refusal(answers::layout_call(file, 4 * MAX_GATES)), *refused, "{name}, layout call");
        assert_eq!(refusal(answers::curve(file, MAX_PAIRS, MAX_PAIRS)), of_curve, "{name}, curve");
        assert_eq!(refusal(answers::fewest_ticks(file, 0)), of_curve, "{name}, nothing wanted");
        assert_eq!(
            refusal(answers::fewest_ticks(file, u64::MAX)),
            of_curve.or(Some((17, 0))),
            "{name}, too much wanted"
        );
        assert_eq!(refusal(merging::best_increases(file, &mut [0; MAX_GATES])), *refused, "{name}, by merging");
        let printed = printout::printout(file);
        let line = refused.map(|(number, place)| format!("refused {number} {place}\n"));
        assert!(line.map_or(printed.starts_with("gates "), |line| line == printed), "{name}: {printed}");
    }
    for number in [1, 2, 3, 4, 5, 6, 7, 8, 9, 11, 12] {
        assert!(all.iter().any(|b| b.refused.map_or(false, |r| r.0 == number)), "no boundary of {number}");
    }
    all.len()
}

/// The same of 17, and of what comes before it.
pub fn check_wanted() -> usize {
    let all = boundaries::ticks::all();
    for Wanted { name, file, wanted, refused } in &all {
        assert_eq!(refusal(answers::fewest_ticks(file, *wanted)), *refused, "{name}, {wanted} wanted");
    }
    for number in [1, 2, 3, 4, 5, 6, 7, 8, 9, 11, 17] {
        assert!(all.iter().any(|b| b.refused.map_or(false, |r| r.0 == number)), "no boundary of {number}");
    }
    all.len()
}

/// The limits are those of document 02's K10 or follow from them: 200 x 8 pairs, 200 x 8 x 4,095 ticks, a gain of
/// 199 x 32,768 x 1,000 up to edition 2 and of 199 x 65,535 x 1,000, which 32 bits do not hold, in edition 3. A curve reaches each
/// of its limits.
pub fn check_limits() {
    assert_eq!((MAX_GATES, MAX_WIRES, MAX_BYTES), (200, 600, 16_384));
    assert_eq!((MAX_PAIRS, MAX_TICKS), (1_600, 6_552_000));
    // 11 + 200 x 39 + 600 x 7
    assert_eq!([limits::largest_file().len(), limits::largest_measured_file().len()], [12_011; 2]);
    assert_eq!([1, 2, 3].map(max_gain), [6_520_832_000, 6_520_832_000, 13_041_465_000]);
    assert_eq!(exact::curve(&limits::most_pairs()).pairs.len(), MAX_PAIRS);
    assert_eq!(exact::curve(&limits::largest_gain()).pairs, [(2, max_gain(1))]);
    assert_eq!(exact::curve(&limits::largest_measured_gain()).pairs, [(2, max_gain(3))]);
    assert_eq!(exact::curve(&limits::most_ticks()).ticks(), MAX_TICKS);
}

/// 001's chain with 12, 26 and 27 ticks to spare: ticks beyond the curve's end earn 0.
pub fn check_counted_off() {
    let by_hand: [(u32, [u32; 3], u64); 3] = [(12, [3, 0, 9], 318), (26, [11, 6, 9], 641), (27, [11, 6, 9], 641)];
    for (spare, increases, saving) in by_hand {
        let block = worked::paper_chain(spare);
        assert_eq!(exact::curve(&block).counted_off(u64::from(spare)), saving * U);
        let best = Some(Best { increases: increases.to_vec(), saving: saving * U });
        assert_eq!(exact::best(&block), best);
        assert_eq!(search::best(&block), best);
    }
}

/// Refusal 10 comes after 9 and before 11 and 12, and its place is what is needed.
pub fn check_room() -> usize {
    let ten = |needed| Some((10, needed));
    let late_bridge = boundaries::all().into_iter().find(|b| b.name == "the bridge, late").expect("a boundary").file;
    let late = encode(&worked::diamond(6));
    for file in [&late_bridge, &late] {
        assert_eq!(refusal(answers::slacks(file, 3)), ten(4));
        assert_eq!(refusal(answers::slacks(file, 4)), None);
        assert_eq!(refusal(answers::best_increases(file, 3)), ten(4));
        assert_eq!(refusal(answers::layout_call(file, 15)), ten(16));
        assert_eq!(refusal(answers::curve(file, MAX_PAIRS - 1, MAX_PAIRS)), ten(MAX_PAIRS as u32));
        assert_eq!(refusal(answers::curve(file, MAX_PAIRS, MAX_PAIRS - 1)), ten(MAX_PAIRS as u32));
        assert_eq!(refusal(answers::judge(file, &[u32::MAX; 3])), ten(4));
        assert_eq!(refusal(answers::judge(file, &[u32::MAX; 4])), Some((13, 0)));
    }
    assert_eq!(refusal(answers::layout_call(&late_bridge, 16)), Some((11, 1)));
    assert_eq!(refusal(answers::curve(&late_bridge, MAX_PAIRS, MAX_PAIRS)), Some((11, 1)));
    assert_eq!(refusal(answers::layout_call(&late, 16)), Some((12, 0)));
    assert_eq!(refusal(answers::curve(&late, MAX_PAIRS, MAX_PAIRS)), None);
    assert_eq!(refusal(answers::best_increases(&[], 0)), Some((1, 0)));
    16 + 5 + check_most_room()
}

/// The same of a chain of the most gates, whose layout call needs 800 bytes.
fn check_most_room() -> usize {
    let file = encode(&limits::bare_chain(MAX_GATES));
    for (lent, refused) in [(MAX_GATES, None), (MAX_GATES - 1, Some((10, MAX_GATES as u32)))] {
        assert_eq!(refusal(answers::slacks(&file, lent)), refused);
        assert_eq!(refusal(answers::best_increases(&file, lent)), refused);
        assert_eq!(refusal(answers::judge(&file, &vec![0; lent])), refused);
    }
    assert_eq!(refusal(answers::layout_call(&file, 799)), Some((10, 800)));
    assert_eq!(refusal(answers::layout_call(&file, 800)), None);
    6 + 2
}
