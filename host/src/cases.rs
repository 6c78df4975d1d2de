//! The stored blocks of the program `cases`, and what it must print for them. host/CASES.md describes both.

mod groups;
mod large;
mod ticks;

use crate::answers::{self, Answers, FewestTicks};
use crate::block::{decode, encode, Block, Refusal, MAX_GATES, MAX_PAIRS};
use crate::finer::{scaled_answers, scaled_ticks};
use crate::generate::ties::has_ties;
use crate::{merging, parts, search};
pub use groups::all;
use std::fmt::{Display, Write};

/// Blocks of more lists or wires are not held to the exhaustive search; 21 wires are the most that a series-parallel block
/// of 12 gates has.
const MOST_LISTS: u64 = 2_000_000;
const MOST_WIRES: usize = 21;

/// A block file, what is lent to the calls, the gate and increase of the list that goes beyond a width, and the wanted savings.
#[derive(Clone)]
pub struct Case {
    pub file: Vec<u8>,
    pub lent: usize,
    pub lent_widths: usize,
    pub lent_gains: usize,
    pub gate: usize,
    pub beyond: u32,
    /// At most 8.
    pub wanted: Vec<u64>,
    /// The number of the case that says the same in an earlier edition.
    pub twin_of: Option<usize>,
    /// How many times as fine the ticks are as in the case before, which says the same otherwise (document 02, K14).
    pub finer: Option<u32>,
}

/// Elements that the program has for slacks and increases, and for each half of the pairs.
pub const MOST_LENT: usize = MAX_GATES + 4;
pub const MOST_LENT_PAIRS: usize = MAX_PAIRS + 8;

impl Case {
    /// A file with everything lent that the program has. The gate whose width is passed and the pair inside which savings are
    /// wanted are chosen by `choice`.
    fn of(file: Vec<u8>, choice: usize) -> Case {
        let (gate, beyond) = match answers::well_formed(&file) {
            Err(_) => (0, 1),
            Ok(block) => {
                let gate = choice % block.gates.len();
                (gate, block.gates[gate].widths() + 1)
            }
        };
        let (lent, lent_widths, lent_gains) = (MOST_LENT, MOST_LENT_PAIRS, MOST_LENT_PAIRS);
        let wanted = ticks::wanted(&file, choice, 1);
        Case { file, lent, lent_widths, lent_gains, gate, beyond, wanted, twin_of: None, finer: None }
    }

    /// A file that says the same as the case before in ticks m times as fine, by the same choice. Its wanted savings are m times
    /// those before or, of those that are one more than some ticks earn, one more than m times as much.
    fn in_finer_ticks(file: Vec<u8>, choice: usize, m: u32) -> Case {
        let wanted = ticks::wanted(&file, choice, u64::from(m));
        Case { wanted, finer: Some(m), ..Case::of(file, choice) }
    }

    /// The same in a later edition, where the file can be read and is of none as late.
    fn twin(&self, number: usize, edition: u8, restated: fn(Block) -> Block) -> Option<Case> {
        let block = decode(&self.file).ok().filter(|block| block.edition < edition)?;
        let twin = restated(block);
        assert_eq!(twin.edition, edition);
        Some(Case { file: encode(&twin), twin_of: Some(number), ..self.clone() })
    }

    /// Whether a best list is given that the order of ties decides.
    pub fn has_ties(&self) -> bool {
        let given = answers::best_increases(&self.file, self.lent).is_ok();
        given && has_ties(&decode(&self.file).expect("a block"))
    }

    /// The record that the program reads.
    pub fn record(&self) -> Vec<u8> {
        let mut record = (self.file.len() as u16).to_be_bytes().to_vec();
        record.push(self.lent as u8);
        record.extend_from_slice(&(self.lent_widths as u16).to_be_bytes());
        record.extend_from_slice(&(self.lent_gains as u16).to_be_bytes());
        record.push(self.gate as u8);
        record.extend_from_slice(&self.beyond.to_be_bytes());
        assert!(self.wanted.len() <= ticks::MOST_WANTED);
        record.push(self.wanted.len() as u8);
        self.wanted.iter().for_each(|wanted| record.extend_from_slice(&wanted.to_be_bytes()));
        record.extend_from_slice(&self.file);
        record
    }

    /// What the calls that write to lent slices answer.
    fn answers(&self) -> Answers {
        Answers {
            slacks: answers::slacks(&self.file, self.lent),
            curve: answers::curve(&self.file, self.lent_widths, self.lent_gains),
            best: answers::best_increases(&self.file, self.lent),
        }
    }

    /// The lines that the program prints for it with these answers, but for the number.
    fn printed(&self, answers: &Answers, ticks: &[FewestTicks]) -> String {
        let mut text = first_lines(answers);
        let words = ["ticks".to_string()].into_iter().chain(ticks.iter().map(number_or_refusal));
        writeln!(text, "{}", joined(&words.collect::<Vec<_>>())).unwrap();
        let mut list = vec![0; self.lent];
        if let Ok(best) = &answers.best {
            list[..best.increases.len()].copy_from_slice(&best.increases);
        }
        line(&mut text, "judge", answers::judge(&self.file, &list).as_ref().map(u64::to_string), false);
        if answers.slacks.is_ok() {
            self.judge_others(&mut text, &answers::well_formed(&self.file).expect("a block"), &list);
        }
        text
    }

    /// Judging of one tick more at each gate, of one tick beyond a width, and of the largest increase.
    fn judge_others(&self, text: &mut String, block: &Block, list: &[u32]) {
        let with = |gate: usize, increase: u32| {
            let mut list = list.to_vec();
            list[gate] = increase;
            number_or_refusal(&answers::judge_of(block, &list))
        };
        let more: Vec<String> = (0..block.gates.len()).map(|g| with(g, list[g] + 1)).collect();
        writeln!(text, "more {}", more.join(" ")).unwrap();
        writeln!(text, "beyond {}", with(self.gate, self.beyond)).unwrap();
        writeln!(text, "largest {}", with(self.gate, u32::MAX)).unwrap();
    }
}

/// An answer that is one number among others of its line.
fn number_or_refusal(answer: &Result<u64, Refusal>) -> String {
    match answer {
        Ok(number) => number.to_string(),
        Err(refusal) => format!("{}:{}", refusal.number, refusal.place),
    }
}

fn joined<T: Display>(numbers: &[T]) -> String {
    numbers.iter().map(T::to_string).collect::<Vec<_>>().join(" ")
}

fn curve_words(curve: &search::Curve) -> String {
    let mut words = format!("{} {} {}", curve.start, curve.at_start, curve.pairs.len());
    for (width, gain) in &curve.pairs {
        write!(words, " {width} {gain}").unwrap();
    }
    words
}

fn line(text: &mut String, name: &str, answer: Result<String, &Refusal>, lends: bool) {
    let words = answer.unwrap_or_else(|r| format!("refused {} {}", r.number, r.place));
    let kept = if lends { " kept" } else { "" };
    writeln!(text, "{name} {words}{kept}").unwrap();
}

/// The lines of the calls that write to lent slices.
fn first_lines(answers: &Answers) -> String {
    let Answers { slacks, curve, best } = answers;
    let mut text = String::new();
    line(&mut text, "slacks", slacks.as_ref().map(|s| joined(s)), true);
    line(&mut text, "curve", curve.as_ref().map(curve_words), true);
    line(&mut text, "best", best.as_ref().map(|b| format!("{} {}", b.saving, joined(&b.increases))), true);
    text
}

/// The best list by list merging, or its refusal.
fn merged(file: &[u8]) -> Result<search::Best, Refusal> {
    let mut increases = [0; MAX_GATES];
    let (gates, saving) = merging::best_increases(file, &mut increases)?;
    Ok(search::Best { increases: increases[..gates].to_vec(), saving })
}

/// What the program reads, and what it must print. Where enough is lent, list merging answers a case likewise. A case that says the
/// same as one of an earlier edition is answered as that one, and a case in finer ticks with so many times the answers of the case
/// before.
pub fn written(cases: &[Case]) -> (Vec<u8>, String) {
    let mut input = Vec::new();
    let mut output = String::new();
    let mut done: Vec<(Answers, Vec<FewestTicks>, String)> = Vec::new();
    for (number, case) in cases.iter().enumerate() {
        let (answers, ticks) = (case.answers(), ticks::fewest(&case.file, &case.wanted));
        let printed = case.printed(&answers, &ticks);
        assert!(case.lent < MAX_GATES || answers.best == merged(&case.file), "case {number} by list merging");
        if let Some(first) = case.twin_of {
            assert_eq!(printed, done[first].2, "case {number} and case {first}");
        }
        if let Some(m) = case.finer {
            let (before, (answers, coarse, _)) = (&cases[number - 1], &done[number - 1]);
            let right = first_lines(&scaled_answers(answers, m));
            assert!(printed.starts_with(&right), "case {number}: {printed} does not begin with {right}");
            let right = scaled_ticks(&before.wanted, coarse, &case.wanted, m);
            assert_eq!(ticks, right, "case {number}: the fewest ticks");
        }
        input.extend(case.record());
        write!(output, "case {number}\n{printed}").unwrap();
        done.push((answers, ticks, printed));
    }
    (input, output)
}

/// The places of 11 that the best increases give, as printed.
pub fn places_of_11(output: &str) -> Vec<u32> {
    let place = |line: &str| line.strip_prefix("best refused 11 ")?.strip_suffix(" kept")?.parse().ok();
    output.lines().filter_map(place).collect()
}

/// How many fewest ticks are given, and how often 17 is, as printed.
pub fn ticks_and_17(output: &str) -> (usize, usize) {
    let words: Vec<&str> =
        output.lines().filter_map(|line| line.strip_prefix("ticks ")).flat_map(str::split_whitespace).collect();
    (words.iter().filter(|word| !word.contains(':')).count(), words.iter().filter(|word| **word == "17:0").count())
}

/// Holds the answers of small blocks to the exhaustive search; returns for how many blocks it did. Those that are answered
/// as another case need no search of their own.
pub fn search_agrees(cases: &[Case]) -> usize {
    let mut count = 0;
    for case in cases.iter().filter(|case| case.twin_of.is_none()) {
        let block = match answers::well_formed(&case.file) {
            Ok(block) if search::count_of_lists(&block) <= MOST_LISTS && block.wires.len() <= MOST_WIRES => block,
            _ => continue,
        };
        let series_parallel = parts::built_up(&block);
        let best = answers::best_increases(&case.file, MAX_GATES);
        assert_eq!(best.ok(), search::best(&block).filter(|_| series_parallel));
        let curve = answers::curve(&case.file, MAX_PAIRS, MAX_PAIRS);
        assert_eq!(curve.ok(), search::curve(&block).filter(|_| series_parallel));
        let ticks = ticks::fewest(&case.file, &case.wanted).into_iter().map(Result::ok);
        let tried = search::each_fewest_ticks(&block, &case.wanted).into_iter();
        assert!(ticks.eq(tried.map(|ticks| ticks.filter(|_| series_parallel))), "{:?}", case.wanted);
        count += 1;
    }
    count
}

#[cfg(test)]
mod tests {
    use super::*;
    use crate::worked::{diamond, finer::diamond_in_tenths, U};

    /// The cases of D and of D in tenths of a tick, the second said to be so many times as fine.
    fn written_as(m: u32, deadline: u32, in_tenths: u32) -> (Vec<u8>, String) {
        let finer = Case::in_finer_ticks(diamond_in_tenths(in_tenths), 1, m);
        written(&[Case::of(encode(&diamond(deadline)), 1), finer])
    }

    #[test]
    fn a_case_in_finer_ticks_by_hand() {
        let (_, output) = written_as(10, 10, 100);
        let right = "case 1\nslacks 30 30 50 30 kept\ncurve 70 2621440 3 50 393216 20 294912 30 65536 kept\n\
            best 14417920 0 0 20 30 kept\nticks 0 0 1 60 61 100 17:0 17:0\njudge 14417920\n\
            more 13:0 14:0 14:0 14:0\nbeyond 13:1\nlargest 13:1\n";
        assert!(output.ends_with(right), "{output}");
        let late = "best refused 12 0 kept\nticks 0 0 1 60 61 100 17:0 17:0\njudge refused 14 0\n";
        assert!(written_as(10, 6, 60).1.contains(late));
    }

    #[test]
    fn wanted_savings_by_hand() {
        let (input, output) = written(&[Case::of(encode(&diamond(10)), 0)]);
        // the first pair has 5 ticks, of which 3 end in the middle
        let wanted = [0, 8 * U, 8 * U + 1, 44 * U, 44 * U + 1, 92 * U, 92 * U + 1, u64::MAX];
        assert_eq!((input[12], input.len()), (8, 13 + 8 * 8 + 75));
        assert_eq!(input[13..77], wanted.map(u64::to_be_bytes).concat());
        assert!(output.contains("\nticks 0 0 1 3 4 10 17:0 17:0\njudge"), "{output}");
        let (input, output) = written(&[Case::of(Vec::new(), 0)]);
        assert_eq!(input[12..], [&[2][..], &[0; 8], &[255; 8]].concat());
        assert!(output.ends_with("\nticks 1:0 1:0\njudge refused 1 0\n"), "{output}");
        let (input, output) = written(&[Case { wanted: Vec::new(), ..Case::of(Vec::new(), 0) }]);
        assert_eq!((input[12], input.len()), (0, 13));
        assert!(output.ends_with("\nticks\njudge refused 1 0\n"), "{output}");
    }

    #[test]
    #[should_panic(expected = "the fewest ticks")]
    fn other_wanted_savings_in_finer_ticks_are_noticed() {
        let finer = Case { finer: Some(10), ..Case::of(diamond_in_tenths(100), 0) };
        written(&[Case::of(encode(&diamond(10)), 1), finer]);
    }

    #[test]
    #[should_panic(expected = "does not begin with")]
    fn another_m_is_noticed() {
        written_as(5, 10, 100);
    }

    #[test]
    #[should_panic(expected = "does not begin with")]
    fn another_deadline_is_noticed() {
        written_as(10, 10, 101);
    }
}
