//! compare [FILES [SEED]]: the library's calls against the reference, on random files of every edition, valid and damaged. Each is
//! compared twice: with the file and every lent slice before a page that may not be touched, what it may only read in pages
//! closed for writing; and as it is, with guards around the lent slices.

#[path = "../pages.rs"]
mod pages;

use pages::Pages;
use reference::arguments::{files_and_seeds, usage};
use reference::compare::{best, curve, judge, slacks, ticks};
use reference::ffi::{self, Answer, CurveAnswer, TicksAnswer};
use std::process::exit;

/// The library's calls, with what they are lent as it is or moved.
trait Calls {
    fn best_increases(&mut self, file: &[u8], increases: &mut [u8]) -> Answer;
    fn slacks(&mut self, file: &[u8], slacks: &mut [i32]) -> Answer;
    fn curve(&mut self, file: &[u8], widths: &mut [u32], gains: &mut [u64]) -> CurveAnswer;
    fn judge(&mut self, file: &[u8], increases: &[u32]) -> Answer;
    fn fewest_ticks(&mut self, file: &[u8], wanted: u64) -> TicksAnswer;
}

struct AsItIs;

impl Calls for AsItIs {
    fn best_increases(&mut self, file: &[u8], increases: &mut [u8]) -> Answer {
        ffi::best_increases(file, increases)
    }

    fn slacks(&mut self, file: &[u8], slacks: &mut [i32]) -> Answer {
        ffi::slacks(file, slacks)
    }

    fn curve(&mut self, file: &[u8], widths: &mut [u32], gains: &mut [u64]) -> CurveAnswer {
        ffi::curve(file, widths, gains)
    }

    fn judge(&mut self, file: &[u8], increases: &[u32]) -> Answer {
        ffi::judge(file, increases)
    }

    fn fewest_ticks(&mut self, file: &[u8], wanted: u64) -> TicksAnswer {
        ffi::fewest_ticks(file, wanted)
    }
}

/// Pages for the file and for two slices.
struct InPages {
    file: Pages,
    one: Pages,
    other: Pages,
}

impl Calls for InPages {
    fn best_increases(&mut self, file: &[u8], increases: &mut [u8]) -> Answer {
        let file = self.file.show(file);
        self.one.lend(increases, |increases| ffi::best_increases(file, increases))
    }

    fn slacks(&mut self, file: &[u8], slacks: &mut [i32]) -> Answer {
        let file = self.file.show(file);
        self.one.lend(slacks, |slacks| ffi::slacks(file, slacks))
    }

    fn curve(&mut self, file: &[u8], widths: &mut [u32], gains: &mut [u64]) -> CurveAnswer {
        let (file, other) = (self.file.show(file), &mut self.other);
        self.one.lend(widths, |widths| other.lend(gains, |gains| ffi::curve(file, widths, gains)))
    }

    fn judge(&mut self, file: &[u8], increases: &[u32]) -> Answer {
        ffi::judge(self.file.show(file), self.one.show(increases))
    }

    fn fewest_ticks(&mut self, file: &[u8], wanted: u64) -> TicksAnswer {
        ffi::fewest_ticks(self.file.show(file), wanted)
    }
}

/// Compares every call on so many files; what each comparison met with, or what differs.
fn compared(calls: &mut dyn Calls, files: usize, seed: u64) -> Result<[(&'static str, String); 5], String> {
    let best = best::compare(&mut |file, lent| calls.best_increases(file, lent), files, seed)?;
    let slacks = slacks::compare(&mut |file, lent| calls.slacks(file, lent), files, seed)?;
    let curve = curve::compare(&mut |file, widths, gains| calls.curve(file, widths, gains), files, seed)?;
    let judge = judge::compare(&mut |file, lent| calls.judge(file, lent), files, seed)?;
    let ticks = ticks::compare(&mut |file, wanted| calls.fewest_ticks(file, wanted), files, seed)?;
    Ok([
        ("best increases", best.to_string()),
        ("slacks", slacks.to_string()),
        ("curve", curve.to_string()),
        ("judge", judge.to_string()),
        ("fewest ticks", ticks.to_string()),
    ])
}

fn run(files: usize, seed: u64) {
    let mut in_pages = InPages { file: Pages::reserve(), one: Pages::reserve(), other: Pages::reserve() };
    match compared(&mut in_pages, files, seed).and_then(|_| compared(&mut AsItIs, files, seed + 1)) {
        Ok(said) => {
            println!("compare: seed {seed}: {files} files twice for each call; of the second run");
            said.iter().for_each(|(call, met)| println!("compare: {call}: {met}"));
        }
        Err(difference) => {
            println!("compare: seed {seed}: {difference}");
            exit(1);
        }
    }
}

fn main() {
    let arguments: Vec<String> = std::env::args().skip(1).collect();
    let (files, seeds) = files_and_seeds(&arguments).unwrap_or_else(|| usage("compare [FILES [SEED]]"));
    seeds.into_iter().for_each(|seed| run(files, seed));
}
