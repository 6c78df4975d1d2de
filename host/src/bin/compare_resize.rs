//! compare-resize PROGRAM [FILES [SEED]]: what the printing program writes against the reference's printout.

use reference::arguments::{numbers, usage};
use reference::block::{decode, encode, MAX_BYTES, MAX_GATES};
use reference::compare::{complete, elevens};
use reference::generate::editions::{in_edition_3, Counted};
use reference::generate::limits::{largest_file, largest_measured_file, most_wires};
use reference::generate::{compared_block, MIDDLE_GATES};
use reference::printout::printout;
use reference::random::Random;
use reference::text::shown;
use reference::{boundaries, damage, worked};
use std::io::{Read, Write};
use std::os::unix::process::ExitStatusExt;
use std::process::{exit, Child, Command, ExitStatus, Stdio};
use std::time::Duration;

/// The signal to a program that writes to a pipe without a reader.
const BROKEN_PIPE: i32 = 13;

fn fail(message: String) -> ! {
    println!("compare-resize: {message}");
    exit(1)
}

/// What the program writes for an input.
fn written(program: &str, input: &[u8]) -> Vec<u8> {
    let spawned = Command::new(program).stdin(Stdio::piped()).stdout(Stdio::piped()).spawn();
    let mut child = spawned.unwrap_or_else(|error| fail(format!("{program}: {error}")));
    let mut stdin = child.stdin.take().expect("a pipe");
    let input = input.to_vec();
    // A program that stops reading early closes the pipe, which is no fault.
    let writer = std::thread::spawn(move || stdin.write_all(&input).is_ok());
    let mut output = Vec::new();
    child.stdout.take().expect("a pipe").read_to_end(&mut output).expect("output");
    writer.join().expect("a writer");
    let status = child.wait().expect("an end");
    if !status.success() {
        fail(format!("{program} ended with {status}"));
    }
    output
}

/// How the program ends, or that it does not within ten seconds.
fn ended(child: &mut Child) -> Option<ExitStatus> {
    for _ in 0..1_000 {
        if let Some(status) = child.try_wait().expect("a child") {
            return Some(status);
        }
        std::thread::sleep(Duration::from_millis(10));
    }
    child.kill().expect("a child to end");
    child.wait().expect("an end");
    None
}

/// Where nobody reads what it writes, the program ends, by the closed pipe's signal or with status 1, by the error that `main` returns; the reference, which does not look, with success.
fn check_closed_output(program: &str) {
    let spawned = Command::new(program).stdin(Stdio::piped()).stdout(Stdio::piped()).spawn();
    let mut child = spawned.unwrap_or_else(|error| fail(format!("{program}: {error}")));
    drop(child.stdout.take());
    child.stdin.take().expect("a pipe").write_all(&encode(&worked::diamond(10))).expect("input");
    match ended(&mut child) {
        Some(status) if status.success() || status.code() == Some(1) || status.signal() == Some(BROKEN_PIPE) => {}
        Some(status) => fail(format!("{program}, its output closed, ended with {status}")),
        None => fail(format!("{program}, its output closed, does not end")),
    }
}

/// Inputs about as long as what decides, and much longer; beyond it no byte counts.
fn long_inputs() -> Vec<Vec<u8>> {
    let (d, delayed) = (encode(&worked::diamond(10)), encode(&worked::delayed_diamond([1, 0, 0, 2])));
    let measured = encode(&in_edition_3(worked::diamond(10)));
    let files = [encode(&most_wires()), largest_file(), largest_measured_file(), d, delayed, measured];
    let mut inputs = Vec::new();
    for length in [MAX_BYTES - 1, MAX_BYTES, MAX_BYTES + 1, 100_000] {
        for file in &files {
            let mut input = file.clone();
            input.resize(length, 3);
            assert_eq!(printout(&input), printout(&input[..length.min(MAX_BYTES)]));
            inputs.push(input);
        }
    }
    inputs
}

/// Random block files of any edition, every fourth one damaged.
fn random_inputs(random: &mut Random, files: u64) -> Vec<Vec<u8>> {
    let mut input = || {
        let most_gates = if random.chance(1, 8) { MAX_GATES } else { MIDDLE_GATES };
        let file = encode(&compared_block(random, most_gates));
        if random.chance(1, 4) {
            damage::damaged(random, &file)
        } else {
            file
        }
    };
    (0..files).map(|_| input()).collect()
}

/// Holds what the program writes to the reference's printout, and returns that.
fn compare(program: &str, input: &[u8]) -> String {
    let (found, right) = (written(program, input), printout(input));
    if found != right.as_bytes() {
        fail(format!("wrote\n{}in place of\n{right}for {}", String::from_utf8_lossy(&found), shown(input)));
    }
    right
}

/// The place, if a printout is refusal 11.
fn place_of_11(printout: &str) -> Option<u32> {
    printout.strip_prefix("refused 11 ")?.trim_end().parse().ok()
}

/// Compares random files; says which there were. It fails if they are not complete.
fn compare_random(program: &str, files: &[Vec<u8>]) -> String {
    let printouts: Vec<String> = files.iter().map(|input| compare(program, input)).collect();
    let places: Vec<u32> = printouts.iter().filter_map(|printout| place_of_11(printout)).collect();
    let mut sized = Counted::default();
    for (input, _) in files.iter().zip(&printouts).filter(|(_, printout)| printout.starts_with("gates")) {
        sized.count(&decode(input).expect("a block"));
    }
    if let Err(missing) = complete(&places, &sized) {
        fail(missing);
    }
    format!("{}; of those sized {sized}", elevens(&places))
}

/// The program, how many random files, and their seed.
fn arguments() -> Option<(String, u64, u64)> {
    let words: Vec<String> = std::env::args().skip(1).collect();
    let (program, rest) = words.split_first()?;
    let numbers = numbers(rest, 0, 2)?;
    Some((program.clone(), *numbers.first().unwrap_or(&300), *numbers.get(1).unwrap_or(&1)))
}

fn main() {
    let (program, files, seed) = arguments().unwrap_or_else(|| usage("compare-resize PROGRAM [FILES [SEED]]"));
    let program = &program;
    let mut fixed: Vec<Vec<u8>> = worked::all().into_iter().map(|w| w.file).collect();
    fixed.extend(boundaries::all().into_iter().map(|b| b.file));
    fixed.extend(long_inputs());
    for input in &fixed {
        compare(program, input);
    }
    let drawn = random_inputs(&mut Random::from_seed(seed), files);
    let said = compare_random(program, &drawn);
    check_closed_output(program);
    println!("compare-resize: seed {seed}: {} printouts; of the random files {said}", fixed.len() + drawn.len());
}
