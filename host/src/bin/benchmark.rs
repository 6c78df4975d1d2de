//! benchmark: the whole call from file bytes to increases, library against list merging in plain Rust, on the same blocks in
//! the same run, in edition 1, in edition 2 with wire delays, and in edition 3 with the activities of the same. Each time is
//! the least of several rounds; neither side's buffers are cleared between calls.

use reference::block::MAX_GATES;
use reference::compare::calls::bytes_of;
use reference::ffi;
use reference::measure::{cells, files, kept, least_times, print_cells, print_ratios, Times};
use reference::measure::{MIDDLE, MOST_WIRE_DELAY, SIZES};
use reference::merging;
use reference::shapes::ALL_SHAPES;

/// Both sides answer every file with the same list and saving.
fn check_same(files: &[Vec<u8>]) {
    for file in files {
        let (mut bytes, mut increases) = ([0; 4 * MAX_GATES], [0; MAX_GATES]);
        let (gates, saving) = merging::best_increases(file, &mut increases).expect("a block in time");
        let answer = ffi::best_increases(file, &mut bytes);
        assert_eq!((answer.number, answer.place, answer.saving), (0, gates as u32, saving));
        assert_eq!(bytes[..4 * gates], bytes_of(&increases[..gates]));
    }
}

/// List merging in plain Rust, and the library measured against it.
fn measure(files: &[Vec<u8>]) -> Times {
    check_same(files);
    let mut bytes = [0; 4 * MAX_GATES];
    let mut increases = [0; MAX_GATES];
    least_times(
        files,
        |file| {
            kept(merging::best_increases(file, &mut increases)).expect("a block in time");
        },
        |file| assert_eq!(kept(ffi::best_increases(file, &mut bytes)).number, 0),
    )
}

/// The exponent e of times that grow as gates to the power e: the slope of the logarithms, by least squares.
fn exponent(sizes: &[usize], times: &[f64]) -> f64 {
    let x: Vec<f64> = sizes.iter().map(|&n| (n as f64).ln()).collect();
    let y: Vec<f64> = times.iter().map(|t| t.ln()).collect();
    let mean = |v: &[f64]| v.iter().sum::<f64>() / v.len() as f64;
    let (mx, my) = (mean(&x), mean(&y));
    let above: f64 = x.iter().zip(&y).map(|(a, b)| (a - mx) * (b - my)).sum();
    above / x.iter().map(|a| (a - mx) * (a - mx)).sum::<f64>()
}

fn ratios() {
    println!("ratio = library / plain Rust, microseconds a call: above 1 the library is slower. Both settle ties.");
    let in_edition_1 = cells(1, measure);
    print_cells("plain", "library", &in_edition_1);
    print_ratios(&in_edition_1);
    println!("the same blocks in edition 2 with wire delays up to {MOST_WIRE_DELAY}:");
    print_ratios(&cells(2, measure));
    println!("the same blocks in edition 3 with the activities that their probabilities yield:");
    print_ratios(&cells(3, measure));
}

/// The exponents of both sides up to the middle size, and of both from it on.
fn exponents(times: &[Times]) -> [f64; 4] {
    let plain: Vec<f64> = times.iter().map(|t| t.against).collect();
    let library: Vec<f64> = times.iter().map(|t| t.measured).collect();
    let up_to = |times: &[f64]| exponent(&SIZES[..=MIDDLE], &times[..=MIDDLE]);
    let from = |times: &[f64]| exponent(&SIZES[MIDDLE..], &times[MIDDLE..]);
    [up_to(&plain), up_to(&library), from(&plain), from(&library)]
}

fn growth() {
    let [least, middle, most] = [SIZES[0], SIZES[MIDDLE], SIZES[SIZES.len() - 1]];
    println!("growth: time grows as gates to the power of");
    println!("shape   steps {least} to {middle} gates: plain library; {middle} to {most} gates: plain library");
    for shape in ALL_SHAPES {
        for steps in [1, 8] {
            let times: Vec<Times> = SIZES.iter().map(|&gates| measure(&files(1, shape, gates, steps))).collect();
            let name = format!("{shape:?}").to_lowercase();
            let [plain, library, plain_above, library_above] = exponents(&times);
            println!("{name:7} {steps:5} {plain:20.2} {library:7.2} {plain_above:23.2} {library_above:7.2}");
        }
    }
}

fn main() {
    ratios();
    growth();
}
