//! benchmark-ticks: the library's fewest ticks for a wanted saving (document 02, K6) against its curve, on the same blocks in the
//! same run. Wanted is all that the curve earns, so that every pair of it is passed. Each time is the least of several rounds.
//! The fewest ticks make two slices of their own for the curve, so the second comparison is with a caller who makes them anew
//! for each call too.

use reference::answers;
use reference::block::MAX_PAIRS;
use reference::ffi;
use reference::measure::{cells, kept, least_times, print_cells, print_ratios, Times};

/// All that a block can save, and the ticks that it needs.
fn whole(file: &[u8]) -> (u64, u64) {
    let curve = answers::curve(file, MAX_PAIRS, MAX_PAIRS).expect("a series-parallel block");
    (curve.counted_off(curve.ticks()), curve.ticks())
}

/// The curve, to slices that are cleared before each call or not, and the fewest ticks measured against it.
fn measure(files: &[Vec<u8>], cleared: bool) -> Times {
    let (mut widths, mut gains) = ([0u32; MAX_PAIRS], [0u64; MAX_PAIRS]);
    let mut wanted: Vec<(&[u8], u64)> = Vec::new();
    for file in files {
        let (saving, ticks) = whole(file);
        assert_eq!(ffi::fewest_ticks(file, saving).ticks, ticks);
        wanted.push((file, saving));
    }
    least_times(
        &wanted,
        |(file, _)| {
            if cleared {
                kept(&mut widths).fill(0);
                kept(&mut gains).fill(0);
            }
            assert_eq!(kept(ffi::curve(file, &mut widths, &mut gains)).number, 0)
        },
        |(file, wanted)| assert_eq!(kept(ffi::fewest_ticks(file, *wanted)).number, 0),
    )
}

fn main() {
    println!("ratio = fewest ticks / curve, microseconds a call: above 1 the fewest ticks take longer.");
    println!("the curve's slices are lent as they are:");
    let lent = cells(1, |files| measure(files, false));
    print_cells("curve", "ticks", &lent);
    print_ratios(&lent);
    println!("the same blocks, the curve's slices cleared before each call:");
    print_ratios(&cells(1, |files| measure(files, true)));
}
