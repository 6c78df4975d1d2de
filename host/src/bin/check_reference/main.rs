//! Checks the reference: against answers by hand, document 01's own among them, and its methods against each other.

mod by_hand;
mod finer;
mod networks;
mod sizing;
mod ticks;

use reference::edition::MAX_EDITION;
use reference::random::Random;

fn main() {
    let random = &mut Random::from_seed(1);
    println!("worked cases: {} answers", by_hand::check_worked());
    println!("boundaries of every refusal: {} files", by_hand::check_boundaries());
    println!("boundaries of 17: {} wanted savings", by_hand::check_wanted());
    by_hand::check_limits();
    by_hand::check_counted_off();
    println!("short slices: {} answers", by_hand::check_room());
    let counted = networks::check_paths(random);
    println!("slacks and longest paths against every path: 3000 blocks, {counted}");
    let (yes, no) = networks::check_parts(random);
    println!("reduction against building up: {yes} series-parallel blocks, {no} others");
    let (yes, no) = networks::check_every_network(random);
    println!("the same on every network of up to 5 gates: {yes} series-parallel, {no} others");
    let (yes, no, places) = networks::check_left(random);
    println!("gates left in several orders: {yes} series-parallel blocks, {no} others with {places} different places");
    for edition in 1..=MAX_EDITION {
        println!("generator, edition {edition}: {} blocks", networks::check_generator(random, edition));
    }
    for edition in 1..=MAX_EDITION {
        let (blocks, tied) = networks::check_tied(random, edition);
        println!("blocks made for ties, edition {edition}: {blocks}, the order decides in {tied}");
    }
    println!("the generator's measured activities: {} nets", networks::check_activities(random));
    println!("blocks with probabilities against the same in edition 3: {}", networks::check_twins(random));
    let (counted, lists, late) = sizing::check_exact(random);
    println!("flows against every list: 6000 blocks, {counted}, {lists} spares, {late} late blocks");
    let (accepted, counted, refused) = sizing::check_merging(random);
    println!("list merging against flows: {accepted} blocks sized, {counted}, {refused} refused");
    let (blocks, gates, counted) = sizing::check_ties(random);
    println!("order of ties against list merging: {blocks} blocks, {counted}, {gates} gates");
    println!("curves against best lists: {} blocks", sizing::check_curve(random));
    println!("damaged files: {} read", sizing::check_damage(random));
    println!("fewest ticks against every list: {}", ticks::check_small(&mut Random::from_seed(6)));
    println!("fewest ticks against best lists: {}", ticks::check_large(&mut Random::from_seed(7)));
    println!("finer ticks against every list: {}", finer::check_small(random));
    println!("finer ticks by flows: {}", finer::check_large(random));
}
