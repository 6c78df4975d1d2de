//! Damaged block files.

use crate::edition::wire_length;
use crate::random::Random;

/// The file cut short at every length.
pub fn every_cut(file: &[u8]) -> Vec<Vec<u8>> {
    (0..file.len()).map(|length| file[..length].to_vec()).collect()
}

/// The file with one byte changed, for every byte and some values each.
pub fn every_byte_changed(file: &[u8]) -> Vec<Vec<u8>> {
    let mut files = Vec::new();
    for at in 0..file.len() {
        let byte = file[at];
        let mut values = vec![0, 1, 255, byte.wrapping_add(1), byte.wrapping_sub(1)];
        values.sort_unstable();
        values.dedup();
        for value in values.into_iter().filter(|&v| v != byte) {
            let mut changed = file.to_vec();
            changed[at] = value;
            files.push(changed);
        }
    }
    files
}

/// The file with its last bytes once more, as many as a wire field of its edition has.
fn last_wire_twice(mut file: Vec<u8>) -> Vec<u8> {
    let edition = file[3];
    let wire = file.len() - 3 - wire_length(edition);
    file.extend_from_within(wire..);
    file
}

/// The file with one random damage. It is whole before.
pub fn damaged(random: &mut Random, file: &[u8]) -> Vec<u8> {
    let mut file = file.to_vec();
    let at = random.below(file.len());
    match random.below(8) {
        0 => file.truncate(at),
        1 => file[at] = random.next() as u8,
        2 => file[at] = file[at].wrapping_add(random.pick(&[1, 255, 128])),
        3 => file.insert(at, random.next() as u8),
        4 => {
            file.remove(at);
        }
        5 => file = last_wire_twice(file),
        6 => {
            // from edition 2 on the same wire with another delay
            file = last_wire_twice(file);
            *file.last_mut().expect("a byte") ^= 1;
        }
        _ => {
            for _ in 0..1 + random.below(6) {
                let byte = random.pick(&[0, 3, 2, 255, 7]);
                file.push(byte);
            }
        }
    }
    file
}
