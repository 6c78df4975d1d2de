//! What differs between the editions of the block file (document 01, "The block file"; document 02, K2, K3 and K10).

use crate::block::{MAX_DROP, MAX_GATES};

pub const MAX_EDITION: u8 = 3;

/// Whether wires have a delay.
pub fn has_wire_delays(edition: u8) -> bool {
    edition >= 2
}

/// The length of a wire's body: two gates and, where the edition has one, the delay.
pub fn wire_length(edition: u8) -> usize {
    if has_wire_delays(edition) {
        4
    } else {
        2
    }
}

/// Whether the file gives the measured activities of nets, as transitions in 65,536 clock cycles. The editions before give
/// the probabilities of a 1, in 256ths.
pub fn is_measured(edition: u8) -> bool {
    edition >= 3
}

/// The greatest number that the file can give for the switching of a net.
pub fn max_switching(edition: u8) -> u32 {
    if is_measured(edition) {
        65_535
    } else {
        256
    }
}

/// The greatest activity that a net can have.
pub fn max_activity(edition: u8) -> u32 {
    if is_measured(edition) {
        65_535
    } else {
        32_768
    }
}

/// The greatest gain of a pair of the curve: of a gate with a wire in from every other gate.
pub fn max_gain(edition: u8) -> u64 {
    (MAX_GATES as u64 - 1) * u64::from(max_activity(edition)) * u64::from(MAX_DROP)
}

/// The activity of a net by the number that the file gives for its switching: a measured activity as it is, a probability p
/// by the formula 2p(256 - p).
pub fn activity(edition: u8, switching: u32) -> u32 {
    if is_measured(edition) {
        switching
    } else {
        2 * switching * (256 - switching)
    }
}

#[cfg(test)]
mod tests {
    use super::*;

    #[test]
    fn activities_by_hand() {
        for edition in [1, 2] {
            let by_p = [(0, 0), (1, 510), (64, 24_576), (128, 32_768), (192, 24_576), (255, 510), (256, 0)];
            assert!(by_p.iter().all(|&(p, right)| activity(edition, p) == right));
        }
        assert!([0, 1, 128, 255, 256, 257, 32_769, 65_535].iter().all(|&measured| activity(3, measured) == measured));
    }

    #[test]
    fn the_greatest_activity_is_reached_and_not_passed() {
        for edition in 1..=MAX_EDITION {
            let greatest = (0..=max_switching(edition)).map(|number| activity(edition, number)).max();
            assert_eq!(greatest, Some(max_activity(edition)));
        }
    }
}
