//! A block in words. host/README.md describes the syntax.

use crate::block::{decode, Block};
use crate::edition::is_measured;
use std::fmt::Write;

/// The editions that a block line can leave unsaid: the first with probabilities and the first with measured activities.
const UNSAID_EDITIONS: [u8; 2] = [1, 3];

/// The word before the number that an edition gives for the switching of a net.
fn switching_word(edition: u8) -> &'static str {
    if is_measured(edition) {
        "activity"
    } else {
        "p"
    }
}

/// The description of a block.
pub fn write(block: &Block) -> String {
    let word = switching_word(block.edition);
    let mut text = format!("block arrival {} deadline {} {word} {}", block.arrival, block.deadline, block.switching);
    if !UNSAID_EDITIONS.contains(&block.edition) {
        write!(text, " edition {}", block.edition).unwrap();
    }
    text.push('\n');
    for (number, gate) in block.gates.iter().enumerate() {
        write!(text, "gate {} delay {} {word} {}", number, gate.delay, gate.switching).unwrap();
        for (i, step) in gate.steps.iter().enumerate() {
            let steps = if i == 0 { " steps" } else { "" };
            write!(text, "{} ({},{})", steps, step.width, step.drop).unwrap();
        }
        text.push('\n');
    }
    for line in block.wires.chunks(10) {
        text.push_str("wires");
        for wire in line {
            write!(text, " {}-{}", wire.from, wire.to).unwrap();
            if wire.delay > 0 {
                write!(text, ":{}", wire.delay).unwrap();
            }
        }
        text.push('\n');
    }
    text
}

/// A file for a message: its description, or its bytes if it has none.
pub fn shown(file: &[u8]) -> String {
    match decode(file) {
        Ok(block) => format!("the file that says\n{}", write(&block)),
        Err(_) => format!("the file of the bytes {file:?}"),
    }
}

#[cfg(test)]
mod tests {
    use super::*;
    use crate::worked::{delayed_diamond, diamond, edition_3::measured};

    const GATES: &str = "gate 0 delay 2 p 128\ngate 1 delay 3 p 128 steps (2,5) (3,2)\n\
        gate 2 delay 1 p 128 steps (4,4)\ngate 3 delay 2 p 128 steps (5,6)\n";

    #[test]
    fn descriptions_by_hand() {
        let of_edition_1 = format!("block arrival 0 deadline 10 p 128\n{GATES}wires 0-1 0-2 1-3 2-3\n");
        assert_eq!(write(&diamond(10)), of_edition_1);
        let of_edition_2 = format!("block arrival 0 deadline 12 p 128 edition 2\n{GATES}wires 0-1:1 0-2 1-3 2-3:2\n");
        assert_eq!(write(&delayed_diamond([1, 0, 0, 2])), of_edition_2);
        let of_edition_3 = of_edition_1.replace("p 128", "activity 300");
        assert_eq!(write(&measured(diamond(10), [300; 5])), of_edition_3);
    }

    #[test]
    fn ten_wires_stand_in_a_line() {
        let mut block = diamond(10);
        block.wires = (1..=11).map(|to| crate::block::Wire::without_delay(0, to)).collect();
        assert!(write(&block).ends_with("wires 0-1 0-2 0-3 0-4 0-5 0-6 0-7 0-8 0-9 0-10\nwires 0-11\n"));
    }

    #[test]
    fn a_file_without_a_description_is_shown_by_its_bytes() {
        assert_eq!(shown(&[1, 0]), "the file of the bytes [1, 0]");
    }
}
