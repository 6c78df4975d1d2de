//! The printing program, made from the reference: a stand-in on which compare-resize is tried.

use reference::printout::printout;
use std::io::{Read, Write};

fn main() {
    let mut input = Vec::new();
    if std::io::stdin().read_to_end(&mut input).is_ok() {
        // Closed output is no fault of the program.
        let _ = std::io::stdout().write_all(printout(&input).as_bytes());
    }
}
