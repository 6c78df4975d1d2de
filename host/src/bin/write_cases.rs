//! write-cases DIR: writes DIR/stdin and DIR/stdout of the program `cases`.
//! write-cases --resize DIR: writes those of the program `resize`, which reads the longest block file.
//! write-cases --check [--resize] DIR: says whether they still are what it would write.

use reference::arguments::usage;
use reference::cases::{all, places_of_11, search_agrees, ticks_and_17, written};
use reference::compare::elevens;
use reference::generate::limits::largest_file;
use reference::printout::printout;
use std::path::Path;
use std::process::exit;

fn fail(message: String) -> ! {
    eprintln!("write-cases: {message}");
    exit(1)
}

fn same(path: &Path, expected: &[u8]) {
    match std::fs::read(path) {
        Err(error) => fail(format!("{}: {error}", path.display())),
        Ok(found) if found != expected => fail(format!("{} is not what it writes", path.display())),
        Ok(_) => {}
    }
}

/// What `cases` reads and must print, and what there is to say of it.
fn stored_cases() -> (Vec<u8>, String, String) {
    let cases = all();
    let searched = search_agrees(&cases);
    let (input, output) = written(&cases);
    let tied = cases.iter().filter(|case| case.has_ties()).count();
    let elevens = elevens(&places_of_11(&output));
    let searched = format!("cases: {} blocks, {searched} of them also by exhaustive search", cases.len());
    let (given, too_much) = ticks_and_17(&output);
    let said = format!("{searched}; {elevens}; {tied} with ties; {given} fewest ticks given, {too_much} times 17");
    (input, output, said)
}

/// The same of `resize`.
fn longest_file() -> (Vec<u8>, String, String) {
    let file = largest_file();
    let output = printout(&file);
    let said = format!("resize: a file of {} bytes", file.len());
    (file, output, said)
}

fn main() {
    let arguments: Vec<String> = std::env::args().skip(1).collect();
    let mut words: Vec<&str> = arguments.iter().map(String::as_str).collect();
    let mut option = |name: &str| {
        let found = words.first() == Some(&name);
        words.drain(..usize::from(found));
        found
    };
    let (check, resize) = (option("--check"), option("--resize"));
    let folder = match words[..] {
        [folder] if !folder.starts_with('-') => folder,
        _ => usage("write-cases [--check] [--resize] DIR"),
    };
    let (input, output, said) = if resize { longest_file() } else { stored_cases() };
    for (name, content) in [("stdin", &input[..]), ("stdout", output.as_bytes())] {
        let path = Path::new(folder).join(name);
        if check {
            same(&path, content);
        } else if let Err(error) = std::fs::write(&path, content) {
            fail(format!("{}: {error}", path.display()));
        }
    }
    println!("{said}");
}
