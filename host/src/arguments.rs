//! The arguments of the programs here: numbers in digits, and what a program says of any others.

use std::process::exit;
use std::time::SystemTime;

/// A number in digits alone.
pub fn number(word: &str) -> Option<u64> {
    let digits = word.bytes().all(|byte| byte.is_ascii_digit());
    word.parse().ok().filter(|_| digits)
}

/// All words as numbers, if there are at least and at most so many.
pub fn numbers(words: &[String], least: usize, most: usize) -> Option<Vec<u64>> {
    let count = words.len();
    words.iter().map(|word| number(word)).collect::<Option<_>>().filter(|_| least <= count && count <= most)
}

/// Ends a program that was called in another way.
pub fn usage(text: &str) -> ! {
    eprintln!("usage: {text}");
    exit(2)
}

/// How many files a program is to compare, and from which seeds, by its arguments [FILES [SEED]]: without a seed from a fixed one
/// and from one by the clock.
pub fn files_and_seeds(words: &[String]) -> Option<(usize, Vec<u64>)> {
    let numbers = numbers(words, 0, 2)?;
    let now = SystemTime::now().duration_since(SystemTime::UNIX_EPOCH).map_or(0, |d| d.as_secs());
    let files = *numbers.first().unwrap_or(&3_000) as usize;
    Some((files, numbers.get(1).map_or(vec![1, now], |&seed| vec![seed])))
}

#[cfg(test)]
mod tests {
    use super::*;

    fn words(words: &[&str]) -> Vec<String> {
        words.iter().map(|word| word.to_string()).collect()
    }

    #[test]
    fn digits_alone_are_a_number() {
        assert_eq!(["0", "007", "18446744073709551615"].map(number), [Some(0), Some(7), Some(u64::MAX)]);
        for word in ["", "+5", "-5", "5 ", " 5", "5x", "0x5", "5.", "1_000", "18446744073709551616", "\u{665}"] {
            assert_eq!(number(word), None, "{word}");
        }
    }

    #[test]
    fn surplus_and_missing_numbers_are_no_numbers() {
        assert_eq!(numbers(&words(&["1", "2"]), 1, 2), Some(vec![1, 2]));
        assert_eq!(numbers(&words(&["1", "2"]), 3, 4), None);
        assert_eq!(numbers(&words(&["1", "2"]), 0, 1), None);
        assert_eq!(numbers(&words(&["1", "x"]), 1, 2), None);
    }

    #[test]
    fn files_and_seeds_of_arguments() {
        assert_eq!(files_and_seeds(&words(&["5", "9"])), Some((5, vec![9])));
        assert_eq!(
            files_and_seeds(&words(&["5"])).map(|(files, seeds)| (files, seeds.len(), seeds[0])),
            Some((5, 2, 1))
        );
        assert_eq!(files_and_seeds(&[]).map(|(files, _)| files), Some(3_000));
        for wrong in [&["x"][..], &["5", "+9"], &["5", "9", "9"], &["", "9"]] {
            assert_eq!(files_and_seeds(&words(wrong)), None, "{wrong:?}");
        }
    }
}
