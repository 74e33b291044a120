//! The description that the command line names.

use std::fs;

use crate::reference::receive::first_record;
use crate::testing::hex;

const USAGE: &str = "\
usage: silence DESCRIPTION
  DESCRIPTION  the bytes of a code description as hexadecimal digits, with or without spaces, or the
               path of a file whose first record it is";

/// The bytes that these words name, or why there are none.
pub fn read(words: &[String]) -> Result<Vec<u8>, String> {
    if words.is_empty() {
        return Err(USAGE.to_string());
    }
    let text = words.join(" ");
    hex::read(&text).map_or_else(|| read_file(&text), Ok)
}

/// The first record of a file.
fn read_file(path: &str) -> Result<Vec<u8>, String> {
    let content = fs::read(path).map_err(|error| {
        format!("`{path}` is neither bytes nor a file to read: {error}\n{USAGE}")
    })?;
    match first_record(&content) {
        Some((record, _)) => Ok(record.to_vec()),
        None => Err(format!(
            "`{path}` has no whole record at its start\n{USAGE}"
        )),
    }
}

#[cfg(test)]
mod tests {
    use super::*;
    use crate::reference::description::describe;
    use crate::testing::files::repository;
    use crate::testing::paper::D;

    fn of(words: &[&str]) -> Result<Vec<u8>, String> {
        read(
            &words
                .iter()
                .map(|word| word.to_string())
                .collect::<Vec<_>>(),
        )
    }

    #[test]
    fn digits_in_one_word_or_in_several() {
        for words in [
            &["0900010003010100E8"][..],
            &["09 00 01 00 03 01 01 00 e8"],
            &["09", "00", "01", "00", "0301", "0100", "E8"],
        ] {
            assert_eq!(of(words), Ok(D.to_vec()));
        }
    }

    #[test]
    fn the_first_record_of_a_file() {
        let file = |name: &str| repository().join(name).display().to_string();
        let d = of(&[&file("recordings/run.bin")]).expect("a record");
        let code = describe(&d).expect("a code");
        assert_eq!((code.n, code.k, code.r), (7, 40, 11));
        let message = of(&[&file("tests/cases/empty.in")]).expect_err("no record");
        assert!(message.contains("no whole record"), "{message}");
    }

    #[test]
    fn other_words_give_the_usage() {
        for words in [&[][..], &["0"], &["09", "0"], &["no-such-file"]] {
            let message = of(words).expect_err("no description");
            assert!(message.ends_with(USAGE), "{message}");
        }
    }
}
