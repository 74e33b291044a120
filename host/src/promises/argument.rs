//! What the command line asks for.

const USAGE: &str = "\
usage: promises [--since COMMIT]
  without words   each promise: what it is, its name, its crate and file, and a hash of its text
  --since COMMIT  the promises whose text is another than at a commit, those that are new and those that
                  are gone, and how many stayed. A promise is followed by its name: to another crate and
                  file, and to the new name of a crate that is gone.";

/// What is to be printed.
#[derive(Debug, PartialEq, Eq)]
pub enum Wanted {
    /// All promises.
    List,
    /// What moved since this commit.
    Since(String),
}

/// What these words ask for, or how to ask.
pub fn read(words: &[String]) -> Result<Wanted, String> {
    let words: Vec<&str> = words.iter().map(String::as_str).collect();
    match words[..] {
        [] => Ok(Wanted::List),
        ["--since", commit] if !commit.starts_with('-') => Ok(Wanted::Since(commit.to_string())),
        _ => Err(USAGE.to_string()),
    }
}

#[cfg(test)]
mod tests {
    use super::*;

    fn of(words: &[&str]) -> Result<Wanted, String> {
        let words: Vec<String> = words.iter().map(|word| word.to_string()).collect();
        read(&words)
    }

    #[test]
    fn the_words_of_the_usage() {
        assert_eq!(of(&[]), Ok(Wanted::List));
        let since = Wanted::Since("4d76c9e".to_string());
        assert_eq!(of(&["--since", "4d76c9e"]), Ok(since));
    }

    #[test]
    fn other_words_give_the_usage() {
        for words in [
            &["--since"][..],
            &["HEAD"],
            &["--since", "--help"],
            &["--since", "a", "b"],
        ] {
            assert_eq!(of(words), Err(USAGE.to_string()));
        }
    }
}
