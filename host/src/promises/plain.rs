//! A text without its comments and its layout, and the hash of it.

use crate::testing::belief::Kind;

/// Characters that are words of their own.
const ALONE: &str = "(){}[],;⌜⌝⟦⟧";

/// The words of a text with one blank between, without comments and without `pub`.
pub fn plain(kind: Kind, text: &str) -> String {
    let mark = match kind {
        Kind::Contract | Kind::Type => "//",
        Kind::Definition | Kind::Theorem => "--",
    };
    let code = text.lines().map(|line| uncommented(line, mark));
    let spaced: String = code.map(|line| spaced(line) + "\n").collect();
    let words = spaced.split_whitespace().filter(|word| *word != "pub");
    let text = words.collect::<Vec<_>>().join(" ");
    text.replace(" , )", " )").replace(" , }", " }")
}

/// A line up to the mark of a comment, which stands at its start or after a blank.
fn uncommented<'a>(line: &'a str, mark: &str) -> &'a str {
    let mut quoted = false;
    for (at, next) in line.char_indices() {
        quoted ^= next == '"';
        let begins = line[..at].chars().last().is_none_or(char::is_whitespace);
        if !quoted && begins && line[at..].starts_with(mark) {
            return &line[..at];
        }
    }
    line
}

/// A line with blanks around all that stands alone.
fn spaced(line: &str) -> String {
    let around = |next: char| match ALONE.contains(next) {
        true => format!(" {next} "),
        false => next.to_string(),
    };
    line.chars().map(around).collect()
}

/// FNV-1a, of 64 bits.
pub fn hash(text: &str) -> u64 {
    let next = |hash: u64, byte: u8| (hash ^ u64::from(byte)).wrapping_mul(0x100_0000_01b3);
    text.bytes().fold(0xcbf2_9ce4_8422_2325, next)
}

#[cfg(test)]
mod tests {
    use super::*;

    #[test]
    fn layout_is_no_part() {
        let one = "fn f(a: &[u8], b: u32) -> u64\n    ensures { result ≡ g a.now }";
        let other = "fn f(\n    a: &[u8],\n    b: u32,\n) -> u64\n    ensures {\n        result\n        ≡ g a.now}";
        let [one, other] = [one, other].map(|text| plain(Kind::Contract, text));
        assert_eq!(one, other);
    }

    #[test]
    fn comments_are_no_part() {
        let commented = "-- a sum\nsum x =\n  x -- itself";
        assert_eq!(plain(Kind::Definition, commented), "sum x = x");
        let commented = "    // layers\n    n: u32, // up to 12\n";
        assert_eq!(plain(Kind::Type, commented), "n: u32 ,");
        let quoted = "text \"a -- b\" - -1";
        assert_eq!(plain(Kind::Definition, quoted), quoted);
    }

    #[test]
    fn what_is_public_is_no_part() {
        let public = "abbrev pub sum : ℕ\nsum = 1";
        assert_eq!(plain(Kind::Definition, public), "abbrev sum : ℕ sum = 1");
    }

    #[test]
    fn words_are() {
        assert_ne!(
            plain(Kind::Definition, "sum x"),
            plain(Kind::Definition, "sumx")
        );
        assert_ne!(
            plain(Kind::Definition, "a b"),
            plain(Kind::Definition, "a (b)")
        );
    }

    #[test]
    fn known_hashes() {
        assert_eq!(hash(""), 0xcbf2_9ce4_8422_2325);
        assert_eq!(hash("a"), 0xaf63_dc4c_8601_ec8c);
        assert_eq!(hash("foobar"), 0x8594_4171_f739_67e8);
    }
}
