//! Bytes in hexadecimal.

/// Reads bytes written as two digits each, with any blanks between them; nothing where the text has
/// anything else.
pub fn read(text: &str) -> Option<Vec<u8>> {
    let characters = text.chars().filter(|c| !c.is_whitespace());
    let digits = characters.map(|c| Some(c.to_digit(16)? as u8));
    let digits: Vec<u8> = digits.collect::<Option<_>>()?;
    let pairs = digits.chunks_exact(2);
    let is_whole = pairs.remainder().is_empty();
    is_whole.then(|| pairs.map(|pair| 16 * pair[0] + pair[1]).collect())
}

/// Reads a text that has nothing else.
pub fn parse(text: &str) -> Vec<u8> {
    read(text).expect("two hexadecimal digits for each byte")
}

#[cfg(test)]
mod tests {
    use super::*;

    #[test]
    fn two_digits_are_a_byte() {
        assert_eq!(parse("09 00 eF"), [0x09, 0x00, 0xEF]);
        assert_eq!(parse(""), []);
    }

    #[test]
    fn other_texts_are_nothing() {
        for text in ["0", "09 0", "0g", "0x09", "-9", "run.bin"] {
            assert_eq!(read(text), None, "{text}");
        }
    }
}
