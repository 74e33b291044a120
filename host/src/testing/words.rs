//! How long the parts of functions are, and how comments begin.

/// A function of a crate's code.
#[derive(Debug, PartialEq, Eq)]
pub struct Function<'a> {
    pub name: &'a str,
    pub parameters: usize,
    /// The lines of its contract.
    pub contract: Vec<&'a str>,
    /// How many lines stand between the brackets of its body.
    pub body: usize,
}

/// The functions of a file, also those of types.
pub fn functions(text: &str) -> Vec<Function<'_>> {
    let lines: Vec<&str> = text.lines().collect();
    let function = |at: usize| Some(read(name(lines[at])?, &lines[at..]));
    (0..lines.len()).filter_map(function).collect()
}

/// The name of the function that begins on a line.
fn name(line: &str) -> Option<&str> {
    let line = line.trim_start();
    let line = line.strip_prefix("pub ").unwrap_or(line);
    let line = line.strip_prefix("extern \"C\" ").unwrap_or(line);
    line.strip_prefix("fn ")?.split('(').next()
}

/// The function that begins with these lines.
fn read<'a>(name: &'a str, lines: &[&'a str]) -> Function<'a> {
    let margin = margin(lines[0]);
    let is_at_margin = |line: &&str| self::margin(line) == margin;
    let opens = |line: &&str| is_at_margin(line) && line.ends_with('{');
    let closes = |line: &&str| is_at_margin(line) && line.trim() == "}";
    let body = lines.iter().position(opens).expect("a body");
    let end = lines.iter().position(closes).expect("an end");
    Function {
        name,
        parameters: parameters(&lines[..=body].concat()),
        contract: contract(&lines[..body]),
        body: end - body - 1,
    }
}

fn margin(line: &str) -> usize {
    line.len() - line.trim_start().len()
}

/// Of the lines before a body, those of the contract.
fn contract<'a>(head: &[&'a str]) -> Vec<&'a str> {
    let words = ["requires", "ensures"];
    let is_clause = |line: &&str| words.iter().any(|word| line.trim().starts_with(word));
    let first = head.iter().position(is_clause).unwrap_or(head.len());
    let lines = head[first..].iter();
    lines.filter(|line| is_code(line)).copied().collect()
}

/// How many parameters stand between the first brackets.
fn parameters(head: &str) -> usize {
    let mut depth = 0;
    let mut list = vec![String::new()];
    for next in head.chars().skip_while(|next| *next != '(') {
        depth -= i32::from(")]".contains(next));
        match next {
            _ if depth < 1 && next == ')' => break,
            ',' if depth == 1 => list.push(String::new()),
            _ => list.last_mut().expect("one").push(next),
        }
        depth += i32::from("([".contains(next));
    }
    let is_one = |text: &&String| !text.trim_matches(['(', ' ']).is_empty();
    list.iter().filter(is_one).count()
}

/// Whether a line is neither empty, nor a comment, nor the use of a name.
pub fn is_code(line: &str) -> bool {
    let line = line.trim();
    let others = ["//", "--", "use ", "ghost use "];
    !line.is_empty() && !others.iter().any(|mark| line.starts_with(mark))
}

/// The comment on a line.
pub fn comment(line: &str) -> Option<&str> {
    let after = |mark: &str| line.split_once(mark).map(|(_, text)| text.trim());
    after("// ").or_else(|| after("-- "))
}

#[cfg(test)]
mod tests {
    use super::*;

    const TEXT: &str = "\
// Nothing.
fn nothing() {
}

impl Pair {
    // Both.
    pub fn of(first: [u8; 2], second: (u8, u8)) -> Pair
        requires { first }
        // then
        ensures both { result ≡ a
            × b }
    {
        if first[0] == 0 {
            return Pair { first };
        }
        other(first, second)
    }
}

#[unsafe(no_mangle)]
pub extern \"C\" fn polar_first(
    d: &[u8],
    n: u32,
    bits: &mut [u8],
) -> u64 {
    // the first
    d[0]
}
";

    #[test]
    fn functions_of_a_file() {
        let expected = [
            Function {
                name: "nothing",
                parameters: 0,
                contract: Vec::new(),
                body: 0,
            },
            Function {
                name: "of",
                parameters: 2,
                contract: vec![
                    "        requires { first }",
                    "        ensures both { result ≡ a",
                    "            × b }",
                ],
                body: 4,
            },
            Function {
                name: "polar_first",
                parameters: 3,
                contract: Vec::new(),
                body: 2,
            },
        ];
        assert_eq!(functions(TEXT), expected);
    }

    #[test]
    fn lines_of_code() {
        for line in ["x", "    } else {", "useful(x);"] {
            assert!(is_code(line), "{line}");
        }
        for line in ["", "  ", "  // x", "-- x", "use a::B;", "ghost use a.{b};"] {
            assert!(!is_code(line), "{line}");
        }
    }

    #[test]
    fn comments_of_lines() {
        assert_eq!(comment("    // The same."), Some("The same."));
        assert_eq!(comment("    n: u32, // layers"), Some("layers"));
        assert_eq!(comment("  -- the same"), Some("the same"));
        assert_eq!(comment("x - y"), None);
    }
}
