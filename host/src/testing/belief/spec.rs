//! One file of definitions.

use crate::testing::belief::name::{Import, Place};
use crate::testing::belief::request::Request;

/// A file's imports and definitions, what asks for these, and how many lines they have: all but empty
/// ones, comments and `use` lines.
#[derive(Debug)]
pub struct Spec {
    pub request: Option<Request>,
    pub imports: Vec<Import>,
    pub definitions: Vec<Definition>,
    pub lines: usize,
}

/// A block of lines that defines names; a type also names its constructors.
#[derive(Debug, PartialEq, Eq)]
pub struct Definition {
    pub names: Vec<String>,
    pub text: String,
}

impl Spec {
    /// Reads a file; panics where a block of lines defines nothing.
    pub fn read(place: &Place, text: &str) -> Spec {
        let mut spec = Spec {
            request: Request::of(text),
            imports: Vec::new(),
            definitions: Vec::new(),
            lines: 0,
        };
        if place.module == "Lib" {
            return spec;
        }
        for block in text.split("\n\n") {
            let (uses, lines): (Vec<&str>, Vec<&str>) = block
                .lines()
                .filter(|line| is_code(line))
                .partition(|line| line.starts_with("use "));
            spec.imports.extend(uses.into_iter().flat_map(Import::read));
            spec.lines += lines.len();
            if !lines.is_empty() {
                let names = defined(&lines);
                assert!(
                    !names.is_empty(),
                    "{place:?} defines nothing here:\n{block}"
                );
                spec.definitions.push(Definition {
                    names,
                    text: lines.join("\n"),
                });
            }
        }
        spec
    }

    /// The definition that gives a name.
    pub fn definition(&self, name: &str) -> Option<&Definition> {
        let mut definitions = self.definitions.iter();
        definitions.find(|definition| definition.names.iter().any(|of| of == name))
    }
}

/// Whether a line is neither empty nor a comment.
pub fn is_code(line: &str) -> bool {
    !line.trim().is_empty() && !line.trim().starts_with("--")
}

/// The names that a block defines.
fn defined(lines: &[&str]) -> Vec<String> {
    let mut names = Vec::new();
    let mut in_data = false;
    for line in lines {
        if line.starts_with(' ') {
            let constructor = name_before_colon(line.trim()).filter(|_| in_data);
            names.extend(constructor);
        } else {
            in_data = line.starts_with("pub data ") || line.starts_with("data ");
            names.extend(head(line));
        }
    }
    names
}

/// The name that a first line of a definition gives.
pub fn head(line: &str) -> Option<String> {
    let words: Vec<&str> = line.split_whitespace().collect();
    let after = |keyword: &str| {
        let place = words.iter().position(|word| *word == keyword)?;
        words.get(place + 1).map(|name| name.to_string())
    };
    match words[..] {
        ["pub", "record" | "data", ..] | ["record" | "data", ..] => {
            after("record").or_else(|| after("data"))
        }
        ["abbrev" | "unfoldable" | "pub", ..] => name_before_colon(line),
        _ => None,
    }
}

/// The last word before the first colon that stands alone.
fn name_before_colon(line: &str) -> Option<String> {
    let (before, _) = line.split_once(" : ")?;
    before.split_whitespace().last().map(str::to_string)
}

#[cfg(test)]
mod tests {
    use super::*;

    const TEXT: &str = "\
-- What a file is about.
use lib.ListN.{length}
use Rattle.bits.specs.Mask.{mask_bit}

-- the sum
abbrev pub sum : List ℕ → ℕ
sum [] = 0
sum (x ∷ xs) = x + sum xs

unfoldable pub twice : ℕ → ℕ
twice x = sum (x ∷ x ∷ [])

-- what holds
pub record Holds (c : Code) (size : ℕ) : Type 0 where
  -- a field
  pub fits : size ≤ c.n

pub data Rule : Type 0 where
  pub frozen : Rule
  usual : ℕ → Rule
";

    fn names(spec: &Spec) -> Vec<&[String]> {
        let definitions = spec.definitions.iter();
        definitions.map(|of| of.names.as_slice()).collect()
    }

    #[test]
    fn blocks_define_names() {
        let spec = Spec::read(&Place::new("a", "Sum"), TEXT);
        let expected: [&[&str]; 4] = [
            &["sum"],
            &["twice"],
            &["Holds"],
            &["Rule", "frozen", "usual"],
        ];
        assert_eq!(names(&spec), expected);
        assert_eq!(spec.imports.len(), 1);
        assert_eq!(spec.lines, 10);
    }

    #[test]
    fn names_are_found() {
        let spec = Spec::read(&Place::new("a", "Sum"), TEXT);
        let rule = spec.definition("usual").expect("a constructor");
        assert!(rule.text.starts_with("pub data Rule"));
        assert_eq!(spec.definition("fits"), None);
        assert_eq!(spec.definition("length"), None);
    }

    #[test]
    #[should_panic(expected = "defines nothing")]
    fn a_block_must_define_something() {
        Spec::read(&Place::new("a", "Sum"), "\n\nsum x = x\n");
    }
}
