//! One file of proofs: what its theorems say.

use crate::testing::belief::name::Import;
use crate::testing::belief::spec::{head, is_code, Definition};

/// A file's imports, and the statements of its public theorems without their proofs.
#[derive(Debug)]
pub struct Proof {
    pub imports: Vec<Import>,
    pub theorems: Vec<Definition>,
}

impl Proof {
    pub fn read(text: &str) -> Proof {
        Proof {
            imports: text.lines().flat_map(Import::read).collect(),
            theorems: text.split("\n\n").filter_map(theorem).collect(),
        }
    }

    /// The theorem that has a name.
    pub fn theorem(&self, name: &str) -> Option<&Definition> {
        self.theorems.iter().find(|of| of.names[0] == name)
    }
}

/// The public theorem that a block of lines proves, or what it defines.
fn theorem(block: &str) -> Option<Definition> {
    let lines: Vec<&str> = block.lines().filter(|line| is_code(line)).collect();
    let first = lines.first()?;
    let name = head(first)?;
    let is_said = |line: &&&str| line.starts_with(' ') || first.starts_with("abbrev ");
    let rest = lines[1..].iter().take_while(is_said);
    let said: Vec<&str> = [first].into_iter().chain(rest).copied().collect();
    Some(Definition {
        names: vec![name],
        text: said.join("\n"),
    })
}

#[cfg(test)]
mod tests {
    use super::*;

    const TEXT: &str = "\
-- What holds.
use Rattle.a.specs.Sum.{Holds}

-- a step
step : 1 ≡ 1
step = refl

-- whatever x is
pub holds : (x : ℕ)
    → Holds x
unfolding sum
holds x = step

abbrev pub Rows : Type 0
Rows = 1 ≡ 1
";

    #[test]
    fn statements_without_proofs() {
        let proof = Proof::read(TEXT);
        let texts: Vec<&str> = proof.theorems.iter().map(|of| of.text.as_str()).collect();
        let expected = [
            "pub holds : (x : ℕ)\n    → Holds x",
            "abbrev pub Rows : Type 0\nRows = 1 ≡ 1",
        ];
        assert_eq!(texts, expected);
        assert!(proof.theorem("holds").is_some() && proof.theorem("step").is_none());
        assert_eq!(proof.imports.len(), 1);
    }
}
