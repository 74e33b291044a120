//! What a crate's code says: contracts, and the types that it declares.

use crate::testing::belief::name::Import;

#[derive(Debug, Default)]
pub struct Code {
    pub imports: Vec<Import>,
    pub functions: Vec<Function>,
    pub types: Vec<Type>,
}

/// A function, the text before its body, and its contract alone.
#[derive(Debug, PartialEq, Eq)]
pub struct Function {
    pub name: String,
    pub is_exported: bool,
    pub head: String,
    pub contract: String,
}

#[derive(Debug, PartialEq, Eq)]
pub struct Type {
    pub name: String,
    pub variants: Vec<String>,
    pub text: String,
}

impl Code {
    pub fn read(text: &str) -> Code {
        let lines: Vec<&str> = text.lines().collect();
        let mut code = Code {
            imports: lines.iter().flat_map(|line| Import::read(line)).collect(),
            ..Code::default()
        };
        for (index, line) in lines.iter().enumerate() {
            let is_exported = index > 0 && lines[index - 1] == "#[unsafe(no_mangle)]";
            if let Some(name) = name_after(line, &["fn"]) {
                let head = head(&lines[index..]);
                code.functions.push(Function {
                    name,
                    is_exported,
                    contract: contract(&head),
                    head: head.join("\n"),
                });
            }
            if let Some(name) = name_after(line, &["struct", "enum"]) {
                code.types.push(Type {
                    name,
                    variants: variants(&lines[index + 1..]),
                    text: declaration(&lines[index..]),
                });
            }
        }
        code
    }

    /// Whether a name is that of a declared type, or of one of its variants.
    pub fn declares(&self, declared: &str, name: &str) -> bool {
        let mut types = self.types.iter().filter(|of| of.name == declared);
        types.any(|of| of.name == name || of.variants.iter().any(|variant| variant == name))
    }
}

/// The name after one of these words on a line that does not start with a blank.
fn name_after(line: &str, keywords: &[&str]) -> Option<String> {
    let is_item = line.starts_with("pub ") || keywords.iter().any(|word| line.starts_with(word));
    let mut words = line.split_whitespace().filter(|_| is_item);
    words.find(|word| keywords.contains(word))?;
    words.next().map(name_at_start)
}

fn name_at_start(text: &str) -> String {
    let is_part = |c: &char| c.is_alphanumeric() || *c == '_';
    text.chars().take_while(is_part).collect()
}

/// The function that begins here, without its body and without comments.
fn head<'a>(lines: &[&'a str]) -> Vec<&'a str> {
    let is_body = |line: &&str| !line.starts_with(' ') && line.ends_with('{');
    let body = lines.iter().position(is_body).unwrap_or(lines.len());
    let last = lines.get(body).map(|line| line.trim_end_matches('{'));
    let head = lines[..body].iter().copied().chain(last);
    head.filter(|line| is_code(line)).collect()
}

/// Of the lines before a body, those of the contract.
fn contract(head: &[&str]) -> String {
    let is_clause = |line: &&&str| {
        ["requires", "ensures"]
            .iter()
            .any(|word| line.trim().starts_with(word))
    };
    let contract = head.iter().skip_while(|line| !is_clause(line));
    contract.copied().collect::<Vec<_>>().join("\n")
}

/// The type that begins here, without comments.
fn declaration(lines: &[&str]) -> String {
    let is_end = |line: &&str| *line == "}" || line.ends_with(';');
    let end = lines.iter().position(is_end).unwrap_or(0);
    let lines = lines[..=end].iter().filter(|line| is_code(line));
    lines.copied().collect::<Vec<_>>().join("\n")
}

/// Whether a line is neither empty nor a comment.
fn is_code(line: &str) -> bool {
    !line.trim().is_empty() && !line.trim().starts_with("//")
}

/// The variants of the type whose body begins here, or its fields.
fn variants(lines: &[&str]) -> Vec<String> {
    let body = lines.iter().take_while(|line| line.starts_with(' '));
    let first = body.filter_map(|line| line.strip_prefix("    "));
    let names = first.map(name_at_start).filter(|name| !name.is_empty());
    names.collect()
}

#[cfg(test)]
mod tests {
    use super::*;

    const TEXT: &str = "\
ghost use Rattle.bits.specs.Mask.{mask_bit};

pub enum Answer {
    Done { steps: u32 },
    Refused(
        Refusal,
    ),
    // not made
    Failed,
}

fn plain(x: u8) -> u8 {
    x
}

#[unsafe(no_mangle)]
pub extern \"C\" fn polar_first(
    d: &[u8],
) -> u64
    requires { before }
    ensures low { result ≡ after
        d.now }
{
    plain(d[0])
}
";

    #[test]
    fn functions_and_contracts() {
        let code = Code::read(TEXT);
        let function = |name: &str, is_exported, signature: &str, contract: &str| Function {
            name: name.to_string(),
            is_exported,
            head: [signature, contract].concat(),
            contract: contract.to_string(),
        };
        let contract = "    requires { before }\n    ensures low { result ≡ after\n        d.now }";
        let first = "pub extern \"C\" fn polar_first(\n    d: &[u8],\n) -> u64\n";
        let expected = [
            function("plain", false, "fn plain(x: u8) -> u8 ", ""),
            function("polar_first", true, first, contract),
        ];
        assert_eq!(code.functions, expected);
        assert_eq!(code.imports.len(), 1);
    }

    #[test]
    fn types_and_variants() {
        let code = Code::read(TEXT);
        for name in ["Answer", "Done", "Refused", "Failed"] {
            assert!(code.declares("Answer", name), "{name}");
        }
        let text = &code.types[0].text;
        assert!(text.starts_with("pub enum Answer {") && text.ends_with("    Failed,\n}"));
        assert!(!text.contains("not made"));
        assert!(!code.declares("Answer", "Refusal"));
        assert!(!code.declares("Done", "Done"));
    }
}
