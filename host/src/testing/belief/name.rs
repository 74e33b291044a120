//! Names in specs and contracts, and where they come from.

use std::fmt::{self, Display, Formatter};

/// Files of specs/ that need not be believed. `Lib` has no definitions.
const APART: [&str; 3] = ["Claims", "Clauses", "Lib"];

/// The library of the kit.
const KIT: &str = "std";

/// A module below a crate's specs. `declared.T` has the type T that the crate's code declares, and
/// `declared.T.TheVariants` its variants. Besides, `src` is the crate's code and `proofs.F` a file of
/// its proofs.
#[derive(Clone, Debug, PartialEq, Eq, PartialOrd, Ord)]
pub struct Place {
    pub of: String,
    pub module: String,
}

/// What a name stands for.
#[derive(Clone, Copy, Debug, PartialEq, Eq)]
pub enum Kind {
    /// A function's contract.
    Contract,
    /// A type that the code declares.
    Type,
    /// A definition of specs/.
    Definition,
    /// What a theorem of proofs/ says.
    Theorem,
}

impl Place {
    pub fn new(of: &str, module: &str) -> Place {
        Place {
            of: of.to_string(),
            module: module.to_string(),
        }
    }

    /// The code of a crate.
    pub fn code(of: &str) -> Place {
        Place::new(of, "src")
    }

    /// A type that the code of a crate declares.
    pub fn declaration(of: &str, declared: &str) -> Place {
        Place::new(of, &format!("declared.{declared}"))
    }

    /// A file of proofs.
    pub fn proofs(of: &str, file: &str) -> Place {
        Place::new(of, &format!("proofs.{file}"))
    }

    /// What stands here.
    pub fn kind(&self) -> Kind {
        match self.module.split('.').next() {
            Some("src") => Kind::Contract,
            Some("declared") => Kind::Type,
            Some("proofs") => Kind::Theorem,
            _ => Kind::Definition,
        }
    }

    /// The file below crates/, or the folder of the code.
    pub fn file(&self) -> String {
        let Place { of, module } = self;
        match self.kind() {
            Kind::Contract | Kind::Type => format!("{of}/src"),
            Kind::Definition => format!("{of}/specs/{module}.antt"),
            Kind::Theorem => format!("{of}/{}.antt", module.replace('.', "/")),
        }
    }

    pub fn name(&self, name: &str) -> Name {
        Name {
            place: self.clone(),
            name: name.to_string(),
        }
    }

    pub fn is_believed(&self) -> bool {
        !APART.contains(&self.module.as_str())
    }

    /// The type that the code declares.
    pub fn declared(&self) -> Option<&str> {
        let declared = self.module.strip_prefix("declared.")?;
        Some(declared.strip_suffix(".TheVariants").unwrap_or(declared))
    }

    /// The place of a path, `Rattle.bits.specs.Mask`; likewise for proofs. None in a library.
    fn of_path(path: &str) -> Option<Place> {
        let (of, module) = path.strip_prefix("Rattle.")?.split_once('.')?;
        let module = module.strip_prefix("specs.").unwrap_or(module);
        (of != KIT).then(|| Place::new(of, module))
    }
}

/// A name and where it is defined.
#[derive(Clone, Debug, PartialEq, Eq, PartialOrd, Ord)]
pub struct Name {
    pub place: Place,
    pub name: String,
}

impl Display for Name {
    fn fmt(&self, to: &mut Formatter) -> fmt::Result {
        let (file, name) = (self.place.file(), &self.name);
        match self.place.declared() {
            Some(declared) if declared != name => write!(to, "{file}: {declared}::{name}"),
            _ => write!(to, "{file}: {name}"),
        }
    }
}

/// What a `use` line of a crate's specs brings.
#[derive(Debug, PartialEq, Eq)]
pub enum Import {
    /// A name, under this one.
    One(String, Name),
    /// All names of a module, behind this word and a dot.
    All(String, Place),
}

impl Import {
    /// What a line brings; nothing for a line that is no `use`, or of a library.
    pub fn read(line: &str) -> Vec<Import> {
        let line = line.strip_prefix("ghost ").unwrap_or(line);
        let line = line.strip_suffix(';').unwrap_or(line);
        let Some(path) = line.strip_prefix("use ") else {
            return Vec::new();
        };
        match path.split_once(".{") {
            Some((path, names)) => named(path, names.trim_end_matches('}')),
            None => whole(path),
        }
    }

    /// What a word stands for, if it comes from here.
    pub fn name_of(&self, word: &str) -> Option<Name> {
        match self {
            Import::One(of, name) => (of == without_fields(word)).then(|| name.clone()),
            Import::All(of, place) => {
                let name = word.strip_prefix(of.as_str())?.strip_prefix('.')?;
                Some(place.name(without_fields(name)))
            }
        }
    }
}

/// The names between brackets, with a comma between, each alone or `as` another.
fn named(path: &str, names: &str) -> Vec<Import> {
    let Some(place) = Place::of_path(path) else {
        return Vec::new();
    };
    let one = |name: &str| {
        let (name, word) = name.split_once(" as ").unwrap_or((name, name));
        Import::One(word.trim().to_string(), place.name(name.trim()))
    };
    names.split(',').map(one).collect()
}

/// A module as a word, its last one where none is given.
fn whole(path: &str) -> Vec<Import> {
    let last = path.rsplit('.').next().unwrap_or(path);
    let (path, word) = path.split_once(" as ").unwrap_or((path, last));
    let place = Place::of_path(path);
    let all = place.map(|place| Import::All(word.to_string(), place));
    all.into_iter().collect()
}

/// A word without the fields behind it, each after a dot.
pub fn without_fields(word: &str) -> &str {
    word.split('.').next().unwrap_or(word)
}

/// The words of a text that may be names, with the fields behind them: without fields of brackets, and
/// texts in quotes.
pub fn words(text: &str) -> impl Iterator<Item = &str> {
    let is_break = |c: char| c.is_whitespace() || "(){};,⌜⌝⟦⟧λ".contains(c);
    let unquoted = text.split('"').step_by(2);
    unquoted
        .flat_map(move |part| part.split(is_break))
        .filter(|word| !word.starts_with('.'))
        .map(|word| word.trim_end_matches('.'))
        .filter(|word| !word.is_empty())
}

#[cfg(test)]
mod tests {
    use super::*;

    #[test]
    fn names_of_other_crates_and_of_the_own() {
        let mask = Place::new("bits", "Mask");
        let expected = [
            Import::One("mask_bit".to_string(), mask.name("mask_bit")),
            Import::One("ones".to_string(), mask.name("ones_in")),
        ];
        for line in [
            "use Rattle.bits.specs.Mask.{mask_bit, ones_in as ones}",
            "ghost use Rattle.bits.specs.Mask.{mask_bit, ones_in as ones};",
        ] {
            assert_eq!(Import::read(line), expected);
        }
        let line = "use Rattle.bits.proofs.Mask.{ones-in}";
        let proved = Place::proofs("bits", "Mask").name("ones-in");
        assert_eq!(
            Import::read(line),
            [Import::One("ones-in".to_string(), proved)]
        );
        assert_eq!(expected[1].name_of("ones"), Some(mask.name("ones_in")));
        assert_eq!(expected[1].name_of("ones_in"), None);
    }

    #[test]
    fn whole_modules() {
        let variants = Place::new("flip_run", "declared.Decoded.TheVariants");
        let line = "use Rattle.flip_run.specs.declared.Decoded.TheVariants as decode";
        let imports = Import::read(line);
        assert_eq!(
            imports,
            [Import::All("decode".to_string(), variants.clone())]
        );
        let accepted = imports[0].name_of("decode.Accepted");
        assert_eq!(accepted, Some(variants.name("Accepted")));
        assert_eq!(imports[0].name_of("Accepted"), None);
        assert_eq!(variants.declared(), Some("Decoded"));
        let mask = Import::read("use Rattle.bits.specs.Mask");
        assert_eq!(
            mask,
            [Import::All("Mask".to_string(), Place::new("bits", "Mask"))]
        );
    }

    #[test]
    fn fields_behind_a_name() {
        let mask = Place::new("bits", "Mask");
        let one = Import::One("ones".to_string(), mask.name("ones"));
        let all = Import::All("Mask".to_string(), mask.clone());
        for word in ["ones", "ones.0", "ones.work.steps"] {
            assert_eq!(one.name_of(word), Some(mask.name("ones")), "{word}");
            assert_eq!(all.name_of(word), None, "{word}");
            let word = format!("Mask.{word}");
            assert_eq!(one.name_of(&word), None, "{word}");
            assert_eq!(all.name_of(&word), Some(mask.name("ones")), "{word}");
        }
        assert_eq!(one.name_of("work.ones"), None);
    }

    #[test]
    fn libraries_bring_nothing() {
        for line in [
            "use lib.ListN.{length}",
            "use Rattle.std.specs.Prelude.{length}",
            "ghost use Rattle.std.specs.Prelude.{length};",
            "use arrays::SIZE;",
            "useful = 1",
            "",
        ] {
            assert_eq!(Import::read(line), []);
        }
    }

    #[test]
    fn words_that_may_be_names() {
        let text =
            "no_line (λ x. number_of x) {text \"code a\"} ⌜o.work.steps ≡ ((f a).0, decode.Done)⌝";
        let found: Vec<&str> = words(text).collect();
        let expected = [
            "no_line",
            "x",
            "number_of",
            "x",
            "text",
            "o.work.steps",
            "≡",
            "f",
            "a",
            "decode.Done",
        ];
        assert_eq!(found, expected);
    }

    #[test]
    fn places_and_their_files() {
        for (place, kind, file) in [
            (Place::code("bits"), Kind::Contract, "bits/src"),
            (Place::declaration("code", "Code"), Kind::Type, "code/src"),
            (
                Place::new("bits", "Mask"),
                Kind::Definition,
                "bits/specs/Mask.antt",
            ),
            (
                Place::proofs("bits", "Mask"),
                Kind::Theorem,
                "bits/proofs/Mask.antt",
            ),
        ] {
            assert_eq!((place.kind(), place.file()), (kind, file.to_string()));
        }
    }

    #[test]
    fn what_is_believed() {
        assert!(Place::new("bits", "Mask").is_believed());
        assert!(!Place::new("bits", "Claims").is_believed());
        assert!(!Place::new("pass", "Clauses").is_believed());
    }
}
