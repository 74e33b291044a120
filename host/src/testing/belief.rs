//! What must be believed: the definitions in crates/*/specs, and which of them the public promises
//! and the main theorems cite.
//!
//! In each crate's specs/, `Claims.antt` has what theorems about the definitions state, and
//! `Clauses.antt` what only contracts of the crate's own functions cite. All other files are to
//! be believed.

mod code;
mod name;
mod proof;
mod request;
pub mod source;
mod spec;
mod texts;

pub use code::Code;
pub use name::{Import, Kind, Name, Place};
pub use proof::Proof;
pub use request::{Request, Requests};
pub use spec::{Definition, Spec};
pub use texts::Text;

use std::collections::{BTreeMap, BTreeSet};

use name::{without_fields, words};
use source::Files;

/// The specs, the code and the proofs of all crates.
#[derive(Default)]
pub struct Crates {
    specs: BTreeMap<Place, Spec>,
    code: BTreeMap<String, Code>,
    proofs: BTreeMap<Place, Proof>,
}

/// What some roots cite, directly or through other definitions, and what is wrong with that.
#[derive(Debug, Default, PartialEq)]
pub struct Cited {
    pub names: BTreeSet<Name>,
    pub faults: Vec<String>,
}

impl Crates {
    pub fn read(files: &Files) -> Crates {
        let mut crates = Crates::default();
        for (path, text) in files {
            match source::parts(path) {
                Some((of, "src", _)) => crates.add_code(of, text),
                Some((of, "specs", file)) => crates.add_spec(&Place::new(of, file), text),
                Some((of, _, file)) => crates.add_proof(&Place::proofs(of, file), text),
                None => {}
            }
        }
        crates
    }

    pub fn add_code(&mut self, name: &str, text: &str) {
        self.code.insert(name.to_string(), Code::read(text));
    }

    pub fn add_spec(&mut self, place: &Place, text: &str) {
        self.specs.insert(place.clone(), Spec::read(place, text));
    }

    pub fn add_proof(&mut self, place: &Place, text: &str) {
        self.proofs.insert(place.clone(), Proof::read(text));
    }

    /// The exported functions of a crate.
    pub fn exports(&self, name: &str) -> Vec<String> {
        let functions = self.code.get(name).map(|code| &code.functions);
        let exported = functions.into_iter().flatten().filter(|f| f.is_exported);
        exported.map(|f| f.name.clone()).collect()
    }

    /// The function of a crate that has a name.
    pub fn function(&self, of: &str, name: &str) -> Option<Name> {
        let functions = &self.code.get(of)?.functions;
        let found = functions.iter().find(|function| function.name == name);
        found.map(|_| Place::code(of).name(name))
    }

    /// The definition of a crate that has a name, in a file that is to be believed.
    pub fn definition(&self, of: &str, name: &str) -> Option<Name> {
        let mut believed = self.believed().filter(|(place, _)| place.of == of);
        let found = believed.find(|(_, spec)| spec.definition(name).is_some());
        found.map(|(place, _)| place.name(name))
    }

    /// The public theorem of a crate that has a name.
    pub fn theorem(&self, of: &str, name: &str) -> Option<Name> {
        let mut proofs = self.proofs.iter().filter(|(place, _)| place.of == of);
        let found = proofs.find(|(_, proof)| proof.theorem(name).is_some());
        found.map(|(place, _)| place.name(name))
    }

    /// The files that are to be believed.
    fn believed(&self) -> impl Iterator<Item = (&Place, &Spec)> {
        self.specs.iter().filter(|(place, _)| place.is_believed())
    }

    /// How many lines of definitions are to be believed.
    pub fn lines(&self) -> usize {
        self.believed().map(|(_, spec)| spec.lines).sum()
    }

    /// How many of these lines belong to each request.
    pub fn requests(&self) -> Requests {
        Requests::sum(self.believed())
    }

    /// The definitions that are to be believed and not among these.
    pub fn others(&self, names: &BTreeSet<Name>) -> Vec<Name> {
        let mut others = Vec::new();
        for (place, spec) in self.believed() {
            for definition in &spec.definitions {
                let mut of_place = definition.names.iter().map(|name| place.name(name));
                if !of_place.any(|name| names.contains(&name)) {
                    others.push(place.name(&definition.names[0]));
                }
            }
        }
        others
    }

    /// Adds what the contract of a function cites.
    pub fn cite_function(&self, of: &str, name: &str, cited: &mut Cited) {
        let who = format!("{of}::{name}");
        let found = self.code.get(of).and_then(|code| {
            let function = code.functions.iter().find(|f| f.name == name)?;
            Some((function, &code.imports))
        });
        let Some((function, imports)) = found else {
            return cited.faults.push(format!("{who} is not found"));
        };
        let names = citations(&function.contract, imports, |_| None);
        if names.is_empty() {
            cited
                .faults
                .push(format!("the contract of {who} cites no definition"));
        }
        for name in names {
            self.cite(&who, name, cited);
        }
    }

    /// Adds a name and all that its definition cites.
    pub fn cite(&self, by: &str, name: Name, cited: &mut Cited) {
        let mut open = vec![(by.to_string(), name)];
        while let Some((by, name)) = open.pop() {
            if cited.names.contains(&name) {
                continue;
            }
            match self.fault(&name) {
                Some(fault) => cited.faults.push(format!("{by} cites {name}, {fault}")),
                None => {
                    let next = self.cited_by(&name).into_iter();
                    open.extend(next.map(|next| (name.to_string(), next)));
                }
            }
            cited.names.insert(name);
        }
    }

    /// What is wrong with a name that a promise cites.
    fn fault(&self, name: &Name) -> Option<&'static str> {
        let is_there = match name.place.declared() {
            Some(declared) => {
                let code = self.code.get(&name.place.of);
                code.is_some_and(|code| code.declares(declared, &name.name))
            }
            None => {
                let spec = self.specs.get(&name.place);
                spec.is_some_and(|spec| spec.definition(&name.name).is_some())
            }
        };
        if !is_there {
            Some("which is not found")
        } else if !name.place.is_believed() {
            Some("which does not stand where it is to be believed")
        } else {
            None
        }
    }

    /// What the definition of a name cites. Types that the code declares cite nothing.
    fn cited_by(&self, name: &Name) -> Vec<Name> {
        let found = self.specs.get(&name.place).and_then(|spec| {
            let definition = spec.definition(&name.name)?;
            Some((spec, definition))
        });
        let Some((spec, definition)) = found else {
            return Vec::new();
        };
        citations(&definition.text, &spec.imports, |word| {
            spec.definition(word).map(|_| name.place.name(word))
        })
    }
}

/// The names in a text that are the file's own, or that are imported from crates: all that one word may
/// stand for.
fn citations(text: &str, imports: &[Import], own: impl Fn(&str) -> Option<Name>) -> Vec<Name> {
    let of = |word: &str| {
        let names = imports.iter().filter_map(|import| import.name_of(word));
        names.collect::<Vec<Name>>()
    };
    let all = |word: &str| own(without_fields(word)).map_or_else(|| of(word), |name| vec![name]);
    words(text).flat_map(all).collect()
}

#[cfg(test)]
mod tests {
    use super::*;

    const CODE: &str = "\
use b::Answer;
ghost use Rattle.std.specs.Prelude.{◌≡◌};
ghost use Rattle.a.specs.Word.{answer as right};

pub fn operation(d: &[u8]) -> Answer
    ensures { result ≡ right d.now }
{
    helper(d)
}

fn helper(d: &[u8]) -> Answer {
    Answer::Done
}
";

    const WORD: &str = "\
use Rattle.b.specs.declared.Answer.TheVariants as made
use Rattle.b.specs.Sum.{total}

-- `unused` is not cited
abbrev pub answer : List ℕ → Answer
answer d = cond (total d) made.Done made.Failed

abbrev pub unused : ℕ
unused = 0
";

    const SUM: &str =
        "use Rattle.b.specs.Clauses.{helper}\n\nabbrev pub total : ℕ\ntotal = helper 1\n";

    fn crates(total: &str) -> Crates {
        let mut crates = Crates::default();
        crates.add_code("a", CODE);
        crates.add_code("b", "pub enum Answer {\n    Done,\n    Failed,\n}\n");
        crates.add_spec(&Place::new("a", "Word"), WORD);
        crates.add_spec(&Place::new("b", "Sum"), total);
        let helper = "abbrev pub helper : ℕ → ℕ\nhelper x = x\n";
        crates.add_spec(&Place::new("b", "Clauses"), helper);
        crates
    }

    fn cited(crates: &Crates, function: &str) -> Cited {
        let mut cited = Cited::default();
        crates.cite_function("a", function, &mut cited);
        cited
    }

    #[test]
    fn what_a_contract_cites() {
        let crates = crates("abbrev pub total : ℕ\ntotal = 1\n");
        let cited = cited(&crates, "operation");
        let names: Vec<String> = cited.names.iter().map(Name::to_string).collect();
        assert_eq!(cited.faults, [""; 0]);
        let expected = [
            "a/specs/Word.antt: answer",
            "b/specs/Sum.antt: total",
            "b/src: Answer::Done",
            "b/src: Answer::Failed",
        ];
        assert_eq!(names, expected);
        assert_eq!(
            crates.others(&cited.names),
            [Place::new("a", "Word").name("unused")]
        );
        assert_eq!(crates.lines(), 6);
    }

    #[test]
    fn what_stands_in_clauses_is_a_fault() {
        let faults = cited(&crates(SUM), "operation").faults;
        let fault = "b/specs/Sum.antt: total cites b/specs/Clauses.antt: helper, which does not \
                     stand where it is to be believed";
        assert_eq!(faults, [fault]);
    }

    #[test]
    fn a_name_before_its_fields_is_cited() {
        for (of, by) in [
            ("helper.0", "total"),
            ("(helper 1).0", "total"),
            (
                "pair.0\n\nabbrev pub pair : ℕ × ℕ\npair = helper.work.0",
                "pair",
            ),
        ] {
            let faults = cited(&crates(&SUM.replace("helper 1", of)), "operation").faults;
            assert_eq!(faults.len(), 1, "{of}: {faults:?}");
            let start = format!("b/specs/Sum.antt: {by} cites b/specs/Clauses.antt: helper,");
            assert!(faults[0].starts_with(&start), "{of}: {faults:?}");
        }
    }

    /// Which of them a word stands for is told by its type, which is not read.
    #[test]
    fn a_word_with_two_imports_cites_both() {
        let other = "use Rattle.b.specs.Terms.{helper}\n".to_string() + SUM;
        assert_eq!(cited(&crates(&other), "operation").faults.len(), 2);
    }

    #[test]
    fn what_is_not_found_is_a_fault() {
        let faults = cited(&crates(&SUM.replace("Clauses", "Terms")), "operation").faults;
        let fault = "b/specs/Sum.antt: total cites b/specs/Terms.antt: helper, which is not found";
        assert_eq!(faults, [fault]);
        let crates = crates(SUM);
        assert_eq!(cited(&crates, "other").faults, ["a::other is not found"]);
        let fault = "the contract of a::helper cites no definition";
        assert_eq!(cited(&crates, "helper").faults, [fault]);
    }

    #[test]
    fn definitions_by_name() {
        let crates = crates(SUM);
        let total = Place::new("b", "Sum").name("total");
        assert_eq!(crates.definition("b", "total"), Some(total));
        assert_eq!(crates.definition("b", "helper"), None);
    }
}
