//! The texts of all contracts, types, definitions and theorems, each by its name.

use std::collections::BTreeMap;

use crate::testing::belief::code::Code;
use crate::testing::belief::name::{Name, Place};
use crate::testing::belief::proof::Proof;
use crate::testing::belief::spec::Spec;
use crate::testing::belief::{citations, Crates};

/// A text, and what it cites of crates.
#[derive(Clone, Debug, PartialEq)]
pub struct Text {
    pub text: String,
    pub cites: Vec<Name>,
}

impl Crates {
    /// All texts by their names.
    pub fn texts(&self) -> BTreeMap<Name, Text> {
        let code = self.code.iter().flat_map(|(of, code)| self.said(of, code));
        let specs = self
            .specs
            .iter()
            .flat_map(|(at, spec)| self.defined(at, spec));
        let proofs = self
            .proofs
            .iter()
            .flat_map(|(at, proof)| self.proved(at, proof));
        code.chain(specs).chain(proofs).collect()
    }

    /// The contracts and the types of a crate.
    fn said(&self, of: &str, code: &Code) -> Vec<(Name, Text)> {
        let functions = code.functions.iter().map(|function| {
            let cites = citations(&function.contract, &code.imports, |_| None);
            let name = Place::code(of).name(&function.name);
            (name, self.text(&function.head, cites))
        });
        let types = code.types.iter().map(|declared| {
            let name = Place::declaration(of, &declared.name).name(&declared.name);
            (name, self.text(&declared.text, Vec::new()))
        });
        functions.chain(types).collect()
    }

    fn defined(&self, at: &Place, spec: &Spec) -> Vec<(Name, Text)> {
        let text = |of: &super::Definition| {
            let name = at.name(&of.names[0]);
            let cites = self.cited_by(&name);
            (name, self.text(&of.text, cites))
        };
        spec.definitions.iter().map(text).collect()
    }

    fn proved(&self, at: &Place, proof: &Proof) -> Vec<(Name, Text)> {
        let text = |of: &super::Definition| {
            let own = |word: &str| proof.theorem(word).map(|_| at.name(word));
            let cites = citations(&of.text, &proof.imports, own);
            (at.name(&of.names[0]), self.text(&of.text, cites))
        };
        proof.theorems.iter().map(text).collect()
    }

    fn text(&self, text: &str, cites: Vec<Name>) -> Text {
        Text {
            text: text.to_string(),
            cites: cites.iter().map(|name| self.whole(name)).collect(),
        }
    }

    /// The name of the text that a name stands in: of the type for a variant, and of the first name
    /// that a definition gives for its others.
    pub fn whole(&self, name: &Name) -> Name {
        if let Some(declared) = name.place.declared() {
            return Place::declaration(&name.place.of, declared).name(declared);
        }
        let spec = self.specs.get(&name.place);
        let definition = spec.and_then(|spec| spec.definition(&name.name));
        definition.map_or(name.clone(), |of| name.place.name(&of.names[0]))
    }
}
