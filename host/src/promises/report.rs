//! What the command prints.

use crate::promises::changes::{Changes, Side};
use crate::promises::plain::hash;
use crate::testing::belief::{Kind, Name};

/// What a promise is; roots are not only cited.
fn label(name: &Name, is_root: bool) -> &'static str {
    match (name.place.kind(), is_root) {
        (Kind::Contract, _) => "contract",
        (Kind::Type, _) => "type",
        (Kind::Definition, true) => "statement",
        (Kind::Theorem, true) => "theorem",
        (Kind::Definition | Kind::Theorem, false) => "definition",
    }
}

/// A line for each promise: what it is, its name, where it stands, and the hash of its text.
pub fn list(side: &Side) -> String {
    let line = |name: &Name| {
        let label = label(name, side.roots.contains(name));
        let (file, hash) = (name.place.file(), hash(&side.texts[name].text));
        format!("{label:<10} {:<32} {file:<44} {hash:016x}\n", name.name)
    };
    side.promised().iter().map(line).collect()
}

/// A line for each promise that did not stay, how many roots did, and how many of all.
pub fn changes(changes: &Changes) -> String {
    let another = ", which cites another definition of a name";
    [
        lines(changes, "moved", &changes.moved, ""),
        lines(changes, "moved", &changes.redirected, another),
        lines(changes, "new", &changes.new, ""),
        lines(changes, "gone", &changes.gone, ""),
        "contracts, statements and theorems: ".to_string(),
        counts(changes, |name| changes.roots.contains(name)),
        counts(changes, |_| true),
    ]
    .concat()
}

fn lines(changes: &Changes, what: &str, names: &[Name], note: &str) -> String {
    let line = |name: &Name| {
        let label = label(name, changes.roots.contains(name));
        let file = name.place.file();
        format!("{what:<6} {label:<10} {:<32} {file}{note}\n", name.name)
    };
    names.iter().map(line).collect()
}

/// How many of some names stayed, moved, are new and gone.
fn counts(changes: &Changes, is_one: impl Fn(&Name) -> bool) -> String {
    let count = |names: &[Name]| names.iter().filter(|name| is_one(name)).count();
    let moved = count(&changes.moved) + count(&changes.redirected);
    let [stayed, new, gone] = [&changes.stayed, &changes.new, &changes.gone].map(|of| count(of));
    format!("{stayed} stayed, {moved} moved, {new} new, {gone} gone\n")
}

#[cfg(test)]
mod tests {
    use super::*;
    use std::collections::BTreeSet;

    use crate::testing::belief::Place;

    #[test]
    fn what_did_not_stay() {
        let place = Place::new("bits", "Mask");
        let sums = Place::proofs("a", "Sum").name("sums");
        let all = Changes {
            stayed: vec![place.name("ones"), place.name("ones_in")],
            moved: vec![place.name("mask_bit")],
            redirected: vec![sums.clone()],
            new: vec![Place::code("polar").name("polar_new")],
            gone: Vec::new(),
            roots: BTreeSet::from([sums, Place::code("polar").name("polar_new")]),
        };
        let expected = "\
moved  definition mask_bit                         bits/specs/Mask.antt
moved  theorem    sums                             a/proofs/Sum.antt, which cites another definition of a name
new    contract   polar_new                        polar/src
contracts, statements and theorems: 0 stayed, 1 moved, 1 new, 0 gone
2 stayed, 2 moved, 1 new, 0 gone
";
        assert_eq!(changes(&all), expected);
    }

    #[test]
    fn nothing_moved() {
        let none = changes(&Changes::default());
        assert!(none.ends_with("\n0 stayed, 0 moved, 0 new, 0 gone\n"));
    }
}
