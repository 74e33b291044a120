//! The texts of now, each with what it was before.

use std::collections::{BTreeMap, BTreeSet};

use crate::testing::belief::{Name, Text};

/// Texts by their names.
pub type Texts = BTreeMap<Name, Text>;

/// A text with its name.
type Named<'a> = (&'a Name, &'a Text);

/// The names that crates of now had.
type Crates<'a> = BTreeMap<&'a str, &'a str>;

/// When two texts of one kind and one name are the same one, before and now: the first of these that
/// holds of a text still without a partner. A definition may have gone to another file or crate.
const RULES: [fn(Named, Named, &Crates) -> bool; 5] = [
    |older, now, crates| is_same_file(older, now) && is_same_crate(older, now, crates),
    |older, now, _| older.1.text == now.1.text && is_same_file(older, now),
    |older, now, _| older.1.text == now.1.text,
    |older, now, _| is_same_file(older, now),
    |_, _, _| true,
];

fn is_same_file(older: Named, now: Named) -> bool {
    older.0.place.module == now.0.place.module
}

fn is_same_crate(older: Named, now: Named, crates: &Crates) -> bool {
    crates.get(now.0.place.of.as_str()) == Some(&older.0.place.of.as_str())
}

/// The name that each text of now had.
pub fn pairs(older: &Texts, now: &Texts) -> BTreeMap<Name, Name> {
    let of_name = by_name(older);
    let crates = crates(older, now);
    let mut taken = BTreeSet::new();
    let mut pairs = BTreeMap::new();
    for rule in RULES {
        for next in now {
            let others = of_name.get(next.0.name.as_str()).into_iter().flatten();
            let mut others = others.filter(|other| is_kind_of(other.0, next.0));
            let fits = |other: Named| !taken.contains(other.0) && rule(other, next, &crates);
            let found = others.find(|other| fits(**other));
            if let Some((name, _)) = found.filter(|_| !pairs.contains_key(next.0)) {
                taken.insert(*name);
                pairs.insert(next.0.clone(), (*name).clone());
            }
        }
    }
    pairs
}

/// The name that each crate had: its own, or if it is new, that of the crate which is gone and had most
/// of its names.
fn crates<'a>(older: &'a Texts, now: &'a Texts) -> Crates<'a> {
    let (before, after) = (by_crate(older), by_crate(now));
    let gone: Vec<&str> = before
        .keys()
        .copied()
        .filter(|of| !after.contains_key(of))
        .collect();
    let shared = |one: &str, other: &str| before[one].intersection(&after[other]).count();
    let name = |of: &&'a str| match before.contains_key(of) {
        true => Some(*of),
        false => gone.iter().copied().max_by_key(|one| shared(one, of)),
    };
    let named = after.keys().map(|of| (*of, name(of)));
    named.filter_map(|(of, name)| Some((of, name?))).collect()
}

/// The names of each crate, with their files.
fn by_crate(texts: &Texts) -> BTreeMap<&str, BTreeSet<(&str, &str)>> {
    let mut crates: BTreeMap<&str, BTreeSet<(&str, &str)>> = BTreeMap::new();
    for Name { place, name } in texts.keys() {
        let names = crates.entry(&place.of);
        names.or_default().insert((&place.module, name));
    }
    crates
}

/// The texts that have a name.
fn by_name(texts: &Texts) -> BTreeMap<&str, Vec<Named<'_>>> {
    let mut names: BTreeMap<&str, Vec<Named>> = BTreeMap::new();
    for named in texts {
        let all = names.entry(&named.0.name);
        all.or_default().push(named);
    }
    names
}

fn is_kind_of(one: &Name, other: &Name) -> bool {
    one.place.kind() == other.place.kind()
}

#[cfg(test)]
mod tests {
    use super::*;
    use crate::testing::belief::Place;

    /// Texts by crate, file, name and what they say.
    type All<'a> = &'a [[&'a str; 4]];

    fn texts(all: All) -> Texts {
        let named = |[of, file, name, text]: &[&str; 4]| {
            let text = Text {
                text: text.to_string(),
                cites: Vec::new(),
            };
            (Place::new(of, file).name(name), text)
        };
        all.iter().map(named).collect()
    }

    /// Where the texts of now stand, and where they stood.
    fn partners(older: All, now: All) -> Vec<String> {
        let pairs = pairs(&texts(older), &texts(now));
        let pair = |(now, older): (&Name, &Name)| format!("{now} < {older}");
        pairs.iter().map(pair).collect()
    }

    #[test]
    fn the_place_comes_first() {
        let older = [["a", "Sum", "sum", "1"], ["b", "Sum", "sum", "2"]];
        let now = [["a", "Sum", "sum", "2"], ["b", "Sum", "sum", "1"]];
        let expected = [
            "a/specs/Sum.antt: sum < a/specs/Sum.antt: sum",
            "b/specs/Sum.antt: sum < b/specs/Sum.antt: sum",
        ];
        assert_eq!(partners(&older, &now), expected);
    }

    #[test]
    fn crates_with_other_names() {
        let older = [
            ["a", "Sum", "sum", "1"],
            ["a", "Sum", "first", "1"],
            ["b", "Sum", "sum", "1"],
            ["b", "Sum", "second", "1"],
        ];
        let now = [
            ["x", "Sum", "sum", "1"],
            ["x", "Sum", "second", "1"],
            ["y", "Sum", "sum", "1"],
            ["y", "Sum", "first", "1"],
        ];
        let expected = [
            "x/specs/Sum.antt: second < b/specs/Sum.antt: second",
            "x/specs/Sum.antt: sum < b/specs/Sum.antt: sum",
            "y/specs/Sum.antt: first < a/specs/Sum.antt: first",
            "y/specs/Sum.antt: sum < a/specs/Sum.antt: sum",
        ];
        assert_eq!(partners(&older, &now), expected);
    }

    #[test]
    fn another_file_of_another_crate() {
        let older = [["a", "Sum", "sum", "1"], ["b", "Sum", "other", "1"]];
        let now = [["b", "Total", "sum", "1"], ["b", "Totals", "sum", "2"]];
        let expected = ["b/specs/Total.antt: sum < a/specs/Sum.antt: sum"];
        assert_eq!(partners(&older, &now), expected);
    }

    #[test]
    fn contracts_are_no_definitions() {
        let (older, now) = (["a", "src", "sum", "1"], ["a", "Sum", "sum", "1"]);
        assert_eq!(partners(&[older], &[now]), [""; 0]);
    }
}
