//! What moved between two states of the crates.

use std::collections::{BTreeMap, BTreeSet};

use crate::promises::pairs::{pairs, Texts};
use crate::promises::plain::plain;
use crate::testing::belief::{Crates, Name};

/// The crates at one time: what promises begin with, and all texts without layout.
pub struct Side {
    pub roots: Vec<Name>,
    pub texts: Texts,
}

impl Side {
    pub fn new(crates: &Crates, roots: Vec<Name>) -> Side {
        let mut texts = crates.texts();
        for (name, text) in &mut texts {
            text.text = plain(name.place.kind(), &text.text);
        }
        Side { roots, texts }
    }

    /// The roots, and the names of all texts that they cite, directly or through others.
    pub fn promised(&self) -> BTreeSet<Name> {
        let mut promised = BTreeSet::new();
        let mut open = self.roots.clone();
        while let Some(name) = open.pop() {
            if let Some(text) = self.texts.get(&name) {
                if promised.insert(name) {
                    open.extend(text.cites.iter().cloned());
                }
            }
        }
        promised
    }

    /// Adds what the roots of another time were here.
    fn add_roots(&mut self, others: &[Name], names: &BTreeMap<Name, Name>) {
        for name in others.iter().filter_map(|name| names.get(name)) {
            if !self.roots.contains(name) {
                self.roots.push(name.clone());
            }
        }
    }
}

/// What became of the promises, by their names of now.
#[derive(Debug, Default, PartialEq)]
pub struct Changes {
    pub stayed: Vec<Name>,
    /// Those whose text is another.
    pub moved: Vec<Name>,
    /// Those whose text stayed, and that cite another definition of a name.
    pub redirected: Vec<Name>,
    pub new: Vec<Name>,
    /// By the names that they had.
    pub gone: Vec<Name>,
    /// Which of all are roots, and not cited by them.
    pub roots: BTreeSet<Name>,
}

impl Changes {
    /// From what was promised before to what is now.
    pub fn of(mut older: Side, now: &Side) -> Changes {
        let pairs = pairs(&older.texts, &now.texts);
        older.add_roots(&now.roots, &pairs);
        let mut changes = Changes::default();
        let mut kept = BTreeSet::new();
        for name in now.promised() {
            kept.extend(pairs.get(&name).cloned());
            changes.add(&older, now, &pairs, name);
        }
        let promised = older.promised();
        changes.gone = promised.difference(&kept).cloned().collect();
        changes.roots = [older.roots, now.roots.clone()]
            .concat()
            .into_iter()
            .collect();
        changes
    }

    /// Adds a promise of now.
    fn add(&mut self, older: &Side, now: &Side, pairs: &BTreeMap<Name, Name>, name: Name) {
        let text = &now.texts[&name];
        let Some(before) = pairs.get(&name).map(|name| &older.texts[name]) else {
            return self.new.push(name);
        };
        let cites = text.cites.iter().map(|name| pairs.get(name));
        if text.text != before.text {
            self.moved.push(name);
        } else if !cites.eq(before.cites.iter().map(Some)) {
            self.redirected.push(name);
        } else {
            self.stayed.push(name);
        }
    }
}

#[cfg(test)]
mod tests {
    use super::*;
    use crate::testing::belief::source::Files;
    use crate::testing::belief::Place;

    const CODE: &str = "\
ghost use Rattle.a.specs.Word.{answer};

// An operation.
pub fn operation(d: &[u8]) -> u8
    ensures { result ≡ answer d.now }
{
    d[0]
}
";

    const WORD: &str = "\
use Rattle.b.specs.Sum.{total}

-- the answer
abbrev pub answer : List ℕ → ℕ
answer d = total d
";

    const SUM: &str = "abbrev pub total : List ℕ → ℕ\ntotal d = 1\n";

    fn files() -> Files {
        let named = |(path, text): (&str, &str)| (format!("crates/{path}"), text.to_string());
        let all = [
            ("a/src/lib.rt", CODE),
            ("a/specs/Word.antt", WORD),
            ("b/specs/Sum.antt", SUM),
        ];
        all.into_iter().map(named).collect()
    }

    fn side(files: &Files) -> Side {
        let operation = Place::code("a").name("operation");
        Side::new(&Crates::read(files), vec![operation])
    }

    /// The changes to other files, from those above.
    fn changes(now: Files) -> Changes {
        Changes::of(side(&files()), &side(&now))
    }

    /// The changes where a text is replaced in all files.
    fn replaced(from: &str, to: &str) -> Changes {
        let now = files().into_iter();
        let now = now.map(|(path, text)| (path, text.replace(from, to)));
        let now: Files = now.collect();
        assert_ne!(now, files(), "{from}");
        changes(now)
    }

    /// That nothing moved.
    fn all_stayed(changes: &Changes) -> bool {
        let Changes {
            moved,
            redirected,
            new,
            gone,
            ..
        } = changes;
        let others = [moved, redirected, new, gone];
        changes.stayed.len() == 3 && others.iter().all(|names| names.is_empty())
    }

    #[test]
    fn nothing_moved() {
        let changes = changes(files());
        assert!(all_stayed(&changes), "{changes:?}");
        let operation = Place::code("a").name("operation");
        assert_eq!(changes.roots, BTreeSet::from([operation]));
    }

    #[test]
    fn comments_and_line_breaks() {
        for (from, to) in [
            ("// An operation.", "// The operation."),
            ("-- the answer\n", ""),
            ("result ≡ answer", "result\n        ≡ answer"),
            ("(d: &[u8])", "(\n    d: &[u8],\n)"),
            ("answer d = ", "answer d =\n  -- of all\n  "),
        ] {
            let changes = replaced(from, to);
            assert!(all_stayed(&changes), "{to}: {changes:?}");
        }
    }

    #[test]
    fn another_contract() {
        for (from, to) in [
            ("    ensures", "    requires { 1 ≡ 1 }\n    ensures"),
            ("{ result ≡", "{ 1 ≡"),
            ("ensures {", "ensures low {"),
            ("-> u8", "-> u16"),
        ] {
            let operation = Place::code("a").name("operation");
            assert_eq!(replaced(from, to).moved, [operation], "{to}");
        }
    }

    #[test]
    fn another_definition() {
        let changes = replaced("total d = 1", "total d = 2");
        assert_eq!(changes.moved, [Place::new("b", "Sum").name("total")]);
        assert_eq!(changes.stayed.len(), 2);
    }

    #[test]
    fn other_names_of_crates_and_files() {
        let mut now = files();
        let sum = now.remove("crates/b/specs/Sum.antt").expect("a file");
        now.insert("crates/c/specs/Total.antt".to_string(), sum);
        let word = WORD.replace("b.specs.Sum", "c.specs.Total");
        now.insert("crates/a/specs/Word.antt".to_string(), word);
        let changes = changes(now);
        assert!(all_stayed(&changes), "{changes:?}");
    }

    #[test]
    fn new_and_gone() {
        let changes = replaced("total", "sum");
        assert_eq!(changes.new, [Place::new("b", "Sum").name("sum")]);
        assert_eq!(changes.gone, [Place::new("b", "Sum").name("total")]);
        assert_eq!(changes.moved, [Place::new("a", "Word").name("answer")]);
    }

    /// Also a root that is not among those of now.
    #[test]
    fn a_contract_that_is_gone() {
        let operation = Place::code("a").name("operation");
        let other = |name: &str| CODE.to_string() + &CODE.replace("operation", name);
        let named = |name: &str| {
            let mut files = files();
            files.insert("crates/a/src/lib.rt".to_string(), other(name));
            let roots = vec![operation.clone(), Place::code("a").name(name)];
            Side::new(&Crates::read(&files), roots)
        };
        let changes = Changes::of(named("first"), &named("second"));
        assert_eq!(changes.gone, [Place::code("a").name("first")]);
        assert_eq!(changes.new, [Place::code("a").name("second")]);
        assert_eq!(changes.roots.len(), 3);
    }

    #[test]
    fn another_definition_of_a_name() {
        let mut now = files();
        let other = SUM.replace('1', "2");
        now.insert("crates/b/specs/Other.antt".to_string(), other);
        let word = WORD.replace("specs.Sum", "specs.Other");
        now.insert("crates/a/specs/Word.antt".to_string(), word);
        let changes = changes(now);
        assert_eq!(changes.redirected, [Place::new("a", "Word").name("answer")]);
        assert_eq!(changes.new, [Place::new("b", "Other").name("total")]);
    }
}
