//! The families of crates: crates.txt and the map of README.md have the same headings, and under each
//! the same crates in the same order.

use host::testing::files::text;

/// A heading and the crates under it.
#[derive(Debug, PartialEq, Default)]
struct Family {
    heading: String,
    crates: Vec<String>,
}

/// Puts a crate under the last heading.
fn put(families: &mut [Family], name: &str) {
    let last = families
        .last_mut()
        .expect("a heading before the first crate");
    last.crates.push(name.to_string());
}

/// Begins a family.
fn begin(families: &mut Vec<Family>, heading: &str) {
    families.push(Family {
        heading: heading.to_string(),
        crates: Vec::new(),
    });
}

/// The families of crates.txt: a comment after an empty line is a heading.
fn of_list(list: &str) -> Vec<Family> {
    let mut families = Vec::new();
    let mut before = "first";
    for line in list.lines() {
        if let Some(heading) = line.strip_prefix("# ") {
            if before.is_empty() {
                begin(&mut families, heading);
            }
        } else if let Some((name, _)) = line.split_once(':') {
            put(
                &mut families,
                name.strip_suffix(" staticlib").unwrap_or(name),
            );
        }
        before = line;
    }
    families
}

/// The families of the map: a row whose first cell is bold is a heading.
fn of_map(readme: &str) -> Vec<Family> {
    let table = readme
        .split("| crate | what it holds |")
        .nth(1)
        .expect("the map");
    let mut families = Vec::new();
    for row in table.lines().skip(2).take_while(|row| row.starts_with('|')) {
        let cell = row.split('|').nth(1).expect("a cell").trim();
        match cell
            .strip_prefix("**")
            .and_then(|cell| cell.strip_suffix("**"))
        {
            Some(heading) => begin(&mut families, heading),
            None => put(&mut families, cell.trim_matches('`')),
        }
    }
    families
}

#[test]
fn headings_are_those_of_the_map() {
    let families = of_list(&text("crates.txt"));
    assert!(families.len() > 5 && families.iter().all(|family| !family.crates.is_empty()));
    assert_eq!(families, of_map(&text("README.md")));
}

/// A crate whose name has a prefix stands in the family of the other crates with it.
#[test]
fn a_prefix_is_of_one_family() {
    let families = of_list(&text("crates.txt"));
    let prefix = |name: &str| name.split('_').next().map(str::to_string);
    for (at, family) in families.iter().enumerate() {
        for other in &families[at + 1..] {
            for name in &family.crates {
                let shared = other
                    .crates
                    .iter()
                    .find(|name_| prefix(name_) == prefix(name));
                assert_eq!(shared, None, "{name} of {:?}", family.heading);
            }
        }
    }
}

#[test]
fn a_crate_under_another_heading_is_noticed() {
    let list = text("crates.txt");
    let moved = list.replacen("\n# Encoder\nencoder:", "\nencoder:", 1) + "\n# Encoder\n";
    assert_ne!(moved, list);
    assert_ne!(of_list(&moved), of_list(&list));
    let renamed = text("README.md").replacen("| **Encoder** | |", "| **Encoders** | |", 1);
    assert_ne!(of_map(&renamed), of_list(&list));
}
