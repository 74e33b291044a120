//! What promises begin with: the public operations, the main statements and their theorems.

use crate::testing::belief::{Cited, Crates, Kind, Name, Place};

/// The public operations, each with its crate.
const OPERATIONS: [(&str, &str); 16] = [
    ("code", "read_description"),
    ("encoder", "encode"),
    ("pass_resume", "resume"),
    ("decoder", "decode"),
    ("flip_decoder", "decode_full"),
    ("flip_decoder", "decode_half"),
    ("flip_decoder", "decode_restarted"),
    ("sets_decoder", "decode_sets_full"),
    ("sets_decoder", "decode_sets_half"),
    ("sets_decoder", "decode_sets_restarted"),
    ("hearing_buffer", "open"),
    ("hearing_buffer", "add"),
    ("hearing_buffer", "clear"),
    ("hearing_buffer", "decode"),
    ("hearing_preview", "preview_in"),
    ("quantiser", "quantise"),
];

/// The exports for tests that promise the numbers of an answer that C does not get.
const NUMBERED: [(&str, &str); 2] = [("probe", "probe_description"), ("probe", "probe_quantise")];

/// The crate whose exports are public operations too.
const EXPORTING: &str = "polar";

/// What `receive` prints and how it runs, and the statements of the main theorems.
const DEFINITIONS: [(&str, &str); 18] = [
    ("receive_stream", "printed"),
    ("receive_stream", "Run"),
    ("walk", "WalkCounts"),
    ("pass_resume", "ResumeSteps"),
    ("decoder_demands", "Agreement"),
    ("decoder_demands", "Demand3"),
    ("decoder_demands", "Noiseless"),
    ("decoder_demands", "NoiselessDecoding"),
    ("decoder_demands", "OnlyChecked"),
    ("decoder_demands", "AfterAll"),
    ("decoder_demands", "StaysAccepted"),
    ("theorems_start", "Trial1Fails"),
    ("theorems_start", "SilenceFails"),
    ("theorems_start", "SilenceLater"),
    ("theorems_largest", "OldAnswers"),
    ("theorems_largest", "InnerBound"),
    ("hearing_demands", "HeldAfter"),
    ("hearing_demands", "BufferAfter"),
];

/// The main theorems.
const THEOREMS: [(&str, &str); 18] = [
    ("receive_stream", "run-printed"),
    ("walk", "walk_counts"),
    ("pass_resume", "resume_steps"),
    ("decoder_demands", "agreement"),
    ("decoder_demands", "demand_3"),
    ("decoder_demands", "noiseless"),
    ("decoder_demands", "noiseless_decoding"),
    ("decoder_demands", "only_checked"),
    ("decoder_demands", "after-all"),
    ("decoder_demands", "stays_accepted"),
    ("theorems_start", "trial_1_fails"),
    ("theorems_start", "silence_fails"),
    ("theorems_start", "silence-later"),
    ("theorems_largest", "old_answers"),
    ("theorems_largest", "inner_bound"),
    ("hearing_demands", "held_after_lem"),
    ("hearing_demands", "buffer-after"),
    ("vectors", "starred"),
];

/// The names found, and what is not found.
#[derive(Debug, Default, PartialEq)]
pub struct Roots {
    pub names: Vec<Name>,
    pub missing: Vec<String>,
}

impl Roots {
    pub fn find(crates: &Crates) -> Roots {
        let mut roots = Roots::default();
        for (of, name) in OPERATIONS.into_iter().chain(NUMBERED) {
            roots.add(of, name, crates.function(of, name));
        }
        for (of, name) in DEFINITIONS {
            roots.add(of, name, crates.definition(of, name));
        }
        for (of, name) in THEOREMS {
            roots.add(of, name, crates.theorem(of, name));
        }
        roots.add_exports(crates.exports(EXPORTING));
        roots
    }

    fn add(&mut self, of: &str, name: &str, found: Option<Name>) {
        match found {
            Some(name) => self.names.push(name),
            None => self.missing.push(format!("{of}: {name} is not found")),
        }
    }

    fn add_exports(&mut self, exports: Vec<String>) {
        if exports.is_empty() {
            self.missing.push(format!("{EXPORTING} exports nothing"));
        }
        let place = Place::code(EXPORTING);
        let names = exports.iter().map(|name| place.name(name));
        self.names.extend(names);
    }
}

/// All that contracts and statements cite, and the statements themselves, without what theorems cite
/// besides.
pub fn cited(crates: &Crates, roots: &[Name]) -> Cited {
    let mut cited = Cited::default();
    for root in roots {
        match root.place.kind() {
            Kind::Contract => crates.cite_function(&root.place.of, &root.name, &mut cited),
            Kind::Definition => crates.cite("the list of statements", root.clone(), &mut cited),
            Kind::Type | Kind::Theorem => {}
        }
    }
    cited
}

#[cfg(test)]
mod tests {
    use super::*;

    #[test]
    fn what_is_not_found() {
        let mut crates = Crates::default();
        crates.add_code("code", "pub fn read_description(d: &[u8]) -> u8 {\n}\n");
        let roots = Roots::find(&crates);
        assert_eq!(roots.names, [Place::code("code").name("read_description")]);
        let operations = OPERATIONS.len() - 1 + NUMBERED.len();
        let rest = operations + DEFINITIONS.len() + THEOREMS.len();
        assert_eq!(roots.missing.len(), rest + 1);
        assert_eq!(roots.missing[0], "encoder: encode is not found");
        assert_eq!(roots.missing[rest], "polar exports nothing");
    }
}
