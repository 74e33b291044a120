//! Tables of docs/PERFORMANCE.md.

/// A table in Markdown, whose decoders are words. A line's cells come in groups.
pub fn table(heading: &str, lines: impl Iterator<Item = Vec<Vec<String>>>) -> String {
    let side = |cell| if cell == "decoder" { "---|" } else { "--:|" };
    let sides: String = heading.split(" | ").map(side).collect();
    let line = |groups: Vec<Vec<String>>| format!("| {} |\n", groups.concat().join(" | "));
    let lines: String = lines.map(line).collect();
    format!("| {heading} |\n|{sides}\n{lines}")
}

/// A ratio or a gain in dB; nothing where a curve does not give it.
pub fn in_decibels(number: Option<f64>) -> String {
    number.map_or(String::new(), |number| signed(number, 2))
}

/// A number with so many places, and the sign that texts have; none where it rounds to zero.
pub fn signed(number: f64, places: usize) -> String {
    let size = format!("{:.places$}", number.abs());
    let is_zero = size.chars().all(|place| "0.".contains(place));
    match number < 0.0 && !is_zero {
        true => format!("−{size}"),
        false => size,
    }
}
