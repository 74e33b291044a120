//! Results as comma-separated values.

use crate::simulation::Tally;

/// The ways of decoding that a simulation compares, each with a name.
pub trait Named: Copy + PartialEq + 'static {
    const ALL: &'static [Self];

    fn name(self) -> &'static str;

    fn named(name: &str) -> Option<Self> {
        Self::ALL.iter().copied().find(|of| of.name() == name)
    }
}

/// What a row says of the way of decoding: the names of its columns, and the values in them.
pub trait Columns: Copy + PartialEq {
    const NAMES: &'static [&'static str];

    fn values(self) -> Vec<String>;

    fn read(values: &[&str]) -> Option<Self>;
}

impl<D: Named> Columns for D {
    const NAMES: &'static [&'static str] = &["decoder"];

    fn values(self) -> Vec<String> {
        vec![self.name().to_string()]
    }

    fn read(values: &[&str]) -> Option<D> {
        let [name] = values else { return None };
        D::named(name)
    }
}

/// What one decoder did at one ratio.
#[derive(Clone, Debug, PartialEq)]
pub struct Row<D> {
    pub k: usize,
    pub decibels: f64,
    pub decoder: D,
    pub tally: Tally,
}

const SUMS: &str = "frames,frame_errors,undetected_errors,trials,steps,\
                    frame_error_rate,undetected_error_rate,average_trials,average_steps";

fn heading<D: Columns>() -> String {
    format!("k,ebn0_db,{},{SUMS}", D::NAMES.join(","))
}

/// A heading, and a line for each row: its sums over the frames, then what they are for one frame.
pub fn csv<D: Columns>(rows: &[Row<D>]) -> String {
    with_heading(&heading::<D>(), rows.iter().map(line))
}

/// A heading and lines, each with its end.
pub fn with_heading(heading: &str, lines: impl Iterator<Item = String>) -> String {
    let lines: String = lines.map(|line| line + "\n").collect();
    format!("{heading}\n{lines}")
}

fn line<D: Columns>(row: &Row<D>) -> String {
    let tally = &row.tally;
    format!(
        "{},{:.3},{},{},{},{},{},{},{:.5},{:.5},{:.4},{:.1}",
        row.k,
        row.decibels,
        row.decoder.values().join(","),
        tally.frames,
        tally.errors,
        tally.undetected,
        tally.trials,
        tally.steps,
        tally.error_rate(),
        tally.mean(tally.undetected),
        tally.mean(tally.trials),
        tally.mean(tally.steps)
    )
}

/// The rows of a text of `csv`, from their sums; `None` where it is no such text.
pub fn read_csv<D: Columns>(text: &str) -> Option<Vec<Row<D>>> {
    let lines = text.strip_prefix(&heading::<D>())?.trim_start().lines();
    lines.map(read_line).collect()
}

fn read_line<D: Columns>(line: &str) -> Option<Row<D>> {
    let fields: Vec<&str> = line.split(',').collect();
    let [k, decibels, others @ ..] = &fields[..] else {
        return None;
    };
    let (decoder, sums) = others.split_at_checked(D::NAMES.len())?;
    let sums: Option<Vec<u64>> = sums.iter().take(5).map(|sum| sum.parse().ok()).collect();
    let [frames, errors, undetected, trials, steps] = sums?[..] else {
        return None;
    };
    Some(Row {
        k: k.parse().ok()?,
        decibels: decibels.parse().ok()?,
        decoder: D::read(decoder)?,
        tally: Tally {
            frames,
            errors,
            undetected,
            trials,
            steps,
        },
    })
}
