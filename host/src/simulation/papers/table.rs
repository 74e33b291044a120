//! The points of the papers' tables as comma-separated values.

use crate::simulation::papers::totals::{Sample, Totals};
use crate::simulation::papers::{Place, Point};
use crate::simulation::table::with_heading;
use crate::simulation::{Named, Tally, SETTINGS};

const HEADING: &str =
    "k,ebn0_db,code,decoder,frames,frame_errors,undetected_errors,trials,retried_frames,\
                       steps_full,steps_half,steps_restarted,\
                       squared_steps_full,squared_steps_half,squared_steps_restarted,\
                       sampled_later_trials,sampled_steps_saved,sampled_cycles_saved";

/// A heading, and a line of sums for each point.
pub fn csv(points: &[Point]) -> String {
    with_heading(HEADING, points.iter().map(line))
}

fn line(point: &Point) -> String {
    let (place, totals, sample) = (&point.place, &point.totals, &point.sample);
    let tally = &totals.tally;
    let sums = [
        tally.frames,
        tally.errors,
        tally.undetected,
        tally.trials,
        totals.retried,
    ];
    let sums = sums.iter().chain(&totals.steps).map(u64::to_string);
    let squares = totals.squares.iter().map(u128::to_string);
    let sample = [sample.trials, sample.steps, sample.cycles];
    let fields: Vec<String> = sums
        .chain(squares)
        .chain(sample.iter().map(u64::to_string))
        .collect();
    format!(
        "{},{:.3},{},{},{}",
        place.setting.k,
        place.decibels,
        place.codes.name(),
        place.flips.name(),
        fields.join(",")
    )
}

/// The points of a text of `csv`; `None` where it is no such text.
pub fn read_csv(text: &str) -> Option<Vec<Point>> {
    let lines = text.strip_prefix(HEADING)?.trim_start().lines();
    lines.map(read_line).collect()
}

fn read_line(line: &str) -> Option<Point> {
    let fields: Vec<&str> = line.split(',').collect();
    let [k, decibels, codes, flips, sums @ ..] = &fields[..] else {
        return None;
    };
    let sums: Option<Vec<u128>> = sums.iter().map(|sum| sum.parse().ok()).collect();
    let sums: [u128; 14] = sums?.try_into().ok()?;
    let sum = |place: usize| u64::try_from(sums[place]).ok();
    let k = k.parse().ok()?;
    Some(Point {
        place: Place {
            setting: SETTINGS.iter().find(|setting| setting.k == k)?,
            codes: Named::named(codes)?,
            flips: Named::named(flips)?,
            decibels: decibels.parse().ok()?,
        },
        totals: Totals {
            tally: Tally {
                frames: sum(0)?,
                errors: sum(1)?,
                undetected: sum(2)?,
                trials: sum(3)?,
                steps: sum(5)?,
            },
            retried: sum(4)?,
            steps: [sum(5)?, sum(6)?, sum(7)?],
            squares: [sums[8], sums[9], sums[10]],
        },
        sample: Sample {
            trials: sum(11)?,
            steps: sum(12)?,
            cycles: sum(13)?,
        },
    })
}
