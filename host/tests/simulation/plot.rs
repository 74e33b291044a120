//! gnuplot is run by hand: what its scripts take from the tables must be there, and the plots must
//! show it.

use host::simulation::{CHECK, DEPTH};

use crate::document;

/// A plot by its name in docs/, the columns that its script takes, what it says of the setting, and
/// what it names its curves.
pub fn check(name: &str, columns: &[&str], setting: &str, curves: &[String]) {
    let [script, plot, table] = ["gp", "svg", "csv"].map(|end| document(&format!("{name}.{end}")));
    let heading = table.lines().next().expect("a heading");
    let heading: Vec<&str> = heading.split(',').collect();
    for column in columns {
        assert!(heading.contains(column), "{column}");
        assert!(script.contains(&format!("\"{column}\"")), "{column}");
    }
    let setting = format!("N = {}, check of {} bits, {setting}", 1 << DEPTH, CHECK.0);
    assert!(script.contains(&setting) && plot.contains(&setting));
    for curve in curves {
        assert!(plot.contains(&format!(">{curve}<")), "{curve}");
    }
}
