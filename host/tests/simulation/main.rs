//! The simulations: that they count rightly, and that the results in docs/ agree with each other.

mod combining;
mod curve;
mod curves;
mod flipping;
mod papers;
mod plot;

use host::testing::files::text;

fn document(name: &str) -> String {
    text(&format!("docs/{name}"))
}
