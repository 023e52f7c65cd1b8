//! What a panel is, apart from how it came there.

use harness::plain::{Run, Tally};

/// A run without its tally and without the scans that it needed.
pub fn state(run: &Run) -> Run {
    Run {
        tally: Tally::default(),
        scans: Vec::new(),
        ..run.clone()
    }
}
