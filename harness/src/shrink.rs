//! The search for a shorter text that still differs.

/// What the search may cost. A text tried costs its length and `START_COST`,
/// so at most 20,000 texts are tried, and fewer long ones.
const BUDGET: usize = 40_000_000;
const START_COST: usize = 2_000;

/// A text that still differs and is as short as the search finds: no single
/// line and no single byte can be dropped from it, unless the budget ran out.
/// A text that does not differ comes back as it is.
pub fn shorten(text: &[u8], differs: impl FnMut(&[u8]) -> bool) -> Vec<u8> {
    let mut search = Search {
        differs,
        budget: BUDGET,
    };
    let mut shortest = text.to_vec();
    if !search.still_differs(text) {
        return shortest;
    }
    loop {
        let length = shortest.len();
        let lines = shortest.split_inclusive(|&byte| byte == b'\n');
        shortest = search.drop_pieces(lines.collect());
        shortest = search.drop_pieces(shortest.chunks(1).collect());
        if shortest.len() == length {
            return shortest;
        }
    }
}

struct Search<F> {
    differs: F,
    budget: usize,
}

impl<F: FnMut(&[u8]) -> bool> Search<F> {
    fn still_differs(&mut self, text: &[u8]) -> bool {
        self.budget = self.budget.saturating_sub(START_COST + text.len());
        (self.differs)(text)
    }

    /// Drops runs of pieces, long runs first, as long as the rest still differs.
    fn drop_pieces(&mut self, mut pieces: Vec<&[u8]>) -> Vec<u8> {
        let mut run = pieces.len();
        while run > 0 {
            let mut start = 0;
            while start < pieces.len() && self.budget > 0 {
                let end = pieces.len().min(start + run);
                let fewer = [&pieces[..start], &pieces[end..]].concat();
                if self.still_differs(&fewer.concat()) {
                    pieces = fewer;
                } else {
                    start = end;
                }
            }
            run /= 2;
        }
        pieces.concat()
    }
}
