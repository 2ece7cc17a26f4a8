// Written by tools/rust from crates/quic_packets/src/skipped.rt. Don't edit.
//! The packet numbers that a sender has skipped: the eight highest ranges of them (RFC 9000 section 21.4).

/// The number of ranges that are kept.
const GAPS: usize = 8;

/// A range of skipped packet numbers.
#[derive(Clone, Copy)]
pub(crate) struct Gap {
    /// The first number.
    pub(crate) start: u64,
    /// The number after the last one.
    pub(crate) end: u64,
}

/// The highest ranges of packet numbers that were skipped, the last one first. Until there are eight, the rest are empty.
// Model:
// ghost Value = { List Gap };
// ghost view = { λ skipped. skipped.gaps };
pub(crate) struct Skipped {
    gaps: [Gap; GAPS],
}

impl Skipped {
    /// Creates the ranges of a sender that has skipped no number.
    // ensures { result ≡ no_gaps }
    pub(crate) fn new() -> Self {
        Skipped {
            gaps: [Gap { start: 0, end: 0 }; GAPS],
        }
    }

    /// Returns whether the number is in a range that is kept.
    // ensures { result ≡ is_skipped self.now number }
    pub(crate) fn contains(&self, number: u64) -> bool {
        self.gaps
            .iter()
            .any(|gap| gap.start <= number && number < gap.end)
    }

    /// Adds the numbers from `start` up to `end`, which are above those of all ranges. Returns the end of the range that is
    /// forgotten to make room, or 0 if none is.
    // ensures gaps { self.new ≡ with_gap self.old start end }
    // ensures forgotten { result ≡ forgotten self.old start }
    pub(crate) fn add_range(&mut self, start: u64, end: u64) -> u64 {
        if self.gaps[0].end == start {
            self.gaps[0].end = end;
            return 0;
        }
        let forgotten = self.gaps[GAPS - 1].end;
        self.gaps.rotate_right(1);
        self.gaps[0] = Gap { start, end };
        forgotten
    }
}
