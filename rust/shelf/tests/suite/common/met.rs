//! What a run has met, so that a generator that went dull is noticed.

/// Counts over the calls of a run.
#[derive(Debug, Default)]
pub struct Met {
    /// Calls by the number that they return, 0 for accepted.
    pub numbers: [usize; 19],
    /// Of the accepted ones, the most levels and passes.
    pub most_levels: usize,
    pub most_passes: usize,
    /// Those with two levels, three passes, an infinite rank, no model of T*.
    pub levels: usize,
    pub passes: usize,
    pub infinite: usize,
    pub no_model: usize,
    /// Books with definition rows.
    pub nested: usize,
    /// Replies to questions of kind 6.
    pub yes: usize,
    pub no: usize,
}

impl Met {
    /// An accepted call: levels and passes, the rows, their results, and the
    /// table.
    pub fn settled(
        &mut self,
        [levels, passes]: [usize; 2],
        rows: &[u64],
        results: &[u16],
        table: &[u64],
    ) {
        self.most_levels = self.most_levels.max(levels);
        self.most_passes = self.most_passes.max(passes);
        self.levels += usize::from(levels > 1);
        self.passes += usize::from(passes > 2);
        let of_kind = |kind| {
            let rows = rows.iter().zip(results);
            rows.filter(move |(row, _)| **row >> 60 == kind)
                .map(|(_, result)| *result)
        };
        self.infinite += usize::from(of_kind(5).chain(of_kind(6)).any(|r| r == 0xFFFF));
        self.yes += of_kind(6).filter(|result| result >> 15 == 1).count();
        self.no += of_kind(6).filter(|result| result >> 15 == 0).count();
        self.no_model += usize::from(table[0] >> 62 == 3);
    }
}
