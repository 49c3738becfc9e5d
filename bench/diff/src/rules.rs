//! Allowed differences, each by a row of docs/DIFFERENCES.md. Any other difference is unexplained.

/// Reason for a reply that differs from the original's. It must equal the original's reply as the rule corrects it.
#[derive(Clone, Copy, PartialEq, Eq)]
pub enum Rule {
    /// Row "`unsync` invalidations leave `entry_count` as it was". The count is the original's, less the entries that left by
    /// `invalidate`, `invalidate_all` and `invalidate_entries_if`.
    CountAfterRemovals,
    /// Row "`invalidate_entries_if` and expiry by time to live subtract weights from a sum that begins at 0, so the weight stays".
    /// The weight is the original's, less what the predicate removed since the last `invalidate_all`.
    WeightAfterPredicate,
    /// Row "`invalidate_entries_if` and `iter` go in the order of a hash map". The pairs are the original's, in any order.
    OrderOfIter,
}

impl Rule {
    pub const ALL: [Rule; 3] = [Rule::CountAfterRemovals, Rule::WeightAfterPredicate, Rule::OrderOfIter];

    pub fn words(self) -> &'static str {
        match self {
            Rule::CountAfterRemovals => "count: invalidations leave `entry_count` as it was",
            Rule::WeightAfterPredicate => "weight: `invalidate_entries_if` leaves the weight",
            Rule::OrderOfIter => "iter: the order of a hash map, the same pairs",
        }
    }
}

/// Reason for ending a script early: the two caches may differ from this line on, and no further line is compared.
#[derive(Clone, Copy, PartialEq, Eq)]
pub enum End {
    /// Row "`invalidate_entries_if` and expiry by time to live subtract weights from a sum that begins at 0, so the weight stays".
    /// Because of the weight that stays, the next call would evict or reject, or a new entry has just turned the sketch on or sized it.
    /// The weight of the entries would decide otherwise.
    StaleWeight,
    /// Row "`unsync` invalidations leave `entry_count` as it was". A weighed cache has just turned its sketch on, and that count gives
    /// it another capacity than the number of entries.
    StaleCount,
    /// Row "the sketch's capacity is computed in floating point". A weighed cache has just turned its sketch on, and whole numbers
    /// give it another capacity.
    Rounding,
    /// Row "the sketch's size can underflow when it ages". The original has just panicked in its sketch.
    Underflow,
}

impl End {
    pub const ALL: [End; 4] = [End::StaleWeight, End::StaleCount, End::Rounding, End::Underflow];

    pub fn words(self) -> &'static str {
        match self {
            End::StaleWeight => "the weight that `invalidate_entries_if` leaves decides a call",
            End::StaleCount => "the count that invalidations leave sizes the sketch",
            End::Rounding => "floating point sizes the sketch otherwise",
            End::Underflow => "the sketch's size underflows when it ages",
        }
    }
}
