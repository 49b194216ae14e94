// Product states, inputs, outputs and letters at most, and the buckets and forks of the tuples' index: every size here is made from these.
pub(crate) const STATES_MOST: usize = 512;
pub(crate) const INPUTS_MOST: usize = 16;
pub(crate) const OUTPUTS_MOST: usize = 8;
const LETTERS_MOST: usize = 64;
const BUCKETS: usize = 521;
const FORKS: usize = 4;

/// The work memory that the makers are lent.
///
/// It may hold anything when a call begins, and is all zero when one returns: what the call was
/// lent, over its whole length. A slice may be longer than its constant; a shorter one is refused
/// ([`Refusal::ShortWork`](crate::Refusal::ShortWork)).
#[derive(Clone, Debug, PartialEq, Eq)]
pub struct Work {
    /// The product states, twelve monitor states packed into one number.
    pub tuples: Vec<u64>,
    /// For each product state and letter the next state, or the monitor that broke.
    pub cells: Vec<u16>,
    /// The index of the product states while they are numbered; then the round that dropped each.
    pub dropped: Vec<u16>,
    /// Rewards by product state.
    pub gains: Vec<u16>,
    /// Rewards by letter.
    pub bonuses: Vec<u16>,
    /// The best of each product state over the steps so far; then the outputs chosen for each of
    /// the guard's states.
    pub values: Vec<u64>,
    /// What arriving in each product state earns and is worth.
    pub arrivals: Vec<u64>,
    /// The product states in the order of the guard's.
    pub order: Vec<u16>,
    /// The guard's number of each product state.
    pub numbers: Vec<u16>,
    /// The sum behind each product state's best average over the steps so far.
    pub bests: Vec<u64>,
    /// The sum behind its least.
    pub leasts: Vec<u64>,
    /// What arriving in each product state earns and is worth at best.
    pub highs: Vec<u64>,
    /// What it is worth at least.
    pub lows: Vec<u64>,
}

/// The least lengths, in elements.
#[allow(missing_docs)]
impl Work {
    pub const TUPLES: usize = STATES_MOST;
    pub const CELLS: usize = LETTERS_MOST * STATES_MOST;
    pub const DROPPED: usize = BUCKETS + FORKS * STATES_MOST;
    pub const GAINS: usize = STATES_MOST;
    pub const BONUSES: usize = LETTERS_MOST;
    pub const VALUES: usize = STATES_MOST;
    pub const ARRIVALS: usize = STATES_MOST;
    pub const ORDER: usize = STATES_MOST;
    pub const NUMBERS: usize = STATES_MOST;
    pub const BESTS: usize = STATES_MOST;
    pub const LEASTS: usize = STATES_MOST;
    pub const HIGHS: usize = STATES_MOST;
    pub const LOWS: usize = STATES_MOST;
}

impl Work {
    /// As much as every maker needs.
    pub fn new() -> Work {
        Work {
            tuples: vec![0; Work::TUPLES],
            cells: vec![0; Work::CELLS],
            dropped: vec![0; Work::DROPPED],
            gains: vec![0; Work::GAINS],
            bonuses: vec![0; Work::BONUSES],
            values: vec![0; Work::VALUES],
            arrivals: vec![0; Work::ARRIVALS],
            order: vec![0; Work::ORDER],
            numbers: vec![0; Work::NUMBERS],
            bests: vec![0; Work::BESTS],
            leasts: vec![0; Work::LEASTS],
            highs: vec![0; Work::HIGHS],
            lows: vec![0; Work::LOWS],
        }
    }

    /// Whether all of it is zero.
    pub fn is_clear(&self) -> bool {
        let words = [
            &self.tuples,
            &self.values,
            &self.arrivals,
            &self.bests,
            &self.leasts,
            &self.highs,
            &self.lows,
        ];
        let halves =
            [&self.cells, &self.dropped, &self.gains, &self.bonuses, &self.order, &self.numbers];
        words.into_iter().flatten().all(|&x| x == 0)
            && halves.into_iter().flatten().all(|&x| x == 0)
    }
}

impl Default for Work {
    fn default() -> Work {
        Work::new()
    }
}

// Document 02's bound on the bytes of one call's work memory; those of all calls together keep it.
const _: () = assert!(
    8 * (Work::TUPLES + Work::VALUES + Work::ARRIVALS)
        + 8 * (Work::BESTS + Work::LEASTS + Work::HIGHS + Work::LOWS)
        + 2 * (Work::CELLS + Work::DROPPED + Work::GAINS + Work::BONUSES)
        + 2 * (Work::ORDER + Work::NUMBERS)
        <= 131_072
);
