//! Work memory for the property tests: full of anything, with a slice too short, and what a call must
//! leave of it.

use guard::Work;

use crate::Random;

/// Declares the slices: a name, the field, and the constant that is its least length.
macro_rules! slices {
    ($($slice:ident $field:ident $least:ident,)*) => {
        /// A slice of work memory.
        #[derive(Clone, Copy, Debug, PartialEq, Eq)]
        pub enum Slice {
            $($slice),*
        }

        impl Slice {
            /// Every slice.
            pub const ALL: &[Slice] = &[$(Slice::$slice),*];

            /// The least length.
            fn least(self) -> usize {
                match self {
                    $(Slice::$slice => Work::$least),*
                }
            }

            /// Puts so many elements of any value in its place.
            fn fill(self, work: &mut Work, length: usize, random: &mut Random) {
                let numbers = (0..length).map(|_| random.number());
                match self {
                    $(Slice::$slice => work.$field = numbers.map(|number| number as _).collect()),*
                }
            }

            fn is_short(self, work: &Work) -> bool {
                match self {
                    $(Slice::$slice => work.$field.len() < self.least()),*
                }
            }

            fn is_clear(self, work: &Work) -> bool {
                match self {
                    $(Slice::$slice => work.$field.iter().all(|&x| x == 0)),*
                }
            }

            fn is_same(self, before: &Work, after: &Work) -> bool {
                match self {
                    $(Slice::$slice => before.$field == after.$field),*
                }
            }
        }
    };
}

slices! {
    Tuples tuples TUPLES,
    Cells cells CELLS,
    Dropped dropped DROPPED,
    Gains gains GAINS,
    Bonuses bonuses BONUSES,
    Values values VALUES,
    Arrivals arrivals ARRIVALS,
    Order order ORDER,
    Numbers numbers NUMBERS,
    Bests bests BESTS,
    Leasts leasts LEASTS,
    Highs highs HIGHS,
    Lows lows LOWS,
}

/// What the making of a supervisor is lent.
pub const SUPERVISOR: &[Slice] = &[Slice::Tuples, Slice::Cells, Slice::Dropped];

/// What the making of a guard is lent.
pub const GUARD: &[Slice] = &[
    Slice::Tuples,
    Slice::Cells,
    Slice::Dropped,
    Slice::Gains,
    Slice::Bonuses,
    Slice::Values,
    Slice::Arrivals,
    Slice::Order,
    Slice::Numbers,
];

/// What the making of a forecast is lent.
pub const FORECAST: &[Slice] = &[
    Slice::Tuples,
    Slice::Cells,
    Slice::Dropped,
    Slice::Gains,
    Slice::Bonuses,
    Slice::Bests,
    Slice::Leasts,
    Slice::Highs,
    Slice::Lows,
];

/// What the making of a play is lent.
pub const FORCED: &[Slice] = &[Slice::Tuples, Slice::Cells, Slice::Dropped];

/// Work memory full of anything, each slice at times longer than its constant, by less than so much.
pub fn any(random: &mut Random, beyond: usize) -> Work {
    let mut work = Work::new();
    for slice in Slice::ALL {
        let more = if beyond == 0 { 0 } else { random.below(beyond) };
        slice.fill(&mut work, slice.least() + more, random);
    }
    work
}

/// Makes one slice shorter than its constant.
pub fn shorten(work: &mut Work, slice: Slice, random: &mut Random) {
    let short = if random.once_in(2) { 1 } else { 1 + random.below(slice.least()) };
    slice.fill(work, slice.least() - short, random);
}

/// Whether a slice that is lent is shorter than its constant.
pub fn is_short(lent: &[Slice], work: &Work) -> bool {
    lent.iter().any(|slice| slice.is_short(work))
}

/// Panics unless what was lent to a call is zero after it, and the rest as it was before.
pub fn check(lent: &[Slice], before: &Work, after: &Work) {
    for slice in Slice::ALL {
        match lent.contains(slice) {
            true => assert!(slice.is_clear(after), "{slice:?} is not clear"),
            false => assert!(slice.is_same(before, after), "{slice:?} was not lent"),
        }
    }
}
