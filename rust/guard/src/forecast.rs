use crate::calls::{self, CARD_WORDS, LOST};
use crate::{Refusal, Work};

/// What a forecast says of a product state.
#[derive(Clone, Copy, Debug, PartialEq)]
pub enum Prospect {
    /// The state is not kept: some inputs force a break.
    Lost,
    /// The state is kept, and so much can still be earned.
    Worth(Averages),
}

impl Prospect {
    /// The averages of a state that is kept.
    pub fn averages(self) -> Option<Averages> {
        match self {
            Prospect::Lost => None,
            Prospect::Worth(averages) => Some(averages),
        }
    }
}

/// What allowed outputs earn over the horizon's steps, added up along each word of as many inputs
/// and averaged over all the words. Both are exact, and 0 at horizon 0.
#[derive(Clone, Copy, Debug, PartialEq)]
pub struct Averages {
    /// The most that answering can make of it.
    pub best: f64,
    /// The least.
    pub least: f64,
}

/// The forecast card of a sheet: how well each product state can still do. The states have the
/// numbers of the supervisor table.
#[derive(Clone, Debug, PartialEq)]
pub struct Forecast {
    prospects: Vec<Prospect>,
}

impl Forecast {
    /// Makes the card of a sheet. Refused as a guard is, but never [`Refusal::ShortResult`].
    pub fn make(sheet: &[u8], work: &mut Work) -> Result<Forecast, Refusal> {
        let mut card = [0; CARD_WORDS];
        Refusal::check(calls::forecast(sheet, work, &mut card))?;
        Ok(Forecast::of_card(&card))
    }

    /// The entries that the card's count says.
    fn of_card(card: &[u64; CARD_WORDS]) -> Forecast {
        let entries = card[1..].chunks_exact(2).take(card[0] as usize);
        let prospects = entries.map(|entry| match entry {
            [LOST, LOST] => Prospect::Lost,
            words => {
                let [best, least] = [words[0], words[1]].map(f64::from_bits);
                Prospect::Worth(Averages { best, least })
            }
        });
        Forecast { prospects: prospects.collect() }
    }

    /// The number of product states.
    pub fn count(&self) -> usize {
        self.prospects.len()
    }

    /// The prospect of a product state; nothing where there is no such state.
    pub fn get(&self, state: usize) -> Option<Prospect> {
        self.prospects.get(state).copied()
    }

    /// The prospects in number order.
    pub fn iter(&self) -> std::slice::Iter<'_, Prospect> {
        self.prospects.iter()
    }
}

impl<'a> IntoIterator for &'a Forecast {
    type Item = &'a Prospect;
    type IntoIter = std::slice::Iter<'a, Prospect>;

    fn into_iter(self) -> Self::IntoIter {
        self.iter()
    }
}

#[cfg(test)]
mod tests {
    use super::*;

    #[test]
    fn a_card_is_read_up_to_its_count() {
        let mut card = [LOST; CARD_WORDS];
        card[0] = 3;
        card[1..3].copy_from_slice(&[2.5f64.to_bits(), 0.0f64.to_bits()]);
        card[5..7].copy_from_slice(&[1.0f64.to_bits(), 1.0f64.to_bits()]);
        let worth = |best, least| Prospect::Worth(Averages { best, least });
        let forecast = Forecast::of_card(&card);
        let expected = [worth(2.5, 0.0), Prospect::Lost, worth(1.0, 1.0)];
        assert!(forecast.iter().eq(&expected) && forecast.into_iter().eq(&expected));
        assert_eq!((forecast.count(), forecast.get(2)), (3, Some(expected[2])));
        assert_eq!(forecast.get(3), None);
    }

    /// A count that no card has does no harm.
    #[test]
    fn a_card_has_no_more_entries_than_its_words() {
        let mut card = [LOST; CARD_WORDS];
        card[0] = u64::MAX;
        assert_eq!(Forecast::of_card(&card).count(), CARD_WORDS / 2);
    }
}
