use crate::work::STATES_MOST;

/// How the rows of a guard table are written: all of them alike.
#[derive(Clone, Copy, Debug, PartialEq, Eq, Hash)]
pub enum RowKind {
    /// Kind 17: for each input the output and the next state, a byte each. A guard of at most 256 states
    /// is made with such rows, and no other can have them.
    Narrow,
    /// Kind 20: the same with two bytes for the next state. A guard of more states is made with such
    /// rows; a board loads them with any number.
    Wide,
}

impl RowKind {
    /// The kind as the records of a table have it.
    pub const fn number(self) -> u16 {
        match self {
            RowKind::Narrow => 17,
            RowKind::Wide => 20,
        }
    }

    /// The most states of a table with such rows.
    pub const fn states_most(self) -> usize {
        match self {
            RowKind::Narrow => 256,
            RowKind::Wide => STATES_MOST,
        }
    }

    /// The bytes of an entry.
    pub const fn entry_bytes(self) -> usize {
        match self {
            RowKind::Narrow => 2,
            RowKind::Wide => 3,
        }
    }

    /// The output and the next state of the entry for an input, by the body of a row.
    pub(crate) fn entry(self, body: &[u8], input: u8) -> (u8, usize) {
        let entry = &body[self.entry_bytes() * usize::from(input)..][..self.entry_bytes()];
        let next = entry[1..].iter().rev().fold(0, |next, &byte| next << 8 | usize::from(byte));
        (entry[0], next)
    }
}

#[cfg(test)]
mod tests {
    use super::*;

    #[test]
    fn entries_are_read_by_the_kind_of_their_row() {
        let body = [1, 2, 3, 4, 5, 6];
        let narrow = [0, 1, 2].map(|input| RowKind::Narrow.entry(&body, input));
        assert_eq!(narrow, [(1, 2), (3, 4), (5, 6)]);
        let wide = [0, 1].map(|input| RowKind::Wide.entry(&body, input));
        assert_eq!(wide, [(1, 0x0302), (4, 0x0605)]);
    }
}
