//! The makers of the three, compared and timed.

use std::hint::black_box;

use conformance::subject::{self, card_of};
use guard::{calls, Work};
use reference::{Made, Refusal, GUARD_BYTES_MOST};

use crate::timing::{compare, Effort, Times};

/// What is made of a sheet, by all three.
pub trait Maker {
    fn name(&self) -> &'static str;

    /// Panics unless all three answer the same for the sheet.
    fn check(&self, sheet: &[u8]);

    /// One run over the sheets, one after the other as one call.
    fn time(&self, effort: Effort, sheets: &[Vec<u8>]) -> Times;
}

/// What the tables are made by.
pub const TABLES: &[&dyn Maker] = &[&SUPERVISOR, &GUARD];
/// The same and the forecast's.
pub const ALL: &[&dyn Maker] = &[&SUPERVISOR, &GUARD, &Forecast];
/// What the play is made by.
pub const PLAY: &[&dyn Maker] = &[&FORCED];

type ByLibrary = fn(&[u8], &mut [u8], &mut Work, &mut [u64; calls::FIGURES]) -> u32;
type InRust = fn(&[u8], &mut [u8]) -> Result<Made, Refusal>;

/// The makers of one kind of table, or of the play.
pub struct Table {
    name: &'static str,
    rattle: ByLibrary,
    plain: InRust,
    tuned: InRust,
}

const SUPERVISOR: Table = Table {
    name: "supervisor",
    rattle: calls::make_supervisor,
    plain: reference::make_supervisor,
    tuned: tuned::make_supervisor,
};

pub const GUARD: Table = Table {
    name: "guard",
    rattle: calls::make_guard,
    plain: reference::make_guard,
    tuned: tuned::make_guard,
};

const FORCED: Table = Table {
    name: "forced",
    rattle: calls::forced,
    plain: reference::make_forced,
    tuned: tuned::make_forced,
};

impl Maker for Table {
    fn name(&self) -> &'static str {
        self.name
    }

    /// The result memory must be the same too.
    fn check(&self, sheet: &[u8]) {
        let mut expected = vec![0xA5; GUARD_BYTES_MOST];
        let mut result = expected.clone();
        let answer = (self.plain)(sheet, &mut expected);
        assert_eq!((self.tuned)(sheet, &mut result), answer, "{} by tuned", self.name);
        assert!(result == expected, "{} by tuned: the result memory differs", self.name);
        if guard::LINKED {
            let mut figures = [u64::MAX; calls::FIGURES];
            let mut result = vec![0xA5; GUARD_BYTES_MOST];
            let number = (self.rattle)(sheet, &mut result, &mut Work::new(), &mut figures);
            let made = answer.map_or([0, 0], |made| [made.length as u64, made.states as u64]);
            assert_eq!((number, figures), (subject::number(&answer), made), "{}", self.name);
            assert!(result == expected, "{}: the result memory differs", self.name);
        }
    }

    fn time(&self, effort: Effort, sheets: &[Vec<u8>]) -> Times {
        let mut results = [(); 3].map(|()| vec![0; GUARD_BYTES_MOST]);
        let [by_rattle, by_plain, by_tuned] = &mut results;
        let mut work = Work::new();
        let mut figures = [0; calls::FIGURES];
        compare(
            effort,
            || each(sheets, |sheet| (self.rattle)(sheet, by_rattle, &mut work, &mut figures)),
            || each(sheets, |sheet| (self.plain)(sheet, by_plain)),
            Some(|| each(sheets, |sheet| (self.tuned)(sheet, by_tuned))),
        )
    }
}

/// The makers of forecast cards.
pub struct Forecast;

impl Maker for Forecast {
    fn name(&self) -> &'static str {
        "forecast"
    }

    fn check(&self, sheet: &[u8]) {
        let answer = reference::forecast(sheet);
        let card = card_of(&answer);
        let tuned = tuned::forecast(sheet);
        assert_eq!(subject::number(&tuned), subject::number(&answer), "forecast by tuned");
        assert!(card_of(&tuned) == card, "forecast by tuned: the card differs");
        if guard::LINKED {
            let mut found = [0; calls::CARD_WORDS];
            let number = calls::forecast(sheet, &mut Work::new(), &mut found);
            assert_eq!(number, subject::number(&answer), "forecast");
            assert!(found == card, "forecast: the card differs");
        }
    }

    fn time(&self, effort: Effort, sheets: &[Vec<u8>]) -> Times {
        let mut work = Work::new();
        let mut card = [0; calls::CARD_WORDS];
        compare(
            effort,
            || each(sheets, |sheet| calls::forecast(sheet, &mut work, &mut card)),
            || each(sheets, reference::forecast),
            Some(|| each(sheets, tuned::forecast)),
        )
    }
}

/// Makes something of every sheet.
fn each<T>(sheets: &[Vec<u8>], mut make: impl FnMut(&[u8]) -> T) {
    for sheet in sheets {
        black_box(make(sheet));
    }
}
