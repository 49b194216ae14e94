//! Forecast cards on many sheets, sound and damaged, against the reference: number, every word of the
//! card and past it, and the work memory; and what a card says beside the sheet's tables.

use std::collections::BTreeMap;

use conformance::subject::{card_of, number, Card};
use conformance::work::{self, Slice};
use conformance::{cases, generate, seed, Library, Random, Reference, Subject};
use guard::calls::{self, CARD_WORDS, LOST};
use reference::{Kept, Product, Refusal, Sheet, Values};

const SHORT_WORK: u32 = Refusal::ShortWork.number();

/// Memory for a card with words past it.
const LENT: usize = CARD_WORDS + 5;

/// No sum is larger, so that every one is a float.
const SUM_MOST: f64 = (1u64 << 53) as f64;

/// What a refusal gives: its number, and a card without an entry.
fn refused(refusal: Refusal) -> (u32, Card) {
    (refusal.number(), card_of(&Err(refusal)))
}

/// The number and the card that the reference gives.
fn expected(sheet: &[u8]) -> (u32, Card) {
    let forecast = reference::forecast(sheet);
    (number(&forecast), card_of(&forecast))
}

/// One call on one sheet, with a slice of work memory too short at times; answers the number.
fn compare(sheet: &[u8], random: &mut Random) -> u32 {
    let mut work = work::any(random, 40);
    let short = random.once_in(8);
    if short {
        work::shorten(&mut work, random.pick(work::FORECAST), random);
    }
    let (number, card) = match short {
        true => refused(Refusal::ShortWork),
        false => expected(sheet),
    };
    let before = work.clone();
    let memory: [u64; LENT] = std::array::from_fn(|_| random.number());
    let (read, mut found) = (sheet.to_vec(), memory);
    assert_eq!(calls::forecast(&read, &mut work, &mut found), number);
    assert_eq!(found[..CARD_WORDS], card);
    assert_eq!(found[CARD_WORDS..], memory[CARD_WORDS..], "words past the card");
    assert!(read == sheet, "the sheet was written");
    work::check(work::FORECAST, &before, &work);
    number
}

#[test]
#[cfg_attr(not(guard_library), ignore = "needs the library: tools/library")]
fn forecasts_agree() {
    let mut seen: BTreeMap<u32, u64> = BTreeMap::new();
    for case in 0..cases(20_000) {
        let mut random = Random::new(seed(), case);
        let sheet = generate::any_sheet(&mut random);
        match std::panic::catch_unwind(|| compare(&sheet, &mut random.clone())) {
            Ok(number) => *seen.entry(number).or_default() += 1,
            Err(_) => panic!("case {case} of seed {}: sheet {sheet:02x?}", seed()),
        }
    }
    println!("answers seen, by number: {seen:?}");
    let numbers: Vec<u32> = seen.into_keys().collect();
    assert!(cases(20_000) < 20_000 || numbers == [0, 1, 2, 3, 4, 5, 6, 7, 8, SHORT_WORK]);
}

/// A slice that the forecast is not lent is no ground for 10, which comes before all others.
#[test]
#[cfg_attr(not(guard_library), ignore = "needs the library: tools/library")]
fn each_work_slice_has_its_own_bound() {
    let mut random = Random::new(seed(), 0);
    let sound = generate::record(1, &[0, 1, 1, 2, 0, 0]);
    for &slice in Slice::ALL {
        for sheet in [&sound[..], &[]] {
            let mut work = work::any(&mut random, 0);
            work::shorten(&mut work, slice, &mut random);
            let before = work.clone();
            let mut card = [random.number(); CARD_WORDS];
            let number = calls::forecast(sheet, &mut work, &mut card);
            let answer = match work::FORECAST.contains(&slice) {
                true => refused(Refusal::ShortWork),
                false => expected(sheet),
            };
            assert_eq!((number, card), answer, "{slice:?}");
            work::check(work::FORECAST, &before, &work);
        }
    }
}

/// What was seen in the cards of some sheets.
#[derive(Debug, Default)]
struct Seen {
    made: u64,
    /// Sheets of horizon 0.
    blind: u64,
    /// Entries that are lost; whose averages differ; whose least is not 0.
    lost: u64,
    differing: u64,
    earning: u64,
}

/// A sheet's card beside its supervisor table and the values that its guard is chosen by.
fn check(bytes: &[u8], subject: &mut dyn Subject, seen: &mut Seen) {
    let mut card = [0; CARD_WORDS];
    let mut table = vec![0; reference::SUPERVISOR_BYTES_MOST];
    let number = subject.forecast(bytes, &mut card);
    assert_eq!(number, subject.make_supervisor(bytes, &mut table).0);
    let (count, entries) = (card[0] as usize, card[1..].chunks_exact(2));
    assert!(entries.clone().skip(count).all(|entry| entry == [LOST; 2]), "past the count");
    if number != 0 {
        assert_eq!(count, 0);
        return;
    }
    assert_eq!(count, usize::from(u16::from_le_bytes([table[7], table[8]])));
    let sheet = Sheet::parse(bytes).expect("accepted");
    let product = Product::explore(&sheet).expect("accepted");
    let values = Values::over_horizon(&sheet, &product, &Kept::by_rounds(&product));
    let words = 1u64 << (u32::from(sheet.inputs) * u32::from(sheet.horizon));
    let rows = table[9..].chunks_exact(5 + sheet.input_count());
    for (state, (entry, row)) in entries.zip(rows).take(count).enumerate() {
        match row[4] {
            0 => assert_eq!(entry, [LOST; 2], "state {state}"),
            _ => check_averages(entry, words as f64, values.best(state) as f64),
        }
        seen.lost += u64::from(row[4] == 0);
        seen.differing += u64::from(entry[0] != entry[1]);
        seen.earning += u64::from(row[4] == 1 && entry[1] != 0);
    }
    seen.made += 1;
    seen.blind += u64::from(sheet.horizon == 0);
}

/// The averages of a kept state, by the number of words and the best sum: both are whole sums over it,
/// the least one from 0 up to the best, and neither is a negative 0.
fn check_averages(entry: &[u64], words: f64, sum: f64) {
    let [best, least] = [entry[0], entry[1]].map(f64::from_bits);
    assert_eq!(best * words, sum);
    assert_eq!((least * words).fract(), 0.0);
    assert!(0.0 <= least && least <= best && sum <= SUM_MOST);
    assert!(best.is_sign_positive() && least.is_sign_positive());
}

fn check_all(subject: &mut dyn Subject) {
    let mut seen = Seen::default();
    for case in 0..cases(6_000) {
        let sheet = generate::any_sheet(&mut Random::new(seed(), case));
        check(&sheet, subject, &mut seen);
    }
    println!("{seen:?}");
    let Seen { made, blind, lost, differing, earning } = seen;
    let few = [made, blind, lost, differing, earning].into_iter().any(|count| count < 300);
    assert!(cases(6_000) < 6_000 || !few, "too few of a sort");
}

#[test]
fn the_reference_s_cards_fit_its_tables() {
    check_all(&mut Reference);
}

#[test]
#[cfg_attr(not(guard_library), ignore = "needs the library: tools/library")]
fn the_library_s_cards_fit_its_tables() {
    check_all(&mut Library::new(None));
}
