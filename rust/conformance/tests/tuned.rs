//! The makers of the tuned crate on many sheets, sound and damaged, against the reference: refusals,
//! figures, every byte of the result memory, and every bit of a forecast.

use std::collections::BTreeMap;

use conformance::subject::card_of;
use conformance::{cases, generate, seed, subject, Random};
use reference::{Made, Refusal, GUARD_BYTES_MOST};

type Maker = fn(&[u8], &mut [u8]) -> Result<Made, Refusal>;

/// The makers in pairs, the reference's first.
const MAKERS: [(&str, Maker, Maker); 3] = [
    ("supervisor", reference::make_supervisor, tuned::make_supervisor),
    ("guard", reference::make_guard, tuned::make_guard),
    ("forced", reference::make_forced, tuned::make_forced),
];

/// Both makers of a pair with result memory of some length, full of anything; the answer's number.
fn compare((name, plain, tuned): (&str, Maker, Maker), sheet: &[u8], memory: &[u8]) -> u32 {
    let (mut expected, mut found) = (memory.to_vec(), memory.to_vec());
    let answer = plain(sheet, &mut expected);
    assert_eq!(tuned(sheet, &mut found), answer, "{name} of {sheet:02x?}");
    assert!(found == expected, "{name} of {sheet:02x?}: the result memory differs");
    assert!(answer.is_ok() || found == memory, "{name} of {sheet:02x?}: a refusal wrote");
    subject::number(&answer)
}

#[test]
fn tuned_makers_agree() {
    let mut seen: BTreeMap<u32, u64> = BTreeMap::new();
    for case in 0..cases(20_000) {
        let mut random = Random::new(seed(), case);
        let sheet = generate::any_sheet(&mut random);
        for makers in MAKERS {
            let made = makers.1(&sheet, &mut [0; GUARD_BYTES_MOST]);
            let length = made.map_or(0, |made| made.length);
            let room = match random.below(6) {
                0 => length,
                1 => length.saturating_sub(1),
                2 => random.below(length + 1),
                _ => length + random.below(64),
            };
            let memory = random.bytes(room);
            *seen.entry(compare(makers, &sheet, &memory)).or_default() += 1;
        }
    }
    println!("answers seen, by number: {seen:?}");
    let mut numbers = (0..=9).chain([Refusal::Realizable.number()]);
    assert!(numbers.all(|number| seen.get(&number).is_some_and(|&n| n >= 20)), "{seen:?}");
}

/// Sheets that none of 1 to 6 applies to, so that all of them reach the product.
#[test]
fn tuned_makers_agree_on_sound_sheets() {
    for case in 0..cases(10_000) {
        let sheet = generate::sheet(&mut Random::new(!seed(), case));
        for makers in MAKERS {
            compare(makers, &sheet, &[0xA5; GUARD_BYTES_MOST + 1]);
        }
    }
}

/// Every length of result memory up to an answer's and beyond it.
#[test]
fn tuned_makers_refuse_short_memory_alike() {
    let mut random = Random::new(seed(), 0);
    for makers in MAKERS {
        let mut tried = 0;
        for _ in 0..200 {
            let sheet = generate::sheet(&mut random);
            let length = makers.1(&sheet, &mut [0; GUARD_BYTES_MOST]).map_or(0, |made| made.length);
            if (1..=300).contains(&length) {
                tried += 1;
                for room in 0..length + 10 {
                    compare(makers, &sheet, &random.bytes(room));
                }
            }
        }
        assert!(tried >= 20, "{}: {tried} tried", makers.0);
    }
}

/// The card tells a negative 0 from 0.
#[test]
fn tuned_forecasts_agree() {
    let mut seen: BTreeMap<u32, u64> = BTreeMap::new();
    for case in 0..cases(20_000) {
        let sheet = generate::any_sheet(&mut Random::new(seed(), case));
        let (plain, tuned) = (reference::forecast(&sheet), tuned::forecast(&sheet));
        assert_eq!(tuned.as_ref().err(), plain.as_ref().err(), "{sheet:02x?}");
        assert_eq!(card_of(&tuned), card_of(&plain), "{sheet:02x?}");
        *seen.entry(subject::number(&plain)).or_default() += 1;
    }
    println!("answers seen, by number: {seen:?}");
    assert!((0..=8).all(|number| seen.get(&number).is_some_and(|&n| n >= 20)), "{seen:?}");
}
