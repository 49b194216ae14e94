//! Both makers on many sheets, sound and damaged, against the reference: numbers, figures, every
//! byte of the result memory and of the work memory.

use std::collections::BTreeMap;

use conformance::making::{compare, compare_in, Kind};
use conformance::work::{self, Slice};
use conformance::{cases, generate, seed, subject, Random};

const SHORT_WORK: u32 = reference::Refusal::ShortWork.number();

/// The makers of tables.
const TABLES: [Kind; 2] = [Kind::Supervisor, Kind::Guard];

#[test]
#[cfg_attr(not(guard_library), ignore = "needs the library: tools/library")]
fn makers_agree() {
    let mut seen = BTreeMap::new();
    for case in 0..cases(20_000) {
        let mut random = Random::new(seed(), case);
        let sheet = generate::any_sheet(&mut random);
        for kind in TABLES {
            let outcome = std::panic::catch_unwind(|| compare(kind, &sheet, &mut random.clone()));
            match outcome {
                Ok(number) => *seen.entry(number).or_insert(0u64) += 1,
                Err(_) => panic!("case {case} of seed {}: sheet {sheet:02x?}", seed()),
            }
        }
    }
    println!("answers seen, by number: {seen:?}");
}

/// A slice that a maker is not lent, or one longer than its constant, is no ground for 10.
#[test]
#[cfg_attr(not(guard_library), ignore = "needs the library: tools/library")]
fn each_work_slice_has_its_own_bound() {
    let mut random = Random::new(seed(), 0);
    let sheet = generate::record(1, &[0, 1, 1, 0, 0, 0]);
    for kind in TABLES {
        for &slice in Slice::ALL {
            for sheet in [&sheet[..], &[]] {
                let mut work = work::any(&mut random, 0);
                work::shorten(&mut work, slice, &mut random);
                let number = compare_in(kind, sheet, 64, work, &mut random);
                assert_eq!(number == SHORT_WORK, kind.lent().contains(&slice), "{slice:?}");
            }
        }
    }
}

/// Every length of result memory, around a table's.
#[test]
#[cfg_attr(not(guard_library), ignore = "needs the library: tools/library")]
fn result_memory_of_every_length() {
    let mut random = Random::new(seed(), 0);
    let mut tried = 0;
    while tried < 20 {
        let sheet = generate::sheet(&mut random);
        let Ok(table) = reference::guard_table(&sheet) else { continue };
        if table.len() > 300 {
            continue;
        }
        tried += 1;
        for room in 0..table.len() + 10 {
            for kind in TABLES {
                let work = work::any(&mut random, 0);
                compare_in(kind, &sheet, room, work, &mut random);
            }
        }
    }
}

/// The generator reaches every refusal of a sheet, and accepted ones of every shape.
#[test]
fn generated_sheets_are_of_every_sort() {
    let mut numbers: BTreeMap<u32, u64> = BTreeMap::new();
    let mut shapes: BTreeMap<(u8, u8, u8), u64> = BTreeMap::new();
    let (mut correcting, mut dropping, mut looking) = (0, 0, 0);
    // Over 100 and over 256 product states, and over 256 guard states.
    let (mut large, mut larger, mut wide) = (0, 0, 0);
    let count = 6_000;
    for case in 0..count {
        let sheet = generate::any_sheet(&mut Random::new(seed(), case));
        let mut result = vec![0; reference::GUARD_BYTES_MOST];
        let made = reference::make_guard(&sheet, &mut result);
        *numbers.entry(subject::number(&made)).or_default() += 1;
        let Ok(made) = made else { continue };
        *shapes.entry((result[4], result[5], result[6])).or_default() += 1;
        let parsed = reference::Sheet::parse(&sheet).unwrap();
        let product = reference::Product::explore(&parsed).unwrap();
        let kept = reference::Kept::by_rounds(&product);
        dropping += u64::from(kept.rounds() > 1);
        large += u64::from(product.count() > 100);
        larger += u64::from(product.count() > 256);
        wide += u64::from(made.states > 256);
        looking += u64::from(parsed.horizon > 1 && product.count() > 1);
        correcting += u64::from(parsed.mode == reference::Mode::Shield && made.states > 1);
    }
    println!("of {count}: {numbers:?}, shapes {shapes:?}");
    println!("two rounds or more {dropping}, looking ahead {looking}, shields of two states or more {correcting}");
    println!("over 100 states {large}, over 256 {larger}, guards of over 256 {wide}");
    for number in 0..=8 {
        assert!(numbers.get(&number).is_some_and(|&n| n >= 20), "too few of {number}: {numbers:?}");
    }
    assert!(numbers[&0] > count / 4, "too few accepted: {numbers:?}");
    assert_eq!(shapes.len(), generate::Shape::all().len(), "{shapes:?}");
    assert!(dropping > 50 && looking > 500 && correcting > 200);
    assert!(large > 50 && larger > 50 && wide > 20);
}
