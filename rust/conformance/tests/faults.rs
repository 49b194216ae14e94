//! The place of a fault, on many sheets, sound and damaged: it is in the first record that the
//! library refuses, and at a field that is to blame.

use std::collections::BTreeMap;

use conformance::{cases, generate, seed, Library, Random, Subject};
use guard::calls::CARD_WORDS;
use reference::{Fault, Refusal, Sheet, GUARD_BYTES_MOST};

const RECORD_HEADER: usize = 4;
/// The longest monitor: 4 fields, 32 accept bytes, 32 rows of 64 letters.
const BODY_MOST: u16 = 4 + 32 + 32 * 64;

/// The generated sheets, each with its case: half of them damaged once more.
fn sheets(count: u64) -> impl Iterator<Item = (u64, Vec<u8>)> {
    (0..cases(count)).map(|case| {
        let mut random = Random::new(seed(), case);
        let mut sheet = generate::any_sheet(&mut random);
        if random.once_in(2) {
            generate::damage(&mut random, &mut sheet);
        }
        (case, sheet)
    })
}

/// The generated sheets that have a fault.
fn faulty(count: u64) -> impl Iterator<Item = (Vec<u8>, Fault)> {
    sheets(count).filter_map(|(_, sheet)| Sheet::read(&sheet).err().map(|fault| (sheet, fault)))
}

/// Where a record begins and ends, by the lengths alone; one that is cut ends with the sheet.
fn bounds(sheet: &[u8], record: usize) -> (usize, usize) {
    let end = |start: usize| match sheet[start..] {
        [low, high, _, _, ..] => {
            let length = usize::from(u16::from_le_bytes([low, high]));
            sheet.len().min(start + RECORD_HEADER + length)
        }
        _ => sheet.len(),
    };
    let start = (0..record).fold(0, |start, _| end(start));
    (start, end(start))
}

/// Every maker answers the fault's number, and none of 1 to 6 where there is none.
#[test]
#[cfg_attr(not(guard_library), ignore = "needs the library: tools/library")]
fn refusals_are_the_librarys() {
    let mut library = Library::new(None);
    let mut seen: BTreeMap<u32, u64> = BTreeMap::new();
    let mut result = vec![0; GUARD_BYTES_MOST];
    for (case, sheet) in sheets(20_000) {
        let number = Sheet::read(&sheet).map_or_else(|fault| fault.refusal.number(), |_| 0);
        let made = [
            library.make_supervisor(&sheet, &mut result).0,
            library.make_guard(&sheet, &mut result).0,
            library.forecast(&sheet, &mut [0; CARD_WORDS]),
            library.forced(&sheet, &mut result).0,
        ];
        let sheet_fault = |made| if (1..=6).contains(&made) { made } else { 0 };
        assert_eq!(made.map(sheet_fault), [number; 4], "case {case} of seed {}", seed());
        *seen.entry(number).or_default() += 1;
    }
    println!("faults seen, by number: {seen:?}");
}

/// The byte is one of the record named, which is the first faulty one: the sheet before it is
/// sound or empty, and what comes after it changes nothing.
#[test]
fn the_first_faulty_record_is_named() {
    let mut seen: BTreeMap<u32, u64> = BTreeMap::new();
    for (sheet, fault) in faulty(20_000) {
        let (start, end) = bounds(&sheet, fault.record);
        assert!((start..end).contains(&fault.byte) || sheet.is_empty(), "{fault:?}: {sheet:02x?}");
        match Sheet::parse(&sheet[..start]) {
            Ok(_) => assert!(fault.record > 0, "{fault:?}: {sheet:02x?}"),
            Err(refusal) => assert_eq!((refusal, start, fault.record), (Refusal::Misplaced, 0, 0)),
        }
        if fault.refusal != Refusal::Truncated && !sheet.is_empty() {
            assert_eq!(Sheet::read(&sheet[..end]), Err(fault.clone()), "{sheet:02x?}");
            let more = [&sheet[..end], &[0xA5; 7]].concat();
            assert_eq!(Sheet::read(&more), Err(fault.clone()), "{sheet:02x?}");
        }
        *seen.entry(fault.refusal.number()).or_default() += 1;
    }
    println!("faults seen, by number: {seen:?}");
    assert!((1..=6).all(|number| seen.get(&number).is_some_and(|&n| n >= 20)), "{seen:?}");
}

/// The sheets that differ from a faulty one in the field that is blamed, and for a length or a
/// record cut short in bytes added at the end.
fn mended(sheet: &[u8], fault: &Fault) -> Vec<Vec<u8>> {
    let (start, _) = bounds(sheet, fault.record);
    let two_bytes = |at: usize, number: u16| {
        let mut sheet = sheet.to_vec();
        sheet[at..at + 2].copy_from_slice(&number.to_le_bytes());
        sheet
    };
    match fault.byte - start {
        0 if fault.refusal == Refusal::Truncated => {
            vec![[sheet, &vec![0; usize::from(u16::MAX)]].concat()]
        }
        0 => {
            let long =
                |number| [two_bytes(start, number), vec![0; usize::from(BODY_MOST)]].concat();
            (1..=BODY_MOST).map(long).collect()
        }
        2 => (1..=2).map(|kind| two_bytes(fault.byte, kind)).collect(),
        _ => {
            let one_byte = |byte| {
                let mut sheet = sheet.to_vec();
                sheet[fault.byte] = byte;
                sheet
            };
            (0..=u8::MAX).map(one_byte).collect()
        }
    }
}

/// The parts that can be blamed, by number and place in the record; 9 is any later place too.
const BLAMED: [(u32, &[usize]); 5] =
    [(1, &[0]), (2, &[2]), (3, &[0, 4, 5, 6, 8, 9]), (4, &[0, 4, 5, 6, 7, 8, 9]), (6, &[7])];

/// The field named is to blame: with something else in it the sheet is sound, or refused at
/// another place or by another number.
#[test]
fn another_number_in_the_field_ends_the_fault() {
    let mut seen: BTreeMap<(u32, usize), u64> = BTreeMap::new();
    let place = |fault: &Fault| (fault.refusal, fault.record, fault.byte);
    for (sheet, fault) in faulty(6_000) {
        if sheet.is_empty() || fault.refusal == Refusal::SeventhMonitor {
            continue;
        }
        let mends = |sheet: &Vec<u8>| match Sheet::read(sheet) {
            Ok(_) => true,
            Err(other) => place(&other) != place(&fault),
        };
        assert!(mended(&sheet, &fault).iter().any(mends), "{fault:?}: {sheet:02x?}");
        let at = fault.byte - bounds(&sheet, fault.record).0;
        *seen.entry((fault.refusal.number(), at.min(9))).or_default() += 1;
    }
    println!("faults mended, by number and place in the record: {seen:?}");
    let blamed =
        BLAMED.iter().flat_map(|&(number, places)| places.iter().map(move |&at| (number, at)));
    assert!(blamed.eq(seen.keys().copied()), "{seen:?}");
}
