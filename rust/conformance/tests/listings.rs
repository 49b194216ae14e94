//! Stored tables and their listings against the reference: which tables are taken, and the text, byte
//! by byte, in text memory of any length.

use std::collections::BTreeMap;

use conformance::{cases, generate, seed, Random};
use guard::{calls, Guard, Refusal, Work};

const BAD_TABLE: u32 = 11;
const SHORT_TEXT: u32 = 9;

/// What a listing in so much text memory must be answered: number and length, with the text.
fn expected(table: &[u8], room: usize) -> (u32, u64, String) {
    match reference::list_table(table) {
        None => (BAD_TABLE, 0, String::new()),
        Some(text) if room < text.len() => (SHORT_TEXT, 0, String::new()),
        Some(text) => (0, text.len() as u64, text),
    }
}

/// Lists a table in a part of a memory that is full of anything; answers the number.
fn compare(table: &[u8], room: usize, random: &mut Random) -> u32 {
    let (start, rest) = (random.below(8), random.below(8));
    let lent = start..start + room;
    let mut memory = random.bytes(lent.end + rest);
    let mut after = memory.clone();
    let (number, length, text) = expected(table, room);
    after[start..start + text.len()].copy_from_slice(text.as_bytes());
    let read = table.to_vec();
    let mut figures = [u64::MAX; calls::LISTING_FIGURES];
    assert_eq!(calls::list(&read, &mut memory[lent], &mut figures), number);
    assert_eq!(figures, [length]);
    assert!(memory == after, "the text memory differs");
    assert!(read == table, "the table was written");
    number
}

#[test]
#[cfg_attr(not(guard_library), ignore = "needs the library: tools/library")]
fn stored_tables_are_taken_and_listed() {
    let mut taken = 0;
    for case in 0..cases(20_000) {
        let table = generate::any_table(&mut Random::new(seed(), case));
        let say = || format!("case {case} of seed {}: {table:02x?}", seed());
        let guard = Guard::from_bytes(&table[..]);
        if reference::loadable(&table).is_none() {
            assert_eq!(guard, Err(Refusal::BadTable), "{}", say());
            continue;
        }
        taken += 1;
        let guard = guard.unwrap_or_else(|refusal| panic!("{refusal}, {}", say()));
        assert_eq!(guard.as_bytes(), table, "{}", say());
        assert_eq!(guard.listing().ok(), reference::list_table(&table), "{}", say());
    }
    let refused = cases(20_000) - taken;
    println!("{taken} taken, {refused} refused");
    assert!(taken * 4 > cases(20_000) && refused * 4 > cases(20_000), "too few of one sort");
}

#[test]
#[cfg_attr(not(guard_library), ignore = "needs the library: tools/library")]
fn made_guards_are_listed_as_the_program_prints_them() {
    let mut work = Work::new();
    for case in 0..cases(2_000) {
        let sheet = generate::sheet(&mut Random::new(seed(), case));
        let Ok(guard) = Guard::make(&sheet, &mut work) else { continue };
        let say = || format!("case {case} of seed {}: {sheet:02x?}", seed());
        assert_eq!(guard.listing(), Ok(reference::list(&sheet)), "{}", say());
        assert_eq!(Guard::from_bytes(guard.as_bytes()), Ok(guard), "{}", say());
    }
}

/// Any table in text memory of any length, often about the listing's.
#[test]
#[cfg_attr(not(guard_library), ignore = "needs the library: tools/library")]
fn listings_agree() {
    let mut seen = BTreeMap::new();
    for case in 0..cases(20_000) {
        let mut random = Random::new(seed(), case);
        let table = generate::any_table(&mut random);
        let room = match reference::list_table(&table) {
            Some(text) if random.once_in(2) => text.len() + random.below(5) - 2,
            _ => random.below(Guard::LISTING_BYTES_MOST + 1),
        };
        let outcome = std::panic::catch_unwind(|| compare(&table, room, &mut random.clone()));
        match outcome {
            Ok(number) => *seen.entry(number).or_insert(0u64) += 1,
            Err(_) => panic!("case {case} of seed {}: room {room}, {table:02x?}", seed()),
        }
    }
    println!("answers seen, by number: {seen:?}");
}

/// Every length of text memory, around a listing's; of a table, and of the same one with a byte more.
#[test]
#[cfg_attr(not(guard_library), ignore = "needs the library: tools/library")]
fn text_memory_of_every_length() {
    let mut random = Random::new(seed(), 0);
    let mut tried = 0;
    while tried < 20 {
        let table = generate::table(&mut random);
        let text = reference::list_table(&table).expect("a generated table is loadable");
        if text.len() > 400 {
            continue;
        }
        tried += 1;
        let longer = [&table[..], &[0]].concat();
        for room in 0..text.len() + 10 {
            let number = if room < text.len() { SHORT_TEXT } else { 0 };
            assert_eq!(compare(&table, room, &mut random), number);
            assert_eq!(compare(&longer, room, &mut random), BAD_TABLE);
        }
    }
}
