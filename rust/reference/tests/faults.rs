//! Where a sheet is refused 1 to 6, and in what words: a row for each ground of document 01.

use reference::{Fault, Refusal, Sheet};
use Refusal::*;

fn record(kind: u16, body: &[u8]) -> Vec<u8> {
    let mut bytes = (body.len() as u16).to_le_bytes().to_vec();
    bytes.extend(kind.to_le_bytes());
    bytes.extend(body);
    bytes
}

/// A record of kind 1, in 4 bytes more than the body.
fn head(body: &[u8]) -> Vec<u8> {
    record(1, body)
}

/// A head of 10 bytes, one line each way, with a record of kind 2 after it: its body is at 14.
fn monitor(body: &[u8]) -> Vec<u8> {
    [head(&[0, 1, 1, 0, 0, 0]), record(2, body)].concat()
}

/// The same for a shield, of no line in and one out.
fn shield(body: &[u8]) -> Vec<u8> {
    [head(&[1, 0, 1, 0, 7, 0]), record(2, body)].concat()
}

/// A hard monitor of three states and four letters, with one byte of its body changed.
fn changed(at: usize, to: u8) -> Vec<u8> {
    let mut body = [0, 0, 3, 0, 1, 1, 0, 0, 0, 1, 1, 0, 0, 2, 2, 2, 2, 2, 2];
    body[at] = to;
    monitor(&body)
}

/// A head and so many sound monitors of 11 bytes.
fn monitors(count: usize) -> Vec<u8> {
    [head(&[0, 0, 1, 0, 0, 0]), record(2, &[1, 1, 1, 0, 1, 0, 0]).repeat(count)].concat()
}

/// A sheet, and the refusal, record, byte and words of its fault.
type Row = (Vec<u8>, Refusal, usize, usize, &'static str);

fn check(rows: &[Row]) {
    for (sheet, refusal, record, byte, what) in rows {
        let (refusal, record, byte, what) = (*refusal, *record, *byte, what.to_string());
        let fault = Fault { refusal, record, byte, what };
        assert_eq!(Sheet::read(sheet), Err(fault), "{sheet:02x?}");
        assert_eq!(Sheet::parse(sheet), Err(refusal), "{sheet:02x?}");
    }
}

#[test]
fn records_cut_short() {
    let cut = |sheet: Vec<u8>, length: usize| sheet[..length].to_vec();
    check(&[
        (vec![6], Truncated, 0, 0, "1 byte is left; a record has at least 4"),
        (vec![6, 0, 1], Truncated, 0, 0, "3 bytes are left; a record has at least 4"),
        (cut(monitors(2), 23), Truncated, 2, 21, "2 bytes are left; a record has at least 4"),
        (
            cut(monitors(1), 20),
            Truncated,
            1,
            10,
            "length is 7, a record of 11 bytes; 10 bytes are left",
        ),
        // The length comes before the kind and everything else.
        (
            vec![0xFF, 0xFF, 9, 9, 2],
            Truncated,
            0,
            0,
            "length is 65535, a record of 65539 bytes; 5 bytes are left",
        ),
        (vec![1, 0, 1, 0], Truncated, 0, 0, "length is 1, a record of 5 bytes; 4 bytes are left"),
    ]);
}

#[test]
fn records_out_of_place() {
    let after = |kind| [monitors(1), record(kind, &[])].concat();
    check(&[
        (vec![], Misplaced, 0, 0, "no record is there; a head (kind 1) may be"),
        (record(2, &[1, 1, 1, 0, 1, 0, 0]), Misplaced, 0, 2, "kind is 2; 1 (head) may be"),
        (record(257, &[]), Misplaced, 0, 2, "kind is 257; 1 (head) may be"),
        (after(1), Misplaced, 2, 23, "kind is 1, a second head; 2 (monitor) may be"),
        (after(0), Misplaced, 2, 23, "kind is 0; 2 (monitor) may be"),
        (after(65_535), Misplaced, 2, 23, "kind is 65535; 2 (monitor) may be"),
        // A kind comes before the count of the monitors.
        (
            [monitors(6), record(16, &[])].concat(),
            Misplaced,
            7,
            78,
            "kind is 16; 2 (monitor) may be",
        ),
    ]);
}

#[test]
fn heads_of_wrong_length() {
    let long = [head(&[0, 1, 2, 0, 0, 0, 1, 0]), monitors(1)].concat();
    check(&[
        (head(&[]), BadHead, 0, 0, "length is 0; 6 to 8 may be"),
        (head(&[0, 1, 1, 0]), BadHead, 0, 0, "length is 4; 6 to 8 may be"),
        (head(&[0, 1, 1, 0, 0]), BadHead, 0, 0, "length is 5; 6 may be (lines out 1)"),
        (long, BadHead, 0, 0, "length is 8; 7 may be (lines out 2)"),
        // A field tells more than the length.
        (head(&[0, 1, 4, 0, 0, 0]), BadHead, 0, 6, "lines out is 4; 1 to 3 may be"),
    ]);
}

#[test]
fn head_fields_out_of_bounds() {
    let many_inputs = |mode, lines_in, outputs| match outputs {
        2 => head(&[mode, lines_in, 2, 0, 0, 0, 1]),
        _ => head(&[mode, lines_in, 3, 0, 0, 0, 1, 2]),
    };
    check(&[
        (head(&[2, 1, 1, 0, 0, 0]), BadHead, 0, 4, "mode is 2; 0 or 1 may be"),
        (head(&[0, 5, 1, 0, 0, 0]), BadHead, 0, 5, "lines in is 5; 0 to 4 may be"),
        (head(&[0, 1, 0, 0, 0]), BadHead, 0, 6, "lines out is 0; 1 to 3 may be"),
        (head(&[0, 1, 4, 0, 0, 0, 1, 2, 3]), BadHead, 0, 6, "lines out is 4; 1 to 3 may be"),
        (
            many_inputs(1, 3, 2),
            BadHead,
            0,
            5,
            "lines in is 3, which makes 5 inputs; 0 to 2 may be (mode 1, lines out 2)",
        ),
        (
            many_inputs(1, 1, 3),
            BadHead,
            0,
            5,
            "lines in is 1, which makes 7 inputs and outputs; only 0 may be (mode 1, lines out 3)",
        ),
        (
            many_inputs(0, 4, 3),
            BadHead,
            0,
            5,
            "lines in is 4, which makes 7 inputs and outputs; 0 to 3 may be (mode 0, lines out 3)",
        ),
        (head(&[0, 1, 1, 0, 3, 0]), BadHead, 0, 8, "match weight is 3; only 0 may be (mode 0)"),
    ]);
}

#[test]
fn preferences_of_no_line_or_of_one_twice() {
    let two = |first, second| head(&[0, 1, 2, 0, 0, first, second]);
    check(&[
        (two(0, 2), BadHead, 0, 10, "preference 1 is 2; a line below 2, or 8 more, may be"),
        (two(10, 0), BadHead, 0, 9, "preference 0 is 10; a line below 2, or 8 more, may be"),
        (two(0, 255), BadHead, 0, 10, "preference 1 is 255; a line below 2, or 8 more, may be"),
        (two(1, 9), BadHead, 0, 10, "preference 1 is 9, line 1 again; each line may be named once"),
        (two(0, 0), BadHead, 0, 10, "preference 1 is 0, line 0 again; each line may be named once"),
    ]);
}

#[test]
fn horizons_too_long() {
    let long = |lines_in, horizon| head(&[0, lines_in, 1, horizon, 0, 0]);
    check(&[
        (long(0, 25), LongHorizon, 0, 7, "horizon is 25; 0 to 24 may be (inputs 0)"),
        (long(1, 255), LongHorizon, 0, 7, "horizon is 255; 0 to 24 may be (inputs 1)"),
        (long(4, 7), LongHorizon, 0, 7, "horizon is 7; 0 to 6 may be (inputs 4)"),
        // A shield's inputs are the proposal's lines too.
        (head(&[1, 1, 2, 9, 0, 8, 1]), LongHorizon, 0, 7, "horizon is 9; 0 to 8 may be (inputs 3)"),
        // The rest of the head comes before H, and H before the records after it.
        (
            head(&[0, 1, 1, 25, 0, 5]),
            BadHead,
            0,
            9,
            "preference 0 is 5; a line below 1, or 8 more, may be",
        ),
        (
            [long(4, 7), vec![1]].concat(),
            LongHorizon,
            0,
            7,
            "horizon is 7; 0 to 6 may be (inputs 4)",
        ),
    ]);
}

#[test]
fn monitors_of_wrong_length() {
    let body = |length: usize| [&[0, 0, 3, 0, 1, 1, 0][..], &vec![0; length - 7]].concat();
    check(&[
        (monitor(&[]), BadMonitor, 1, 10, "length is 0; more than 4 may be"),
        (monitor(&[0, 0, 3]), BadMonitor, 1, 10, "length is 3; more than 4 may be"),
        (monitor(&body(18)), BadMonitor, 1, 10, "length is 18; 19 may be (states 3, letters 4)"),
        (monitor(&body(20)), BadMonitor, 1, 10, "length is 20; 19 may be (states 3, letters 4)"),
        // A limit has four letters in every sheet.
        (
            shield(&[2, 0, 1, 0, 1, 0, 0]),
            BadMonitor,
            1,
            10,
            "length is 7; 9 may be (states 1, letters 4)",
        ),
    ]);
}

#[test]
fn monitor_fields_out_of_bounds() {
    check(&[
        (changed(0, 2), BadMonitor, 1, 14, "role is 2; 0 or 1 may be (mode 0)"),
        (changed(0, 255), BadMonitor, 1, 14, "role is 255; 0 or 1 may be (mode 0)"),
        (shield(&[3, 0, 1, 0, 1, 0, 0]), BadMonitor, 1, 14, "role is 3; 0 to 2 may be (mode 1)"),
        (changed(0, 1), BadMonitor, 1, 15, "weight is 0; 1 to 255 may be (role 1)"),
        (changed(1, 9), BadMonitor, 1, 15, "weight is 9; only 0 may be (role 0)"),
        (
            shield(&[2, 1, 1, 0, 1, 0, 0, 0, 0]),
            BadMonitor,
            1,
            15,
            "weight is 1; only 0 may be (role 2)",
        ),
        (changed(2, 0), BadMonitor, 1, 16, "states is 0; 1 to 32 may be"),
        (changed(2, 33), BadMonitor, 1, 16, "states is 33; 1 to 32 may be"),
        (changed(3, 3), BadMonitor, 1, 17, "start is 3; 0 to 2 may be"),
        (monitor(&[0, 0, 1, 1, 1, 0, 0, 0, 0]), BadMonitor, 1, 17, "start is 1; only 0 may be"),
        (changed(4, 2), BadMonitor, 1, 18, "accept byte of state 0 is 2; 0 or 1 may be"),
        (changed(6, 255), BadMonitor, 1, 20, "accept byte of state 2 is 255; 0 or 1 may be"),
        (changed(7, 3), BadMonitor, 1, 21, "next state of state 0 at letter 0 is 3; 0 to 2 may be"),
        (
            changed(18, 200),
            BadMonitor,
            1,
            32,
            "next state of state 2 at letter 3 is 200; 0 to 2 may be",
        ),
        (
            monitor(&[0, 0, 1, 0, 1, 0, 0, 1, 0]),
            BadMonitor,
            1,
            21,
            "next state of state 0 at letter 2 is 1; only 0 may be",
        ),
    ]);
}

#[test]
fn a_seventh_monitor() {
    let bad = record(2, &[0, 9]);
    let what = "a seventh monitor; at most six may be";
    check(&[
        (monitors(7), SeventhMonitor, 7, 76, what),
        (monitors(9), SeventhMonitor, 7, 76, what),
        // Six is the count of monitors before it, and its own fields don't matter.
        ([monitors(6), bad.clone()].concat(), SeventhMonitor, 7, 76, what),
        ([monitors(5), bad].concat(), BadMonitor, 6, 65, "length is 2; more than 4 may be"),
    ]);
}

#[test]
fn sheets_in_bounds_have_no_fault() {
    for sheet in [monitors(0), monitors(6), changed(3, 2), head(&[1, 0, 3, 8, 255, 2, 9, 0])] {
        assert!(Sheet::read(&sheet).is_ok(), "{sheet:02x?}");
        assert_eq!(Sheet::read(&sheet).ok(), Sheet::parse(&sheet).ok());
    }
}

#[test]
fn a_fault_in_one_line() {
    let fault = Sheet::read(&changed(3, 3)).unwrap_err();
    assert_eq!(fault.to_string(), "refused 4: record 1, byte 17: start is 3; 0 to 2 may be");
}
