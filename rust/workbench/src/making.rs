//! Tables, forecasts and plays by the proved library, from sheets or as they were stored.

use guard::{Forced, Forecast, Guard, Refusal, Supervisor, Work};

use crate::bench::{Bench, Outcome, Stop};
use crate::source::Source;

/// The guard of a sheet; a refusal is said.
pub fn guard_of_sheet(source: &Source, bench: &mut Bench) -> Result<Guard, Stop> {
    Guard::make(&source.bytes, &mut Work::new()).map_err(|refusal| refuse(refusal, source, bench))
}

/// The guard of a sheet, or the one that the file is.
pub fn guard_or_refusal(source: &Source) -> Result<Guard, Refusal> {
    match source.is_table() {
        true => Guard::from_bytes(source.bytes.clone()),
        false => Guard::make(&source.bytes, &mut Work::new()),
    }
}

/// Such a guard; a refusal is said.
pub fn guard(source: &Source, bench: &mut Bench) -> Result<Guard, Stop> {
    guard_or_refusal(source).map_err(|refusal| refuse(refusal, source, bench))
}

/// The supervisor of a sheet; a refusal is said.
pub fn supervisor(source: &Source, bench: &mut Bench) -> Result<Supervisor, Stop> {
    Supervisor::make(&source.bytes, &mut Work::new())
        .map_err(|refusal| refuse(refusal, source, bench))
}

/// The forecast of a sheet; a refusal is said.
pub fn forecast(source: &Source, bench: &mut Bench) -> Result<Forecast, Stop> {
    Forecast::make(&source.bytes, &mut Work::new())
        .map_err(|refusal| refuse(refusal, source, bench))
}

/// The play that beats a sheet; a refusal is said.
pub fn forced(source: &Source, bench: &mut Bench) -> Result<Forced, Stop> {
    Forced::make(&source.bytes, &mut Work::new()).map_err(|refusal| refuse(refusal, source, bench))
}

/// Whether the refusal is found in the records of a sheet, so that its bytes are none.
pub fn is_of_records(refusal: Refusal) -> bool {
    refusal.number() <= Refusal::LongHorizon.number()
}

/// Says a refusal 1 to 6; other sheets are sheets, whatever becomes of them.
pub fn in_bounds(source: &Source, bench: &mut Bench) -> Outcome {
    match Supervisor::make(&source.bytes, &mut Work::new()) {
        Err(refusal) if is_of_records(refusal) => Err(refuse(refusal, source, bench)),
        _ => Ok(()),
    }
}

/// Says a refusal in words.
pub fn refuse(refusal: Refusal, source: &Source, bench: &mut Bench) -> Stop {
    bench.say(format!("{}: {refusal}", source.file));
    hint(refusal, source, bench);
    if refusal == Refusal::Unrealizable {
        bench.say("how it is beaten is told by: guard forced FILE");
    }
    Stop::Refused
}

/// What may help beside a refusal: what the file was taken for, where its bytes are no sheet or table.
pub fn hint(refusal: Refusal, source: &Source, bench: &mut Bench) {
    if is_of_records(refusal) || refusal == Refusal::BadTable {
        bench.say(format!("{}: {}", source.file, source.reason()));
    }
    if is_of_records(refusal) {
        if let Some(table) = source.table_kind() {
            bench.say(format!("it begins as a {table} table does, and a sheet is asked for here"));
        }
    }
}
