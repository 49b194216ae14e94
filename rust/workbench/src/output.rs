//! Files that appear whole or not at all.

use std::ffi::OsStr;
use std::fs::{self, File};
use std::io::{self, Write};
use std::path::{Path, PathBuf};

use crate::bench::{Bench, Outcome, Stop};

/// How many links are followed, and how many names are tried beside a file.
const TRIES: usize = 40;

/// A file that is read is not written over: the text of a sheet would be lost for its bytes.
pub fn keep_apart(file: &OsStr, out: Option<&OsStr>) -> Outcome {
    let same = |out: &OsStr| match (fs::canonicalize(file), fs::canonicalize(out)) {
        (Ok(file), Ok(out)) => file == out && out.is_file(),
        _ => false,
    };
    match out.is_some_and(|out| out != "-" && same(out)) {
        true => Err(Stop::Use("OUT is FILE, which would be lost".into())),
        false => Ok(()),
    }
}

/// Writes bytes to a file, or to standard output where none or `-` is named.
pub fn write(out: Option<&OsStr>, bytes: &[u8], bench: &mut Bench) -> Outcome {
    match out.filter(|out| *out != "-") {
        None => bench.out.write_all(bytes)?,
        Some(file) => {
            let name = file.to_string_lossy();
            write_file(Path::new(file), bytes)
                .map_err(|error| Stop::File(format!("{name}: {error}")))?;
            bench.say(format!("{name}: {} bytes", bytes.len()));
        }
    }
    Ok(())
}

/// Writes beside the file and then moves into its place; of a link the target is replaced, not the
/// link. What is no file, as a terminal or a pipe, is written to as it is.
fn write_file(file: &Path, bytes: &[u8]) -> io::Result<()> {
    if fs::metadata(file).is_ok_and(|metadata| !metadata.is_file()) {
        return fs::OpenOptions::new().write(true).open(file)?.write_all(bytes);
    }
    let target = target(file)?;
    let (mut new, beside) = create_beside(&target)?;
    let written = new.write_all(bytes).and_then(|()| new.sync_all()).and_then(|()| {
        if let Ok(metadata) = fs::metadata(&target) {
            fs::set_permissions(&beside, metadata.permissions())?;
        }
        fs::rename(&beside, &target)
    });
    if written.is_err() {
        let _ = fs::remove_file(&beside);
    }
    written
}

/// What a chain of links leads to, be it there or not.
fn target(file: &Path) -> io::Result<PathBuf> {
    let mut target = file.to_path_buf();
    for _ in 0..TRIES {
        match fs::read_link(&target) {
            Ok(next) => target = target.with_file_name("").join(next),
            Err(_) => return Ok(target),
        }
    }
    Err(io::Error::other("too many links"))
}

/// A new file beside the target, under a name that nobody had.
fn create_beside(target: &Path) -> io::Result<(File, PathBuf)> {
    let mut created = Err(io::ErrorKind::AlreadyExists.into());
    for number in 0..TRIES {
        let name = format!(".guard.{}.{number}.part", std::process::id());
        let beside = target.with_file_name(name);
        created = File::create_new(&beside).map(|new| (new, beside));
        match &created {
            Err(error) if error.kind() == io::ErrorKind::AlreadyExists => {}
            _ => break,
        }
    }
    created
}
