//! Reading inputs, and writing outputs so that a full medium leaves the old file.

use std::fs::{self, File, OpenOptions};
use std::io::{self, IsTerminal, Read, Write};
use std::path::{Path, PathBuf};
use std::process;

use crate::failure::Failure;

/// Standard input or standard output.
pub const STANDARD: &str = "-";

/// The bytes of a file, or of standard input.
pub fn read(name: &str) -> Result<Vec<u8>, Failure> {
    if name != STANDARD {
        return fs::read(name).map_err(|error| Failure::File(format!("cannot read {name}: {error}")));
    }
    if io::stdin().is_terminal() {
        return Err(Failure::Use("name a file, or hand one over on standard input".to_owned()));
    }
    let mut bytes = Vec::new();
    match io::stdin().lock().read_to_end(&mut bytes) {
        Ok(_) => Ok(bytes),
        Err(error) => Err(Failure::File(format!("cannot read standard input: {error}"))),
    }
}

/// An output that is the input too would cost it: an image is no text, and a text has no spans.
pub fn apart(input: Option<&str>, output: Option<&str>) -> Result<(), Failure> {
    let real = |name: Option<&str>| name.and_then(|name| fs::canonicalize(name).ok());
    match (real(input), real(output)) {
        (Some(input), Some(output)) if input == output => {
            Err(Failure::Use(format!("{} would be lost: name another file for the output", input.display())))
        }
        _ => Ok(()),
    }
}

/// Writes a file whole or not at all: what was there stays if the medium is full.
pub fn write(name: &str, bytes: &[u8]) -> Result<(), Failure> {
    let path = fs::canonicalize(name).unwrap_or_else(|_| name.into());
    let (done, left) = match fs::metadata(&path) {
        Ok(old) if !old.is_file() => (write_through(&path, bytes), ""),
        Ok(old) => (replace(&path, bytes, Some(old)), "; the file that was there is as it was"),
        Err(_) => (replace(&path, bytes, None), ""),
    };
    done.map_err(|error| Failure::File(format!("cannot write {name}: {error}{left}")))
}

/// A device or a pipe cannot be replaced, only written to.
fn write_through(path: &Path, bytes: &[u8]) -> io::Result<()> {
    let mut file = OpenOptions::new().write(true).open(path)?;
    file.write_all(bytes)?;
    file.flush()
}

/// Writes a file beside the one that is meant, and renames it once it is on the medium.
fn replace(path: &Path, bytes: &[u8], old: Option<fs::Metadata>) -> io::Result<()> {
    let beside = beside(path);
    let written = write_new(&beside, bytes, old).and_then(|()| fs::rename(&beside, path));
    if written.is_err() {
        // There may be none; the first error is the one to tell.
        let _ = fs::remove_file(&beside);
    }
    written
}

fn beside(path: &Path) -> PathBuf {
    let name = path.file_name().unwrap_or_default().to_string_lossy();
    path.with_file_name(format!(".{name}.{}.new", process::id()))
}

fn write_new(path: &Path, bytes: &[u8], old: Option<fs::Metadata>) -> io::Result<()> {
    let mut file = File::create_new(path)?;
    file.write_all(bytes)?;
    if let Some(old) = old {
        file.set_permissions(old.permissions())?;
    }
    file.sync_all()
}

/// Writes to standard output; a reader that has seen enough is no error.
pub fn print(bytes: &[u8]) -> Result<(), Failure> {
    let mut output = io::stdout().lock();
    match output.write_all(bytes).and_then(|()| output.flush()) {
        Err(error) if error.kind() != io::ErrorKind::BrokenPipe => {
            Err(Failure::File(format!("cannot write to standard output: {error}")))
        }
        _ => Ok(()),
    }
}
