//! Writing files, so that each is whole or as it was.
use crate::failure::{Failure, Outcome, DONE};
use crate::{output, text};
use std::ffi::{OsStr, OsString};
use std::fs::{self, File, Metadata, OpenOptions};
use std::io::{self, Write};
use std::os::unix::ffi::OsStrExt;
use std::os::unix::fs::MetadataExt;
use std::path::{Path, PathBuf};
use std::process;

/// The system's numbers of two errors that no call of the system tells here.
const NO_SUCH_FILE: i32 = 2;
const IS_A_DIRECTORY: i32 = 21;

/// Bytes of a file's name that its temporary's name keeps, of the 255 that a name has at most.
const NAME_KEPT: usize = 200;

/// As many links as the system follows.
const LINKS_MOST: usize = 40;

/// Writes what `-o` names, and says on standard output what it is, unless it went there itself.
pub fn deliver(out: &OsStr, bytes: &[u8], what: &str) -> Outcome {
    put(out, bytes)?;
    if out != "-" {
        output::print(format!("{}: {what}\n", text::name(out)).as_bytes())?;
    }
    Ok(DONE)
}

/// Writes what `-o` names.
pub fn put(out: &OsStr, bytes: &[u8]) -> Result<(), Failure> {
    if out == "-" {
        output::print(bytes)
    } else {
        write(out, bytes)
    }
}

/// Writes a file: a regular one is replaced, a link followed, anything else written to.
pub fn write(path: &OsStr, bytes: &[u8]) -> Result<(), Failure> {
    written(Path::new(path), bytes).map_err(|error| Failure::io(&text::name(path), &error))
}

fn written(path: &Path, bytes: &[u8]) -> io::Result<()> {
    match fs::metadata(path) {
        Ok(old) if old.is_file() => replace(&fs::canonicalize(path)?, Some(&old), bytes),
        Ok(_) => OpenOptions::new().write(true).open(path)?.write_all(bytes),
        Err(error) if error.kind() == io::ErrorKind::NotFound => replace(&followed(path), None, bytes),
        Err(error) => Err(error),
    }
}

/// Where links lead whose target does not exist.
fn followed(path: &Path) -> PathBuf {
    let mut at = path.to_path_buf();
    for _ in 0..LINKS_MOST {
        let Ok(next) = fs::read_link(&at) else { break };
        at = folder_of(&at).join(next);
    }
    at
}

/// Puts a file in the place of the old one, or of none, by a temporary beside it.
fn replace(path: &Path, old: Option<&Metadata>, bytes: &[u8]) -> io::Result<()> {
    if old.is_some_and(|old| old.mode() & 0o222 == 0) {
        return Err(io::Error::other("it is write-protected"));
    }
    let name = temporary_name(path)?;
    let temporary = folder_of(path).join(&name);
    let folder = File::open(folder_of(path))?;
    let made = OpenOptions::new().write(true).create_new(true).open(&temporary).map_err(|error| unless_there(error, &name))?;
    let moved = fill(made, old, bytes).and_then(|()| fs::rename(&temporary, path));
    if moved.is_err() {
        let _ = fs::remove_file(&temporary);
    }
    moved?;
    sync_folder(&folder)
}

fn fill(mut file: File, old: Option<&Metadata>, bytes: &[u8]) -> io::Result<()> {
    if let Some(old) = old {
        file.set_permissions(old.permissions())?;
    }
    file.write_all(bytes)?;
    file.sync_all()
}

/// Some file systems cannot sync a folder, and say that the call is invalid; there is nothing to wait for there.
fn sync_folder(folder: &File) -> io::Result<()> {
    match folder.sync_all() {
        Err(error) if error.kind() == io::ErrorKind::InvalidInput => Ok(()),
        synced => synced,
    }
}

/// A temporary that is there already is another's, and has to be named to be found.
fn unless_there(error: io::Error, name: &OsStr) -> io::Error {
    match error.kind() {
        io::ErrorKind::AlreadyExists => io::Error::other(format!("{}: {error}", text::name(name))),
        _ => error,
    }
}

/// `.NAME.PID.tmp`, with NAME cut where the whole would be longer than a name can be, unless the path names a folder or nothing.
fn temporary_name(path: &Path) -> io::Result<OsString> {
    let name = path.file_name().ok_or_else(|| io::Error::from_raw_os_error(NO_SUCH_FILE))?;
    if !path.as_os_str().as_bytes().ends_with(name.as_bytes()) {
        return Err(io::Error::from_raw_os_error(IS_A_DIRECTORY));
    }
    let mut temporary = OsString::from(".");
    temporary.push(OsStr::from_bytes(name.as_bytes().get(..NAME_KEPT).unwrap_or(name.as_bytes())));
    temporary.push(format!(".{}.tmp", process::id()));
    Ok(temporary)
}

/// Whether the folder is there in which a file would be made.
pub fn has_folder(path: &OsStr) -> bool {
    folder_of(&followed(Path::new(path))).is_dir()
}

fn folder_of(path: &Path) -> &Path {
    match path.parent() {
        Some(folder) if !folder.as_os_str().is_empty() => folder,
        _ => Path::new("."),
    }
}
