//! The file of `-o`: nothing that was there is lost, whatever happens while the answer is written.

use super::input::behind_at;
use std::ffi::{OsStr, OsString};
use std::io::{Error, ErrorKind, Write};
use std::path::{Path, PathBuf};

/// Writes the answer beside the file and moves it into place, so that a full disk or a kill leaves the old file whole.
/// What is no file of the disk, as a terminal, is written as it is.
pub fn keep(file: &OsStr, bytes: &[u8]) -> std::io::Result<()> {
    let path = Path::new(file);
    let old = match std::fs::metadata(path) {
        Ok(found) if !found.is_file() && !found.is_dir() => return std::fs::write(path, bytes),
        Ok(found) if found.is_dir() => return Err(Error::new(ErrorKind::IsADirectory, "it is a folder")),
        Ok(found) => Some(found),
        Err(_) if path.is_symlink() => return Err(Error::new(ErrorKind::NotFound, "it is a link that leads nowhere")),
        Err(_) => None,
    };
    // A link stays a link: the file that it leads to is the one that is replaced.
    let place = if old.is_some() { std::fs::canonicalize(path)? } else { path.to_path_buf() };
    let beside = beside(&place)?;
    let written = write_new(&beside, bytes).and_then(|()| match old {
        Some(old) => std::fs::set_permissions(&beside, old.permissions()),
        None => Ok(()),
    });
    written.and_then(|()| std::fs::rename(&beside, &place)).inspect_err(|_| {
        // It is this run's own file; if it can't be taken away either there is nothing more to do.
        let _ = std::fs::remove_file(&beside);
    })
}

/// A name of this run's own in the same folder.
fn beside(place: &Path) -> std::io::Result<PathBuf> {
    let Some(name) = place.file_name() else { return Err(Error::new(ErrorKind::InvalidInput, "it names no file")) };
    let mut own = OsString::from(".");
    own.push(name);
    own.push(format!(".{}.part", std::process::id()));
    Ok(place.with_file_name(own))
}

fn write_new(file: &Path, bytes: &[u8]) -> std::io::Result<()> {
    let mut open = std::fs::File::options().write(true).create_new(true).open(file)?;
    open.write_all(bytes)?;
    // A disk that is full may say so only now.
    open.sync_all()
}

/// Whether the file of `-o` is one of those that these words read, by whatever name or link, or standard input.
pub fn is_read(out: &OsStr, words: &[OsString]) -> bool {
    let Some(out) = identity(std::fs::metadata(out)) else { return false };
    words.iter().any(|word| {
        let file = behind_at(word).unwrap_or_else(|| word.clone());
        let found = if file == "-" { standard_input() } else { identity(std::fs::metadata(file)) };
        found == Some(out) || identity(std::fs::metadata(word)) == Some(out)
    })
}

/// Device and inode, which all names of a file of the disk share. A terminal may be read and written in one go.
#[cfg(unix)]
fn identity(found: std::io::Result<std::fs::Metadata>) -> Option<(u64, u64)> {
    use std::os::unix::fs::MetadataExt;
    found.ok().filter(|found| found.is_file()).map(|found| (found.dev(), found.ino()))
}

#[cfg(unix)]
fn standard_input() -> Option<(u64, u64)> {
    use std::os::fd::AsFd;
    let own = std::io::stdin().as_fd().try_clone_to_owned().ok()?;
    identity(std::fs::File::from(own).metadata())
}

/// Systems of another kind have no such numbers in the standard library: there only the same name is known.
#[cfg(not(unix))]
fn identity(_: std::io::Result<std::fs::Metadata>) -> Option<(u64, u64)> {
    None
}

#[cfg(not(unix))]
fn standard_input() -> Option<(u64, u64)> {
    None
}
