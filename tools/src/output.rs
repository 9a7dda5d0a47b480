//! Files written whole or not at all: first each beside its place, then all of them put there.

use crate::same_file::{descriptor, duplicate, end_of_links, folder_of};
use crate::stop::Stop;
use std::fs::{self, File};
use std::io::{self, ErrorKind, Write};
use std::path::{Path, PathBuf};
use std::process;

/// A file to be written.
#[derive(Clone, Debug, PartialEq, Eq)]
pub struct Output {
    pub file: String,
    pub bytes: Vec<u8>,
}

/// A file that stands beside its place. Unless it is put there, it goes.
struct Beside<'a> {
    file: &'a str,
    path: PathBuf,
    place: PathBuf,
}

impl Drop for Beside<'_> {
    fn drop(&mut self) {
        let _ = fs::remove_file(&self.path);
    }
}

pub fn write_all(outputs: &[Output]) -> Result<(), Stop> {
    let mut beside = vec![];
    let mut open = vec![];
    for output in outputs {
        let place = place_of(&output.file).map_err(|error| Stop::of_file(&output.file, &error))?;
        match place {
            Some(place) => beside.push(write_beside(output, place)?),
            None => open.push(output),
        }
    }
    for Beside { file, path, place } in &beside {
        fs::rename(path, place).map_err(|error| Stop::of_file(file, &error))?;
    }
    for Output { file, bytes } in open {
        let opened = match descriptor(file) {
            Some(descriptor) => duplicate(descriptor),
            None => File::options().append(true).open(file),
        };
        let put = opened.and_then(|mut file| file.write_all(bytes));
        put.map_err(|error| Stop::of_file(file, &error))?;
    }
    Ok(())
}

/// Where the file is to stand: where a link leads to. What is open already, or is there and no file,
/// as a terminal, has no place beside it and is written as it is.
fn place_of(file: &str) -> io::Result<Option<PathBuf>> {
    if descriptor(file).is_some() {
        return Ok(None);
    }
    match fs::metadata(file) {
        Ok(data) if data.is_dir() => Err(io::Error::other("it is a folder")),
        Ok(data) if !data.is_file() => Ok(None),
        // Where it may not be written, it may not be put in another's place either.
        Ok(_) => {
            File::options().append(true).open(file)?;
            fs::canonicalize(file).map(Some)
        }
        Err(_) => end_of_links(Path::new(file)).map(Some),
    }
}

fn write_beside(output: &Output, place: PathBuf) -> Result<Beside<'_>, Stop> {
    let file = output.file.as_str();
    let (path, mut opened) =
        open_beside(folder_of(&place)).map_err(|error| match error.kind() {
            ErrorKind::PermissionDenied => {
                Stop::of_file(file, &io::Error::other("its folder cannot be written"))
            }
            _ => Stop::of_file(file, &error),
        })?;
    let beside = Beside { file, path, place };
    let filled = fill(&mut opened, &output.bytes, &beside.place);
    filled.map_err(|error| Stop::of_file(file, &error))?;
    Ok(beside)
}

/// A file that was there keeps who may read and write it.
fn fill(file: &mut File, bytes: &[u8], place: &Path) -> io::Result<()> {
    file.write_all(bytes)?;
    if let Ok(data) = fs::metadata(place) {
        file.set_permissions(data.permissions())?;
    }
    file.sync_all()
}

/// A new file in a folder. One that was left by another, whatever its number, is let be.
fn open_beside(folder: &Path) -> io::Result<(PathBuf, File)> {
    let mut number = 1;
    loop {
        let path = folder.join(format!(".balduqen.{}.{number}", process::id()));
        match File::create_new(&path) {
            Err(error) if error.kind() == ErrorKind::AlreadyExists => number += 1,
            opened => return Ok((path, opened?)),
        }
    }
}
