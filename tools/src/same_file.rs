//! Which names are one file, whatever their spelling: by device and inode or, where nothing is
//! there yet, by the folder's and the name in it. '-' is standard input, and as an output standard
//! output.

use std::ffi::OsString;
use std::fs::{self, File, Metadata};
use std::io::{self, stdin, stdout};
use std::os::fd::{AsFd, BorrowedFd, RawFd};
use std::os::unix::fs::{FileTypeExt, MetadataExt};
use std::path::{Path, PathBuf};

/// More links one after the other than a system follows.
const MOST_LINKS: usize = 40;

/// Device and inode.
type Place = (u64, u64);

/// An output by what the system knows it by. Two that are equal are one.
#[derive(Debug, PartialEq, Eq)]
enum Identity {
    There(Place),
    New { folder: Place, name: OsString },
}

/// Whether an output would be written over a file that is read.
pub fn overwrites(output: &str, input: &str) -> bool {
    let input = input_data(input).filter(keeps);
    let input = input.map(|data| Identity::There(place(&data)));
    input.is_some() && identity(output) == input
}

/// Whether two inputs are one that can be read once only, as a pipe.
pub fn are_one_stream(input: &str, other: &str) -> bool {
    let stream = |input| {
        let data = input_data(input)?;
        let is_stream = data.file_type().is_fifo() || data.file_type().is_socket();
        is_stream.then(|| place(&data))
    };
    let both_standard = [input, other] == ["-", "-"];
    both_standard || stream(input).is_some_and(|one| stream(other) == Some(one))
}

/// Whether two outputs would be one. What keeps nothing, as a terminal, may be written twice.
pub fn are_one(output: &str, other: &str) -> bool {
    let standard = [output, other].map(is_standard_output);
    let counts = |data: &Metadata| match standard.contains(&true) {
        true => keeps(data),
        false => !data.file_type().is_char_device(),
    };
    let is_one = || identity(output).is_some_and(|one| identity(other) == Some(one));
    standard == [true, true] || (output_data(output).is_none_or(|data| counts(&data)) && is_one())
}

/// Whether an output is standard output: '-', or a name that leads to it.
pub fn is_standard_output(output: &str) -> bool {
    output == "-" || descriptor(output) == Some(1)
}

/// The number of an open file, where a name leads to one: 3 for '/dev/fd/3'.
pub fn descriptor(file: &str) -> Option<RawFd> {
    let open = ["/proc/self/fd", "/proc/thread-self/fd"].map(|path| fs::canonicalize(path).ok());
    let mut path = PathBuf::from(file);
    for _ in 0..MOST_LINKS {
        if open.contains(&Some(fs::canonicalize(folder_of(&path)).ok()?)) {
            let number = path.file_name()?.to_str()?;
            return number
                .parse()
                .ok()
                .filter(|&open: &RawFd| number == open.to_string());
        }
        path = next_of(&path).ok()?;
    }
    None
}

/// An open file by its number, to be written on from where it is.
pub fn duplicate(descriptor: RawFd) -> io::Result<File> {
    // Opened anew by its name, it would have a place of its own, and who writes on it next would
    // write over what is put here. SAFETY: it is open, as its name was there, and nothing here closes
    // what it has not opened; if it is not, duplicating it fails.
    let open = unsafe { BorrowedFd::borrow_raw(descriptor) };
    open.try_clone_to_owned().map(File::from)
}

fn input_data(input: &str) -> Option<Metadata> {
    match input {
        "-" => data_of(stdin().as_fd()),
        _ => fs::metadata(input).ok(),
    }
}

fn output_data(output: &str) -> Option<Metadata> {
    match output {
        "-" => data_of(stdout().as_fd()),
        _ => fs::metadata(output).ok(),
    }
}

fn data_of(file: BorrowedFd) -> Option<Metadata> {
    let file = File::from(file.try_clone_to_owned().ok()?);
    file.metadata().ok()
}

/// Whether what is written there stays there, and can be lost.
fn keeps(data: &Metadata) -> bool {
    data.is_file() || data.file_type().is_block_device()
}

fn place(data: &Metadata) -> Place {
    (data.dev(), data.ino())
}

/// None where nothing can be written, since there is no such folder.
fn identity(output: &str) -> Option<Identity> {
    if let Some(data) = output_data(output) {
        return Some(Identity::There(place(&data)));
    }
    let path = end_of_links(Path::new(output)).ok()?;
    let folder = fs::metadata(folder_of(&path)).ok()?;
    Some(Identity::New {
        folder: place(&folder),
        name: path.file_name()?.to_os_string(),
    })
}

/// The folder that a file stands in.
pub fn folder_of(path: &Path) -> &Path {
    match path.parent() {
        Some(folder) if folder != Path::new("") => folder,
        _ => Path::new("."),
    }
}

/// Where a link leads to.
fn next_of(link: &Path) -> io::Result<PathBuf> {
    Ok(folder_of(link).join(fs::read_link(link)?))
}

/// Where links lead to in the end, be a file there or not.
pub fn end_of_links(path: &Path) -> io::Result<PathBuf> {
    let mut path = path.to_path_buf();
    for _ in 0..MOST_LINKS {
        match next_of(&path) {
            Ok(next) => path = next,
            Err(_) => return Ok(path),
        }
    }
    Err(io::Error::other("too many links"))
}
