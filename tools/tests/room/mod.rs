//! A folder of a test's own, outside the checkout: where 'rt ci' runs, it refuses links, sources and
//! a crates.txt anywhere but in their places.

use std::ops::Deref;
use std::path::{Path, PathBuf};
use std::{env, fs, process};

pub struct Room(PathBuf);

impl Room {
    pub fn new(name: &str) -> Room {
        let own = env::temp_dir().join(format!("balduqen-{}-{name}", process::id()));
        let _ = fs::remove_dir_all(&own);
        // a test may go by its folder's name
        let folder = own.join(name);
        fs::create_dir_all(&folder).expect("a folder");
        Room(folder)
    }
}

impl Deref for Room {
    type Target = Path;

    fn deref(&self) -> &Path {
        &self.0
    }
}

impl Drop for Room {
    fn drop(&mut self) {
        let own = self.0.parent().expect("the room's own folder");
        let _ = fs::remove_dir_all(own);
    }
}
