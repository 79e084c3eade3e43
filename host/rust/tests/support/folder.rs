//! A folder for a test's files.
use std::fs;
use std::path::{Path, PathBuf};
use std::process;

pub struct Folder(PathBuf);

impl Folder {
    /// An empty folder of that name within another, which goes when the test ends.
    pub fn new(within: &Path, name: &str) -> Folder {
        let folder = within.join(format!("{name}-{}", process::id()));
        // What an earlier run of the same number left is in the way.
        let _ = fs::remove_dir_all(&folder);
        fs::create_dir_all(&folder).unwrap();
        Folder(folder)
    }

    pub fn path(&self, name: &str) -> PathBuf {
        self.0.join(name)
    }

    pub fn names(&self) -> Vec<String> {
        let entries = fs::read_dir(&self.0).unwrap();
        let mut names: Vec<String> = entries.map(|entry| entry.unwrap().file_name().into_string().unwrap()).collect();
        names.sort();
        names
    }
}

impl Drop for Folder {
    fn drop(&mut self) {
        // What stays lies where such things are cleared away.
        let _ = fs::remove_dir_all(&self.0);
    }
}
