//! Folders of tests, which go when the test ends.

use std::path::{Path, PathBuf};

pub struct Room(PathBuf);

impl Room {
    pub fn new(name: &str) -> Room {
        let path = std::env::temp_dir().join(format!("hosts-{}-{name}", std::process::id()));
        std::fs::create_dir_all(&path).expect("a folder of a test");
        Room(path)
    }

    pub fn path(&self) -> &Path {
        &self.0
    }
}

impl Drop for Room {
    fn drop(&mut self) {
        let _ = std::fs::remove_dir_all(&self.0);
    }
}
