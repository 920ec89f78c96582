//! A folder for the files that PROJ reads, removed with all in it at the end.

use std::path::PathBuf;
use std::sync::atomic::{AtomicU32, Ordering};
use std::{env, fs, process};

pub struct Folder(pub PathBuf);

/// Folders made by this process.
static MADE: AtomicU32 = AtomicU32::new(0);

impl Folder {
    pub fn new() -> Folder {
        let (process, made) = (process::id(), MADE.fetch_add(1, Ordering::Relaxed));
        let folder = env::temp_dir().join(format!("marker-bench-{process}-{made}"));
        fs::create_dir_all(&folder).expect("a temporary folder");
        Folder(folder)
    }
}

impl Drop for Folder {
    fn drop(&mut self) {
        fs::remove_dir_all(&self.0).expect("the temporary folder is ours");
    }
}
