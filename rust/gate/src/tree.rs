//! Files of the repository.

use std::fs;
use std::path::{Path, PathBuf};

/// The text of a file, or none where it cannot be read.
pub fn read(path: &Path) -> Option<String> {
    let bytes = fs::read(path).ok()?;
    Some(String::from_utf8_lossy(&bytes).into_owned())
}

/// The entries of a folder, in order; none where it is missing.
pub fn entries(folder: &Path) -> Vec<PathBuf> {
    let Ok(entries) = fs::read_dir(folder) else {
        return Vec::new();
    };
    let mut paths: Vec<PathBuf> = entries.flatten().map(|entry| entry.path()).collect();
    paths.sort();
    paths
}

/// The files of a folder that end in `.extension`, in order.
pub fn files(folder: &Path, extension: &str) -> Vec<PathBuf> {
    let mut paths = entries(folder);
    paths.retain(|path| path.is_file() && path.extension().is_some_and(|end| end == extension));
    paths
}

/// All files below a folder, but for those of build folders.
pub fn files_below(folder: &Path) -> Vec<PathBuf> {
    let mut found = Vec::new();
    for path in entries(folder) {
        if path.is_dir() {
            if path.file_name().is_some_and(|name| name != "target") {
                found.extend(files_below(&path));
            }
        } else {
            found.push(path);
        }
    }
    found
}

/// The name of a file without its extension.
pub fn stem(path: &Path) -> String {
    let stem = path.file_stem().unwrap_or_default();
    stem.to_string_lossy().into_owned()
}

/// A folder of files for a test, one of its own for each sample.
#[cfg(test)]
pub struct Sample(PathBuf);

#[cfg(test)]
static SAMPLES: std::sync::atomic::AtomicUsize = std::sync::atomic::AtomicUsize::new(0);

#[cfg(test)]
impl Sample {
    pub fn of(files: &[(&str, &str)]) -> Self {
        let number = SAMPLES.fetch_add(1, std::sync::atomic::Ordering::Relaxed);
        let folder = format!("felknost-gate-{}-{number}", std::process::id());
        let root = std::env::temp_dir().join(folder);
        for (path, text) in files {
            let path = root.join(path);
            fs::create_dir_all(path.parent().expect("a folder")).expect("a folder is made");
            fs::write(path, text).expect("a file is written");
        }
        Sample(root)
    }

    pub fn root(&self) -> &Path {
        &self.0
    }
}

#[cfg(test)]
impl Drop for Sample {
    fn drop(&mut self) {
        let _ = fs::remove_dir_all(&self.0);
    }
}
