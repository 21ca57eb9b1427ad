//! What `rt check` says of each file of must-fail edits.
//!
//! `rt ci` tries these files too, but prints of each only a part of one error. Here each file is applied in a copy of the repository, and what `rt check` then says of
//! the crate is kept whole in `target/must-fail/CRATE/FILE.log`. The copies lie among the temporary files. `rt check` there begins with what other checks on this
//! machine kept of the same libraries, so in a gate it proves little but what an edit changed.

use std::fs::{self, File};
use std::path::{Path, PathBuf};
use std::process::{Command, Stdio};
use std::sync::atomic::{AtomicUsize, Ordering};
use std::sync::Mutex;
use std::{env, io, process, thread};

use crate::edit::{Edit, Texts};
use crate::tree;

/// The memory that a check is given, in kB.
const NEEDS: usize = 2_500_000;

/// The edits of a file.
pub type Check<'a> = Vec<&'a Edit>;

/// What `rt check` said of a check, or why it said nothing.
pub type Log = Result<String, String>;

/// The files of these edits, in their order.
pub fn checks(edits: &[Edit]) -> Vec<Check<'_>> {
    let mut checks: Vec<Check> = Vec::new();
    for edit in edits {
        match checks.last_mut() {
            Some(check) if check[0].krate == edit.krate && check[0].file == edit.file => {
                check.push(edit)
            }
            _ => checks.push(vec![edit]),
        }
    }
    checks
}

/// Tries all checks, as many at a time as there are processors and memory for, and gives what was said of each.
pub fn run_all(root: &Path, checks: &[Check]) -> Vec<Log> {
    let place = Place(env::temp_dir().join(format!("felknost-edits-{}", process::id())));
    let next = AtomicUsize::new(0);
    let logs: Mutex<Vec<Log>> = Mutex::new(vec![Err("it was not tried".to_string()); checks.len()]);
    let lane = |number: usize| {
        let copy = place.0.join(number.to_string());
        let copied = copy_crates(root, &copy);
        loop {
            let number = next.fetch_add(1, Ordering::Relaxed);
            let Some(check) = checks.get(number) else {
                return;
            };
            let log = match &copied {
                Ok(()) => run(root, &copy, check),
                Err(why) => Err(format!("the crates could not be copied: {why}")),
            };
            logs.lock().expect("no lane panics")[number] = log;
        }
    };
    let lane = &lane;
    thread::scope(|scope| {
        for number in 0..lanes(checks.len()) {
            scope.spawn(move || lane(number));
        }
    });
    logs.into_inner().expect("no lane panics")
}

/// What an earlier run kept of these checks.
pub fn kept(root: &Path, checks: &[Check]) -> Vec<Log> {
    let read =
        |check: &Check| tree::read(&log_of(root, check)).ok_or("there is no log of it".to_string());
    checks.iter().map(read).collect()
}

/// The temporary files of a run, which go with it.
struct Place(PathBuf);

impl Drop for Place {
    fn drop(&mut self) {
        let _ = fs::remove_dir_all(&self.0);
    }
}

/// How many checks run at a time.
fn lanes(most: usize) -> usize {
    let processors = thread::available_parallelism().map_or(1, |number| number.get());
    let memory = tree::read(Path::new("/proc/meminfo")).unwrap_or_default();
    let free = memory
        .lines()
        .find_map(|line| line.strip_prefix("MemAvailable:"));
    let free = free.and_then(|rest| rest.trim().strip_suffix(" kB")?.parse::<usize>().ok());
    let room = free.map_or(1, |free| free / NEEDS);
    processors.min(room).min(most).max(1)
}

/// Copies what `rt check` reads of a repository, without what it made there.
fn copy_crates(root: &Path, to: &Path) -> io::Result<()> {
    fs::create_dir_all(to)?;
    for name in ["crates.txt", "HANDLES"] {
        if root.join(name).exists() {
            fs::copy(root.join(name), to.join(name))?;
        }
    }
    for krate in tree::entries(&root.join("crates")) {
        for path in tree::entries(&krate) {
            if !path.ends_with("out") {
                copy(root, &path, to)?;
            }
        }
    }
    Ok(())
}

/// Copies a file or a folder to the same place below another top.
fn copy(root: &Path, path: &Path, to: &Path) -> io::Result<()> {
    let place = to.join(path.strip_prefix(root).map_err(io::Error::other)?);
    if path.is_dir() {
        fs::create_dir_all(&place)?;
        return tree::entries(path)
            .iter()
            .try_for_each(|path| copy(root, path, to));
    }
    fs::create_dir_all(place.parent().unwrap_or(to))?;
    fs::copy(path, &place).map(|_| ())
}

/// Where the log of a check is kept.
fn log_of(root: &Path, check: &Check) -> PathBuf {
    let edit = check[0];
    root.join(format!("target/must-fail/{}/{}.log", edit.krate, edit.file))
}

/// Applies the edits of a check in a copy of the crates, checks the crate there, and puts its files back.
fn run(root: &Path, copy: &Path, check: &Check) -> Log {
    let krate = copy.join("crates").join(&check[0].krate);
    // none of an earlier run is left where this one does not come so far
    let _ = fs::remove_file(log_of(root, check));
    let mut texts = Texts::new();
    for change in check.iter().flat_map(|edit| &edit.replacements) {
        change.make(&krate, &mut texts)?;
    }
    let were: Vec<(PathBuf, Option<String>)> = texts
        .keys()
        .map(|file| (krate.join(file), tree::read(&krate.join(file))))
        .collect();
    let write = |(path, text): (PathBuf, String)| {
        fs::write(&path, text).map_err(|why| format!("{}: {why}", path.display()))
    };
    let edited = texts
        .into_iter()
        .map(|(file, text)| (krate.join(file), text));
    let made = edited.into_iter().try_for_each(write);
    let log = made.and_then(|()| checked(&krate, &log_of(root, check)));
    let old = were
        .into_iter()
        .filter_map(|(path, text)| Some((path, text?)));
    old.into_iter().try_for_each(write).and(log)
}

/// What `rt check` says of the crate in a folder. It is kept in the file `log`.
fn checked(krate: &Path, log: &Path) -> Log {
    let ran = || -> io::Result<()> {
        fs::create_dir_all(log.parent().unwrap_or(log))?;
        let out = File::create(log)?;
        let mut check = Command::new("rt");
        check.args(["check", "--jobs", "1"]).current_dir(krate);
        check
            .stdin(Stdio::null())
            .stderr(out.try_clone()?)
            .stdout(out);
        check.status().map(|_| ())
    };
    ran().map_err(|why| format!("rt check could not be run: {why}"))?;
    tree::read(log).ok_or("its log cannot be read".to_string())
}

#[cfg(test)]
mod tests {
    use super::*;
    use crate::edit;
    use crate::tree::Sample;

    #[test]
    fn files_of_edits() {
        let one = edit::of_file(
            "bits",
            "batch",
            "# edit: a\nold: x\nnew: y\n# edit: b\nold: y\nnew: x\n",
        );
        let two = edit::of_file("bits", "other", "old: x\nnew: y\n");
        let three = edit::of_file("list", "other", "old: x\nnew: y\n");
        let edits: Vec<Edit> = [one, two, three].concat();
        let sizes: Vec<usize> = checks(&edits).iter().map(Vec::len).collect();
        assert_eq!(sizes, [2, 1, 1]);
    }

    #[test]
    fn crates_without_what_was_made() {
        let sample = Sample::of(&[
            ("crates.txt", "bits:\n"),
            ("crates/bits/src/lib.rt", "a"),
            ("crates/bits/proofs/a/Answers.antt", "b"),
            ("crates/bits/out/incremental/c", "c"),
            ("target/out/d", "d"),
        ]);
        let to = Sample::of(&[("e", "e")]);
        copy_crates(sample.root(), to.root()).expect("the crates are copied");
        let mut files = tree::files_below(to.root());
        files.iter_mut().for_each(|path| {
            *path = path
                .strip_prefix(to.root())
                .expect("a file below")
                .to_path_buf()
        });
        let files: Vec<String> = files
            .iter()
            .map(|path| path.display().to_string())
            .collect();
        assert_eq!(
            files,
            [
                "crates/bits/proofs/a/Answers.antt",
                "crates/bits/src/lib.rt",
                "crates.txt",
                "e"
            ]
        );
    }
}
