//! What is written to files: nothing is overwritten unless that is asked for.

use std::collections::BTreeMap;
use std::fs::{File, OpenOptions};
use std::io::{BufWriter, Write};
use std::path::Path;
use std::sync::Mutex;

use crate::record::Record;

/// Looks whether files may be written, before any of them is made.
///
/// # Errors
///
/// A line that says which may not.
pub fn free(json: Option<&Path>, report: Option<&Path>, force: bool) -> Result<(), String> {
    if json.is_some() && json == report {
        return Err("--json and --report name the same file".to_owned());
    }
    let mut named = [json, report].into_iter().flatten();
    match named.find(|path| !force && path.exists()) {
        Some(path) => Err(exists(path)),
        None => Ok(()),
    }
}

fn exists(path: &Path) -> String {
    format!("{} exists; --force overwrites it", path.display())
}

/// Makes a file to write to.
///
/// # Errors
///
/// A line that says why not.
pub fn create(path: &Path, force: bool) -> Result<File, String> {
    let mut options = OpenOptions::new();
    options.write(true);
    if force {
        options.create(true).truncate(true);
    } else {
        options.create_new(true);
    }
    options.open(path).map_err(|error| match error.kind() {
        std::io::ErrorKind::AlreadyExists => exists(path),
        _ => format!("{} cannot be written: {error}", path.display()),
    })
}

/// JSON lines, written in order of their seeds as soon as all before are there.
pub struct Lines {
    inner: Mutex<Ordered>,
}

struct Ordered {
    file: BufWriter<File>,
    next: u64,
    waiting: BTreeMap<u64, String>,
    failed: Option<std::io::Error>,
}

impl Lines {
    /// From this seed on.
    pub fn new(file: File, next: u64) -> Self {
        let file = BufWriter::new(file);
        Lines {
            inner: Mutex::new(Ordered {
                file,
                next,
                waiting: BTreeMap::new(),
                failed: None,
            }),
        }
    }

    /// Takes a run's line.
    pub fn put(&self, record: &Record) {
        let line = serde_json::to_string(record).unwrap_or_default();
        if let Ok(mut inner) = self.inner.lock() {
            inner.waiting.insert(record.seed, line);
            inner.write();
        }
    }

    /// All runs are there.
    ///
    /// # Errors
    ///
    /// A line could not be written.
    pub fn close(self) -> Result<(), String> {
        let Ok(mut inner) = self.inner.into_inner() else {
            return Ok(());
        };
        let failed = inner.failed.take();
        let closed = failed.map_or_else(|| inner.file.flush(), Err);
        closed.map_err(|error| format!("the JSON lines cannot be written: {error}"))
    }
}

impl Ordered {
    /// Writes what is next.
    fn write(&mut self) {
        while let Some(line) = self.waiting.remove(&self.next) {
            self.next += 1;
            let written = writeln!(self.file, "{line}").and_then(|()| self.file.flush());
            self.failed = self.failed.take().or(written.err());
        }
    }
}
