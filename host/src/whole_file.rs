//! Files that are whole under their name, or not there at all.
use std::fs::{self, File, OpenOptions};
use std::io::{self, BufWriter, Write};
use std::path::{Path, PathBuf};

/// A file under another name beside the one that is wanted. It is removed unless it is kept.
struct Unfinished {
    path: PathBuf,
    kept: bool,
}

impl Unfinished {
    fn create(wanted: &Path) -> io::Result<(Unfinished, File)> {
        let mut name = std::ffi::OsString::from(".");
        name.push(wanted.file_name().ok_or(io::ErrorKind::InvalidInput)?);
        name.push(format!(".{}.part", std::process::id()));
        let path = wanted.with_file_name(name);
        let file = OpenOptions::new().write(true).create_new(true).open(&path)?;
        Ok((Unfinished { path, kept: false }, file))
    }

    fn keep_as(mut self, wanted: &Path) -> io::Result<()> {
        fs::rename(&self.path, wanted)?;
        self.kept = true;
        Ok(())
    }
}

impl Drop for Unfinished {
    fn drop(&mut self) {
        if !self.kept {
            // There is nothing better to do where even this fails.
            let _ = fs::remove_file(&self.path);
        }
    }
}

/// Writes a file under a hidden name beside its own, and renames it when all of it is there.
pub(crate) fn write(path: &Path, content: impl FnOnce(&mut dyn Write) -> io::Result<()>) -> io::Result<()> {
    let (unfinished, file) = Unfinished::create(path)?;
    let mut out = BufWriter::new(file);
    content(&mut out)?;
    out.into_inner()?.sync_all()?;
    unfinished.keep_as(path)
}
