//! The program: `hoardmagpie close SCAN -o MESH`.
mod card;
mod elapsed;
mod words;

use hoardmagpie::{mesh_file, picture, reconstruct, scan};
use std::ffi::OsString;
use std::io::Write;
use std::path::Path;
use std::process::ExitCode;
use std::time::Instant;
use std::{env, fs};
use words::{help, read_job, usage, Job};

/// Why the program ends without a job card: one line, and the status.
struct Failure {
    line: String,
    status: u8,
}

/// The work cannot be done.
fn failure(line: String) -> Failure {
    Failure { line, status: 1 }
}

/// Whether both names lead to one file: neither the mesh nor the picture must take the scan's place.
fn same_file(a: &Path, b: &Path) -> bool {
    matches!((a.canonicalize(), b.canonicalize()), (Ok(a), Ok(b)) if a == b)
}

/// Refuses to write over the scan, before any work is done.
fn spare_scan(job: &Job) -> Result<(), Failure> {
    let name = job.scan.display();
    if same_file(&job.scan, &job.mesh) {
        return Err(failure(format!("{name}: the mesh would replace the scan")));
    }
    if job.picture.as_ref().is_some_and(|picture| same_file(&job.scan, picture)) {
        return Err(failure(format!("{name}: the picture would replace the scan")));
    }
    Ok(())
}

/// Reads the scan, closes it, writes what was asked for, and tells the job card.
fn close(job: &Job) -> Result<String, Failure> {
    spare_scan(job)?;
    let name = job.scan.display();
    let bytes = fs::read(&job.scan).map_err(|e| failure(format!("{name}: {e}")))?;
    let points = scan::read(&bytes).map_err(|e| failure(format!("{name}: {e}")))?;
    let start = Instant::now();
    let mesh = reconstruct(&points, &job.settings).map_err(|e| failure(format!("{name}: {e}")))?;
    let time = start.elapsed();
    mesh_file::write(&mesh, job.format, &job.mesh).map_err(|e| failure(format!("{}: {e}", job.mesh.display())))?;
    if let Some(path) = &job.picture {
        let drawn = picture::scan_and_mesh(&points, &mesh).write_png(path);
        drawn.map_err(|e| failure(format!("{}: {e}; the mesh is written", path.display())))?;
    }
    Ok(card::card(job, points.len(), &mesh, time))
}

fn run(words: &[OsString]) -> Result<String, Failure> {
    let Some((command, rest)) = words.split_first() else {
        return usage("nothing to do");
    };
    match command.to_string_lossy().as_ref() {
        "close" => {
            let job = read_job(rest)?;
            elapsed::shown(|| close(&job))
        }
        "help" | "--help" | "-h" => Ok(help()),
        other => usage(format!("`{other}` is no command")),
    }
}

fn main() -> ExitCode {
    let words: Vec<OsString> = env::args_os().skip(1).collect();
    match run(&words) {
        Ok(text) => {
            // The mesh is written: a reader who has gone away does not make that fail.
            let _ = std::io::stdout().write_all(text.as_bytes());
            ExitCode::SUCCESS
        }
        Err(Failure { line, status }) => {
            // One line, whatever the names of files hold.
            eprintln!("hoardmagpie: {}", line.replace(char::is_control, "?"));
            ExitCode::from(status)
        }
    }
}
