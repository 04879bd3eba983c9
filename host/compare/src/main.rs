//! ```text
//! compare short                  some thousand calls, a minute or two
//! compare full [THREADS]         at least 100,000 calls at depth 3 to 5, 500 at 6 and 7, 10 at 8
//! compare fuzz SECONDS [SEED]    other calls for as long as this
//! compare cases FOLDER           recorded cases
//! compare ring COUNT             a scan of the ring with a third missing, as PLY on standard output
//! ```
use calls::random::Random;
use calls::shapes;
use calls::{family, Call};
use compare::lending::compare_default;
use compare::tally::{at_depth, recorded, Tally};
use oracle::PoissonConfig;
use std::io::Write;
use std::path::Path;
use std::process::ExitCode;
use std::sync::Mutex;
use std::time::{Duration, Instant};

/// Calls for each depth.
const SHORT: [(u32, u64); 5] = [(3, 6000), (4, 600), (5, 100), (6, 5), (7, 1)];
const FULL: [(u32, u64); 6] = [(3, 88_000), (4, 10_000), (5, 2_000), (6, 430), (7, 70), (8, 10)];

/// What one thread does at a time.
const PART: u64 = 500;

/// So many calls at one depth. Each part has a seed of its own, so that the number of threads changes nothing.
fn run_depth(depth: u32, count: u64, threads: usize) -> Tally {
    let starts = Mutex::new((0..count).step_by(PART as usize));
    let sum = Mutex::new(Tally::default());
    let work = || loop {
        let Some(start) = starts.lock().expect("no thread has failed").next() else { break };
        let tally = at_depth(depth, PART.min(count - start), u64::from(depth) << 32 | start);
        sum.lock().expect("no thread has failed").merge(&tally);
    };
    std::thread::scope(|s| (0..threads).for_each(|_| drop(s.spawn(work))));
    sum.into_inner().expect("no thread has failed")
}

/// A list, the cheap depths first; each depth is told when it is done.
fn run(list: &[(u32, u64)], threads: usize) -> Tally {
    let mut sum = Tally::default();
    for &(depth, count) in list {
        let start = Instant::now();
        let tally = run_depth(depth, count, threads);
        println!("depth {depth}: {}", tally.line(start.elapsed()));
        sum.merge(&tally);
    }
    sum
}

fn fuzz(time: Duration, seed: u64) -> Tally {
    let (start, mut r, mut tally) = (Instant::now(), Random(seed), Tally::default());
    while start.elapsed() < time {
        let depth = r.pick(&[3, 3, 3, 3, 3, 3, 3, 3, 4, 4, 4, 5]);
        for call in family(&mut r, depth) {
            tally.add(&call, &mut r);
        }
    }
    tally
}

/// The call without settings: refused, and accepted once (two grids of 128 nodes a side: some twenty seconds).
fn defaults() -> Result<(), String> {
    let mut r = Random(7);
    let ring = shapes::placed(&shapes::ring(&mut r, 600, 0.35), 100.0, [0.0; 3]);
    for (points, number) in [(ring[..5].to_vec(), 7), (Vec::new(), 1), (ring[..54].to_vec(), 4), (ring.clone(), 0)] {
        let outcome = compare_default(points, &mut r)?;
        if outcome.number != number {
            return Err(format!("the oracle answers {} and should answer {number}", outcome.number));
        }
    }
    println!("the call with default settings agrees");
    Ok(())
}

/// As many points as are allowed, and one more.
fn limits() -> Tally {
    let (mut r, mut tally) = (Random(8), Tally::default());
    let some = shapes::placed(&shapes::ball(&mut r, 60, 0.0), 10.0, [0.0; 3]);
    for count in [oracle::MOST_POINTS, oracle::MOST_POINTS + 1] {
        let points = some.iter().copied().cycle().take(6 * count).collect();
        tally.add(&Call::new(points, PoissonConfig { depth: 3, ..PoissonConfig::default() }), &mut r);
    }
    tally
}

/// The full form: the call without settings, the limits of the point slice, and the long list.
fn full(threads: usize, start: Instant) -> Result<(), String> {
    defaults()?;
    let mut tally = limits();
    tally.merge(&run(&FULL, threads));
    report(&tally, true, start)
}

fn ring(count: usize) -> std::io::Result<()> {
    let points = shapes::placed(&shapes::ring(&mut Random(3), count, 0.35), 100.0, [0.0; 3]);
    let mut out = std::io::stdout().lock();
    writeln!(out, "ply\nformat binary_little_endian 1.0\ncomment a ring of radius 100 and tube 35, a third missing")?;
    writeln!(out, "element vertex {count}")?;
    for name in ["x", "y", "z", "nx", "ny", "nz"] {
        writeln!(out, "property float {name}")?;
    }
    writeln!(out, "end_header")?;
    points.iter().try_for_each(|c| out.write_all(&c.to_le_bytes()))
}

/// Prints a tally; fails where something differs, or `all` numbers were to be seen and one was not.
fn report(tally: &Tally, all: bool, start: Instant) -> Result<(), String> {
    println!("{tally}, {:.0} s", start.elapsed().as_secs_f64());
    if tally.differ > 0 {
        return Err("the library and the oracle differ".to_string());
    }
    match tally.by_number.iter().position(|&c| c == 0) {
        Some(number) if all => Err(format!("no call was answered {number}")),
        _ => Ok(()),
    }
}

fn act(words: &[&str]) -> Result<(), String> {
    let start = Instant::now();
    let number = |word: &str| word.parse::<u64>().map_err(|_| format!("`{word}` is no number"));
    match *words {
        ["short"] => defaults().and_then(|()| report(&run(&SHORT, 1), true, start)),
        ["full"] => full(1, start),
        ["full", threads] => full(number(threads)? as usize, start),
        ["fuzz", seconds] => report(&fuzz(Duration::from_secs(number(seconds)?), 1), false, start),
        ["fuzz", seconds, seed] => report(&fuzz(Duration::from_secs(number(seconds)?), number(seed)?), false, start),
        ["cases", folder] => report(&recorded(Path::new(folder))?, false, start),
        ["ring", count] => ring(number(count)? as usize).map_err(|e| e.to_string()),
        _ => Err("usage: compare short | full [THREADS] | fuzz SECONDS [SEED] | cases FOLDER | ring COUNT".to_string()),
    }
}

fn main() -> ExitCode {
    let words: Vec<String> = std::env::args().skip(1).collect();
    match act(&words.iter().map(String::as_str).collect::<Vec<_>>()) {
        Ok(()) => ExitCode::SUCCESS,
        Err(line) => {
            eprintln!("compare: {line}");
            ExitCode::FAILURE
        }
    }
}
