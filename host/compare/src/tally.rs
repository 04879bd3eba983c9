//! Runs calls and counts what was answered.
use crate::laws::closed;
use crate::lending::compare;
use calls::random::Random;
use calls::{family, Call};
use oracle::cases::Case;
use oracle::{Outcome, PoissonConfig};
use std::path::Path;
use std::time::Duration;
use std::{fmt, fs};

/// What was seen of some calls.
#[derive(Debug, Clone, Default)]
pub struct Tally {
    /// Calls by depth; a depth that is refused counts at 0.
    pub by_depth: [u64; 9],
    /// Calls by the number that was answered.
    pub by_number: [u64; 11],
    /// Accepted without trimming, and found closed.
    pub closed: u64,
    /// Accepted with trimming that dropped a face.
    pub trimmed: u64,
    pub turned: u64,
    /// Accepted, or refused by 6, 9 or 10, with a field that is not finite.
    pub not_finite: u64,
    pub differ: u64,
}

impl Tally {
    pub fn calls(&self) -> u64 {
        self.by_number.iter().sum::<u64>() + self.differ
    }

    fn count(&mut self, config: &PoissonConfig, outcome: &Outcome) {
        let depth = config.depth as usize;
        self.by_depth[if (3..=8).contains(&depth) { depth } else { 0 }] += 1;
        self.by_number[outcome.number as usize] += 1;
        self.closed += (outcome.number == 0 && config.trim_distance.is_none()) as u64;
        self.trimmed += (outcome.number == 0 && outcome.faces.len() != outcome.seen.untrimmed[1]) as u64;
        self.turned += (outcome.number == 0 && outcome.seen.turned) as u64;
        self.not_finite += outcome.seen.field.iter().any(|v| !v.is_finite()) as u64;
    }

    /// Compares one call; one that differs is told and kept as a case file in `target/differing`.
    pub fn add(&mut self, call: &Call, r: &mut Random) {
        let state = r.0;
        let compared = compare(call, r).and_then(|outcome| {
            let whole = outcome.number == 0 && call.config.trim_distance.is_none();
            if whole {
                closed(&outcome, call.config.depth).map(|()| outcome)
            } else {
                Ok(outcome)
            }
        });
        match compared {
            Ok(outcome) => self.count(&call.config, &outcome),
            Err(difference) => {
                self.differ += 1;
                eprintln!("{difference}\n  kept as {}", keep(call, state));
            }
        }
    }

    /// In one line: calls, differences, and the calls by their number from 0 on.
    pub fn line(&self, time: Duration) -> String {
        let (calls, differ, seconds) = (self.calls(), self.differ, time.as_secs());
        format!("{calls} calls, {differ} differ, answers {:?}, closed {}, {seconds} s", self.by_number, self.closed)
    }

    pub fn merge(&mut self, other: &Tally) {
        let pairs = self.by_depth.iter_mut().zip(other.by_depth);
        pairs.chain(self.by_number.iter_mut().zip(other.by_number)).for_each(|(a, b)| *a += b);
        self.closed += other.closed;
        self.trimmed += other.trimmed;
        self.turned += other.turned;
        self.not_finite += other.not_finite;
        self.differ += other.differ;
    }
}

/// Writes a case file, and tells its name or why there is none.
fn keep(call: &Call, state: u64) -> String {
    let case =
        Case { config: call.config.clone(), room: call.room, length: call.points.len(), stored: call.points.clone() };
    let folder = Path::new("target/differing");
    let path = folder.join(format!("{state:016X}-field{}.case", call.field));
    match fs::create_dir_all(folder).and_then(|()| fs::write(&path, case.write())) {
        Ok(()) => path.display().to_string(),
        Err(error) => format!("nothing: {error}"),
    }
}

impl fmt::Display for Tally {
    fn fmt(&self, f: &mut fmt::Formatter) -> fmt::Result {
        for (depth, count) in self.by_depth.iter().enumerate().filter(|(_, &c)| c > 0) {
            let name = if depth == 0 { "no depth".to_string() } else { format!("depth {depth}") };
            writeln!(f, "{name:<12}{count}")?;
        }
        for (number, count) in self.by_number.iter().enumerate() {
            writeln!(f, "answer {number:<5}{count}")?;
        }
        writeln!(f, "closed      {}\ntrimmed     {}", self.closed, self.trimmed)?;
        writeln!(f, "turned      {}\nnot finite  {}", self.turned, self.not_finite)?;
        write!(f, "{} calls, {} differ", self.calls(), self.differ)
    }
}

/// So many calls at one depth; those that were given another, to be refused, come on top.
pub fn at_depth(depth: u32, wanted: u64, seed: u64) -> Tally {
    let mut r = Random(seed);
    let mut tally = Tally::default();
    loop {
        for call in family(&mut r, depth) {
            if tally.by_depth[depth as usize] + tally.differ >= wanted {
                return tally;
            }
            tally.add(&call, &mut r);
        }
    }
}

/// Every case of a folder. The recorded answer is compared with the oracle's on the way.
pub fn recorded(folder: &Path) -> Result<Tally, String> {
    let mut r = Random(1);
    let mut tally = Tally::default();
    let mut paths: Vec<_> = fs::read_dir(folder)
        .map_err(|e| format!("{}: {e}", folder.display()))?
        .filter_map(|entry| Some(entry.ok()?.path()))
        .filter(|p| p.extension().is_some_and(|e| e == "case"))
        .collect();
    paths.sort();
    for path in paths {
        let name = path.display();
        let bytes = fs::read(&path).map_err(|e| format!("{name}: {e}"))?;
        let case = Case::read(&bytes).ok_or(format!("{name} is no case"))?;
        let wanted = fs::read_to_string(path.with_extension("out")).map_err(|e| format!("{name}: {e}"))?;
        let call = Call {
            field: 1 << (3 * case.config.depth.min(8)),
            points: case.points(),
            config: case.config,
            room: case.room,
        };
        if oracle::cases::show(&call.oracle(), wanted.contains("hash-vertices")) != wanted {
            return Err(format!("{name}: the oracle's answer is not the recorded one"));
        }
        tally.add(&call, &mut r);
    }
    Ok(tally)
}
