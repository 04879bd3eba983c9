//! effects [SHARE]        the effect of each of document 01's substitutions, alone, as tables; SHARE, of 1, makes fewer calls
use calls::random::Random;
use calls::{aimed, damaged, extreme, sound, trims, Call};
use effects::{all, at_most, blur_weights, exponential, finite_search, in_parts, published, search};
use effects::{Difference, Effect};
use oracle::cases::Case;
use oracle::{Outcome, PoissonConfig};
use std::{env, fs};

const NAMES: [&str; 6] = [
    "exponential",
    "dot order",
    "brute search",
    "the same, infinite distances left out",
    "at most in trim",
    "all of them",
];

/// The largest extent of the points with finite positions.
fn extent(points: &[f32]) -> f64 {
    let along = |axis: usize| {
        let values = || points.iter().skip(axis).step_by(6).filter(|c| c.is_finite()).map(|&c| f64::from(c));
        values().fold(f64::MIN, f64::max) - values().fold(f64::MAX, f64::min)
    };
    (0..3).map(along).fold(0.0, f64::max)
}

/// Effects on one list of calls.
#[derive(Default)]
struct Table {
    effects: [Effect; NAMES.len()],
    /// Calls with a NaN of another pattern than 01's in the field or the level, and those of them that are accepted.
    strays: [u64; 2],
}

impl Table {
    fn add(&mut self, points: &[f32], config: &PoissonConfig) -> [Difference; NAMES.len()] {
        let run = |version: fn(&[f32], &PoissonConfig) -> Outcome| version(points, config);
        let (base, parts) = (run(published), run(in_parts));
        let differences = [
            Difference::of(&base, &run(exponential)),
            Difference::of(&parts, &base),
            Difference::of(&base, &run(search)),
            Difference::of(&base, &run(finite_search)),
            Difference::of(&base, &run(at_most)),
            Difference::of(&parts, &run(all)),
        ];
        for (effect, difference) in self.effects.iter_mut().zip(differences) {
            effect.add(difference, extent(points));
        }
        let stray = base.seen.strays > 0;
        self.strays[0] += u64::from(stray);
        self.strays[1] += u64::from(stray && base.number == 0);
        differences
    }

    fn print(&self, name: &str) {
        println!("\n{name}: {} calls\n", self.effects[0].calls);
        println!("| | differ | number | faces | places only | field or level only |\n|---|---|---|---|---|---|");
        for (name, effect) in NAMES.iter().zip(&self.effects) {
            println!("| {name} | {effect} |");
        }
        println!("| NaN pattern | {} | | | | {} |", self.strays[0], self.strays[0]);
        if self.strays[1] > 0 {
            println!("\n{} accepted calls have a NaN of another pattern", self.strays[1]);
        }
    }
}

// ---- generated calls ----

fn default_settings(r: &mut Random, depth: u32) -> Vec<Call> {
    vec![Call::new(sound(r, depth).points, PoissonConfig { depth, ..PoissonConfig::default() })]
}

fn chosen_settings(r: &mut Random, depth: u32) -> Vec<Call> {
    vec![sound(r, depth)]
}

fn damaged_copies(r: &mut Random, depth: u32) -> Vec<Call> {
    let base = sound(r, depth);
    (0..4).map(|_| damaged(r, &base)).collect()
}

fn extremes(r: &mut Random, depth: u32) -> Vec<Call> {
    vec![extreme(r, depth)]
}

fn aimed_at_values(r: &mut Random, depth: u32) -> Vec<Call> {
    let base = sound(r, depth);
    aimed(r, &base)
}

fn aimed_at_distances(r: &mut Random, depth: u32) -> Vec<Call> {
    let base = sound(r, depth);
    trims(r, &base)
}

/// A name, the calls, and how often they are made at depths 3, 4, 5 and 6.
type Kind = (&'static str, fn(&mut Random, u32) -> Vec<Call>, [u32; 4]);

const KINDS: [Kind; 6] = [
    ("Sound scans, default settings but for the depth", default_settings, [6000, 1000, 200, 10]),
    ("Sound scans, settings as a person chooses them", chosen_settings, [6000, 1000, 200, 10]),
    ("Damaged copies of such", damaged_copies, [1500, 250, 50, 0]),
    ("Extreme scales and settings", extremes, [6000, 1000, 100, 0]),
    ("The level set on a node's value, the tolerance on a residual", aimed_at_values, [400, 50, 5, 0]),
    ("Trimming set on a face's own distance, 0, NaN and infinity", aimed_at_distances, [400, 50, 5, 0]),
];

fn generated((name, make, counts): &Kind, share: f64) {
    let (mut r, mut table) = (Random(1), Table::default());
    for (depth, &count) in (3..).zip(counts) {
        for _ in 0..(f64::from(count) * share).ceil() as u32 {
            for call in make(&mut r, depth) {
                if call.points.len() % 6 == 0 {
                    table.add(&call.points, &call.config);
                }
            }
        }
    }
    table.print(name);
}

// ---- recorded calls ----

/// The cases of oracle/cases that are in 01's domain of comparison, and the names of those in which something differs.
fn recorded() -> Result<(), Box<dyn std::error::Error>> {
    let (mut table, mut names) = (Table::default(), Vec::new());
    let mut paths = fs::read_dir("cases")?.map(|e| Ok(e?.path())).collect::<std::io::Result<Vec<_>>>()?;
    paths.retain(|p| p.extension().is_some_and(|e| e == "case"));
    paths.sort();
    for path in paths {
        let case = Case::read(&fs::read(&path)?).ok_or("this is no case")?;
        let answered = fs::read_to_string(path.with_extension("out"))?;
        if ["number 7\n", "number 8\n", "number 9\n", "number 10\n"].iter().any(|n| answered.starts_with(n)) {
            continue;
        }
        for (name, difference) in NAMES.iter().zip(table.add(&case.points(), &case.config)).take(5) {
            if difference != Difference::Nothing {
                names.push(format!("{name}: {} ({difference:?})", path.file_stem().unwrap_or_default().display()));
            }
        }
    }
    table.print("Recorded cases");
    println!("\n{}", names.join("\n"));
    Ok(())
}

fn main() -> Result<(), Box<dyn std::error::Error>> {
    let share = env::args().nth(1).map_or(Ok(1.0), |w| w.parse())?;
    let (weights, differ) = blur_weights();
    println!("{weights} blur weights, {differ} differ");
    recorded()?;
    KINDS.iter().for_each(|kind| generated(kind, share));
    Ok(())
}
