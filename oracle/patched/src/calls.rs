//! For the program `calls_replayed` of the port: the list of calls that it reads, and what it must print. Each call is made twice: for the mesh in slices of
//! the recorded lengths, and for the field alone in slices that are long enough.
use crate::cases::{hash_floats, show, Case};
use crate::{answer, Outcome, PoissonConfig, Room};
use std::error::Error;
use std::fs;
use std::path::Path;

/// Which cases are replayed: the short ones, and those named `odd`, which have depths 4 and 5 and the strangest settings.
fn replayed(name: &str, case: &Case) -> bool {
    case.length <= 400 || name.contains("odd")
}

/// The cases of a folder that are replayed, with their names, in order. What is lent is cut to the program's own slices.
fn cases(folder: &Path) -> Result<Vec<(String, Case)>, Box<dyn Error>> {
    let mut paths = fs::read_dir(folder)?.map(|entry| Ok(entry?.path())).collect::<std::io::Result<Vec<_>>>()?;
    paths.retain(|path| path.extension().is_some_and(|e| e == "case"));
    paths.sort();
    let mut all = Vec::new();
    for path in paths {
        let mut case = Case::read(&fs::read(&path)?).ok_or("this is no case")?;
        let name = path.file_stem().expect("a file's path").to_string_lossy().into_owned();
        case.room = cut(&case.room);
        if replayed(&name, &case) {
            all.push((name, case));
        }
    }
    let base = all.first().ok_or("no case")?.1.clone();
    all.extend(solver_calls(&base));
    Ok(all)
}

/// Calls for the solver, made of the points and the depth 3 of one case: caps, tolerances that stop at once or never, and scales at which the step's square in
/// f32 is subnormal, vanishes or overflows, or the step itself vanishes.
fn solver_calls(base: &Case) -> Vec<(String, Case)> {
    let plain = PoissonConfig { depth: 3, ..PoissonConfig::default() };
    let call = |name: String, scale: f32, max_iterations: usize, tolerance: f64| {
        let stored: Vec<f32> = base.stored.chunks(6).flat_map(|p| scaled(p, scale)).collect();
        let config = PoissonConfig { max_iterations, tolerance, ..plain.clone() };
        let room = cut(&Room::ample(3, stored.len() / 6));
        (name, Case { config, room, length: stored.len(), stored })
    };
    let tolerances = [0.0, -1.0, f64::NAN, f64::INFINITY, f64::NEG_INFINITY];
    let scales = [1e-45, 1e-44, 1e-30, 1e-24, 1e-23, 1e18, 1e19, 1e30, 1e37];
    let caps = [0, 1, 2, 1000].map(|cap| call(format!("cap-{cap}"), 1.0, cap, plain.tolerance));
    let stops = tolerances.map(|t| call(format!("tolerance-{t}").to_lowercase(), 1.0, 1000, t));
    let sizes = scales.map(|scale| call(format!("scale-{scale:e}"), scale, 1000, plain.tolerance));
    let wide = [0.0, f64::NAN].map(|t| call(format!("scale-1e19-tolerance-{t}").to_lowercase(), 1e19, 1000, t));
    caps.into_iter().chain(stops).chain(sizes).chain(wide).collect()
}

/// A point's position scaled, its normal kept.
fn scaled(point: &[f32], scale: f32) -> Vec<f32> {
    point.iter().enumerate().map(|(i, &v)| if i < 3 { v * scale } else { v }).collect()
}

/// How many of the field's values are printed: all 512 where the solver's end is what the call is about.
fn shown(name: &str, case: &Case) -> usize {
    let about = ["cap-", "tolerance", "scale-", "exponential"].iter().any(|word| name.contains(word));
    if about && case.config.depth == 3 {
        512
    } else {
        0
    }
}

fn cut(room: &Room) -> Room {
    Room {
        grids: room.grids.map(|length| length.min(32_768)),
        edges: room.edges.min(98_304),
        distances: room.distances.min(512),
        vertices: room.vertices.min(32_768),
        faces: room.faces.min(65_536),
        given: room.given,
    }
}

/// The name; the settings and how many values are shown; the eleven lengths; how many numbers the points have; the numbers.
fn call(name: &str, case: &Case) -> String {
    let (c, r) = (&case.config, &case.room);
    let distance = c.trim_distance.unwrap_or(0.0).to_bits();
    let settings = format!(
        "{} {:08X} {:08X} {} {:08X} {:X} {:016X} {}",
        c.depth,
        c.smoothing.to_bits(),
        c.iso_offset.to_bits(),
        c.trim_distance.is_some() as u32,
        distance,
        c.max_iterations,
        c.tolerance.to_bits(),
        shown(name, case)
    );
    let lengths = r.grids.iter().chain([&r.edges, &r.distances, &r.vertices, &r.faces]).map(usize::to_string);
    let lengths = lengths.collect::<Vec<_>>().join(" ");
    let points = case.points();
    let points: String = points.chunks(6).map(|point| patterns(point) + "\n").collect();
    format!("{name}\n{settings}\n{lengths}\n{}\n{points}", case.length)
}

fn patterns(values: &[f32]) -> String {
    values.iter().map(|v| format!("{:08X}", v.to_bits())).collect::<Vec<_>>().join(" ")
}

/// The answer as in the case files, digits in small letters, and that nothing else than zeros is left past the mesh and in the nine scratch slices.
fn answered(name: &str, outcome: &Outcome) -> String {
    let shown = show(outcome, true).to_lowercase();
    let shown = shown.split("untrimmed").next().expect("a part");
    format!("call {name}\n{shown}left{}\n", " 0".repeat(11))
}

/// The field's answer, its digest, that nothing else than zeros is left past it and in the scratch slices, and its first values.
fn field_answered(outcome: &Outcome, shown: usize) -> String {
    let seen = &outcome.seen;
    let refused = if seen.field.is_empty() { outcome.number } else { 0 };
    let rows: String =
        seen.field[..shown.min(seen.field.len())].chunks(8).map(|row| format!(" {}\n", patterns(row))).collect();
    let text = format!(
        "field {refused}\nfield-usable {}\nfield-level {:08X}\nhash-field {:016X}\nfield-left{}\n{rows}",
        seen.usable,
        seen.level.to_bits(),
        hash_floats(&seen.field),
        " 0".repeat(10)
    );
    text.to_lowercase()
}

pub fn list(folder: &Path) -> Result<String, Box<dyn Error>> {
    Ok(cases(folder)?.iter().map(|(name, case)| call(name, case)).collect())
}

pub fn answers(folder: &Path) -> Result<String, Box<dyn Error>> {
    let one = |(name, case): &(String, Case)| {
        let points = case.points();
        let ample = Room::ample(case.config.depth, points.len() / 6);
        let mesh = answered(name, &answer(&points, &case.config, &case.room));
        mesh + &field_answered(&answer(&points, &case.config, &ample), shown(name, case))
    };
    Ok(cases(folder)?.iter().map(one).collect())
}
