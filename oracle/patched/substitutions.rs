// The replacements that make the oracle's text from the published poisson.rs. The build scripts of `patched` and `effects` include
// this. Each must match in exactly one place, so that the two texts differ in these and in nothing else.

/// From the folder of a package beside `seed`.
const PUBLISHED: &str = "../seed/threecrate-reconstruction/src/poisson.rs";

type Replacement = (&'static str, &'static str);

// Document 01, "The oracle's patches". The NaN pattern, the fifth, is put in where a value leaves (patched/src/lib.rs).

const EXPONENTIAL: Replacement = (
    "(-(d * d) as f64 / (2.0 * sigma * sigma)).exp() as f32",
    "crate::exp_neg((d * d) as f64 / (2.0 * sigma * sigma))",
);
const DOT_ORDER: Replacement = (
    "    a.par_iter()
        .zip(b)
        .map(|(&x, &y)| x as f64 * y as f64)
        .sum()
",
    "    a.iter().zip(b).fold(0.0, |sum, (&x, &y)| sum + x as f64 * y as f64)
",
);
const SEARCH: Replacement = ("tree.find_k_nearest(p, 2)", "crate::two_nearest(&points, p)");
/// In trimming, where the brute-force search comes with it.
const AT_MOST: Replacement = (
    "tree.find_nearest_bounded(&c, limit, None).is_some()",
    "points.iter().any(|p| crate::squared_distance(p, &c) <= limit)",
);

/// Lines added so that the caller sees what a mesh alone does not show, and can have the numbers 8, 9 and 10. None of them
/// changes a value. Each is put before the line that is named.
const WINDOWS: [Replacement; 5] = [
    ("    let samples = Samples::from_cloud(cloud)?;\n", "    crate::window::scratch(config.depth)?;\n"),
    ("        if rr.sqrt() <= config.tolerance * b_norm {\n", "        crate::window::look(rr, b_norm);\n"),
    ("    let mut mesh = extract_shared(\n", "    crate::window::solved(samples.positions.len(), &x, iso as f32);\n"),
    ("    orient(&mut mesh, &grid, &x);\n", "    crate::window::results(&mesh)?;\n"),
    ("    if agreement < 0.0 {\n", "    crate::window::turned(agreement < 0.0);\n"),
];

fn replace_once(text: &str, old: &str, new: &str) -> String {
    let places = text.matches(old).count();
    assert_eq!(places, 1, "this text stands in {places} places of {PUBLISHED}:\n{old}");
    text.replace(old, new)
}

/// The published text with these replacements and the windows.
fn patched(replacements: &[Replacement]) -> String {
    let mut text = std::fs::read_to_string(PUBLISHED).expect("the published text");
    for (old, new) in replacements {
        text = replace_once(&text, old, new);
    }
    for (line, added) in WINDOWS {
        text = replace_once(&text, line, &format!("{added}{line}"));
    }
    // A text that is included may not begin with comments about the file itself: `//!` becomes `//`.
    text.replace("//!", "//")
}

/// Leaves a text where the package includes it from.
fn leave(name: &str, text: String) {
    let folder = std::env::var("OUT_DIR").expect("cargo sets it");
    std::fs::write(std::path::Path::new(&folder).join(name), text).expect("the patched text");
}
