//! The safe interface: meshes are closed and have a volume, refusals carry their numbers, the defaults are document 01's.
use hoardmagpie::{field, open_edges, reconstruct, volume, Mesh, NoVolume, Point, Refusal, Settings, Trimming};

fn ball(count: usize) -> Vec<Point> {
    // Even turns of the golden angle cover a ball evenly.
    let at = |i: usize| {
        let z = 1.0 - (2 * i + 1) as f64 / count as f64;
        let (turn, r) = (i as f64 * 2.399_963_229_728_653, (1.0 - z * z).sqrt());
        [r * turn.cos(), r * turn.sin(), z]
    };
    let point = |[x, y, z]: [f64; 3]| [5.0 * x, 5.0 * y, 5.0 * z, x, y, z].map(|c| c as f32);
    (0..count).map(|i| point(at(i))).collect()
}

fn at_depth(depth: u32) -> Settings {
    Settings { depth, ..Settings::default() }
}

#[test]
fn the_defaults_are_those_of_document_01() {
    let wanted = Settings {
        depth: 7,
        smoothing: 1.0,
        iso_offset: 0.0,
        trimming: Trimming::Off,
        iterations: 1000,
        tolerance: 1e-4,
    };
    assert_eq!(Settings::default(), wanted);
}

/// Demand 3, looked at from outside: three different vertices a face, and each directed edge as often as its reverse.
#[test]
fn the_mesh_is_closed() {
    let mesh = reconstruct(&ball(300), &at_depth(5)).unwrap();
    assert_eq!(mesh.usable, 300);
    assert!(!mesh.faces.is_empty() && mesh.faces.iter().all(|[a, b, c]| a != b && b != c && c != a));
    assert_eq!(open_edges(&mesh.faces), 0);
}

#[test]
fn open_edges_are_counted() {
    let tetrahedron = [[0, 1, 2], [0, 3, 1], [1, 3, 2], [2, 3, 0]];
    assert_eq!(open_edges(&tetrahedron), 0);
    assert_eq!(open_edges(&tetrahedron[..3]), 3);
    assert_eq!(open_edges(&[[0, 1, 2], [0, 3, 1], [1, 3, 2], [2, 0, 3]]), 3);
    assert_eq!(open_edges(&[[0, 1, 1], [0, 1, 1]]), 1);
}

/// A mesh made by hand, with the box of its vertices.
fn mesh(vertices: Vec<[f32; 3]>, faces: Vec<[u32; 3]>) -> Mesh {
    let along = |a: usize, pick: fn(f32, f32) -> f32| vertices.iter().map(|v| v[a]).reduce(pick).unwrap();
    let corner = |pick| [0, 1, 2].map(|a| along(a, pick));
    Mesh { usable: 0, level: 0.0, low: corner(f32::min), high: corner(f32::max), vertices, faces }
}

/// A block between two corners, whose faces look outward.
fn block(low: [f32; 3], high: [f32; 3]) -> Mesh {
    let vertices = (0..8).map(|i| [0, 1, 2].map(|a| if i >> a & 1 == 0 { low[a] } else { high[a] })).collect();
    let sides = [[0, 4, 6, 2], [1, 3, 7, 5], [0, 1, 5, 4], [2, 6, 7, 3], [0, 2, 3, 1], [4, 5, 7, 6]];
    mesh(vertices, sides.iter().flat_map(|&[a, b, c, d]| [[a, b, c], [a, c, d]]).collect())
}

fn cube(low: [f32; 3], side: f32) -> Mesh {
    block(low, low.map(|c| c + side))
}

#[test]
fn volumes_near_and_far() {
    assert_eq!(volume(&cube([0.0; 3], 2.0)), Ok(8.0));
    assert_eq!(volume(&cube([4e6, -3e6, 2e6], 2.0)), Ok(8.0));
    let near = |mesh: &Mesh, wanted: f64| {
        let volume = volume(mesh).unwrap();
        assert!((volume / wanted - 1.0).abs() < 1e-12, "{volume} for {wanted}");
    };
    let side = f64::from(2e30f32) - f64::from(1e30f32);
    near(&block([1e30; 3], [2e30; 3]), side * side * side);
    let corners = [[0.0; 3], [1.0, 0.0, 0.0], [0.0, 2.0, 0.0], [0.0, 0.0, 3.0]];
    let moved = corners.map(|c| c.map(|c| c + 2_097_152.0)).to_vec();
    near(&mesh(moved, vec![[0, 2, 1], [0, 1, 3], [1, 2, 3], [2, 0, 3]]), 1.0);
    // A plate far off along two axes: about the origin the sum would be wrong in its third digit.
    let thickness = f64::from(0.2f32) - f64::from(0.1f32);
    near(&block([16_000_001.0, 0.1, 12_345_677.0], [16_000_003.0, 0.2, 12_345_679.0]), 4.0 * thickness);
}

#[test]
fn faces_that_look_inward_count_below_zero() {
    let mut inward = cube([7.0; 3], 3.0);
    inward.faces.iter_mut().for_each(|face| face.reverse());
    assert_eq!(volume(&inward), Ok(-27.0));
    // As the walls of a cavity they are taken from what is around it.
    let outer = cube([5.0; 3], 10.0);
    let cavity = inward.faces.iter().map(|face| face.map(|v| v + 8));
    let faces = outer.faces.iter().copied().chain(cavity).collect();
    assert_eq!(volume(&mesh([outer.vertices, inward.vertices].concat(), faces)).map(f64::round), Ok(973.0));
}

#[test]
fn open_meshes_and_infinite_ones_have_no_volume() {
    let mut open = cube([0.0; 3], 1.0);
    open.faces.pop();
    assert_eq!(volume(&open), Err(NoVolume::Open));
    for bad in [f32::NAN, f32::INFINITY, f32::NEG_INFINITY] {
        let mut mesh = cube([0.0; 3], 1.0);
        mesh.vertices[7][1] = bad;
        assert_eq!(volume(&mesh), Err(NoVolume::NotFinite));
    }
}

/// Normals that point into the ball turn its faces inward.
#[test]
fn a_balls_volume() {
    let inward = |p: Point| [p[0], p[1], p[2], -p[3], -p[4], -p[5]];
    let of = |points: &[Point]| volume(&reconstruct(points, &at_depth(5)).unwrap()).unwrap();
    let (out, into) = (of(&ball(300)), of(&ball(300).into_iter().map(inward).collect::<Vec<_>>()));
    let wanted = 4.0 / 3.0 * std::f64::consts::PI * 125.0;
    assert!((out / wanted - 1.0).abs() < 0.05, "{out}");
    assert!((into / wanted + 1.0).abs() < 0.05, "{into}");
}

#[test]
fn the_box_holds_every_vertex() {
    let mesh = reconstruct(&ball(200), &at_depth(4)).unwrap();
    for a in 0..3 {
        let along = |pick: fn(f32, f32) -> f32| mesh.vertices.iter().map(|v| v[a]).reduce(pick).unwrap();
        assert_eq!((mesh.low[a], mesh.high[a]), (along(f32::min), along(f32::max)));
    }
}

#[test]
fn trimming_keeps_some_faces() {
    let half: Vec<Point> = ball(400).into_iter().filter(|p| p[2] > 0.0).collect();
    let whole = reconstruct(&half, &at_depth(4)).unwrap();
    let trimmed = reconstruct(&half, &Settings { trimming: Trimming::Within(0.8), ..at_depth(4) }).unwrap();
    assert!(trimmed.faces.len() < whole.faces.len());
    assert!(open_edges(&trimmed.faces) > 0);
    assert_eq!(volume(&trimmed), Err(NoVolume::Open));
    assert!(trimmed.faces.as_flattened().iter().all(|&v| (v as usize) < trimmed.vertices.len()));
}

#[test]
fn the_field_has_the_meshs_level() {
    let (points, settings) = (ball(100), at_depth(4));
    let (mesh, field) = (reconstruct(&points, &settings).unwrap(), field(&points, &settings).unwrap());
    assert_eq!(field.values.len(), 4096);
    assert_eq!((field.level, field.usable), (mesh.level, mesh.usable));
}

#[test]
fn refusals_that_points_and_settings_can_have() {
    let good = ball(40);
    let refused = |points: &[Point], settings: &Settings| reconstruct(points, settings).map(|m| m.faces.len());
    let d3 = at_depth(3);
    assert_eq!(refused(&[], &d3), Err(Refusal::NoPoints));
    for depth in [0, 2, 9, 21, 64, u32::MAX] {
        assert_eq!(refused(&good, &at_depth(depth)), Err(Refusal::Depth));
        assert_eq!(field(&good, &at_depth(depth)), Err(Refusal::Depth));
    }
    assert_eq!(refused(&good, &Settings { smoothing: -0.0, ..d3 }), Err(Refusal::Smoothing));
    assert_eq!(refused(&good[..9], &d3), Err(Refusal::TooFewUsable));
    assert_eq!(refused(&[good[0]; 12], &d3), Err(Refusal::OneSpot));
    assert_eq!(refused(&good, &Settings { iso_offset: f32::NAN, ..d3 }), Err(Refusal::NoFace));
    assert_eq!(refused(&vec![good[0]; 1_048_577], &d3), Err(Refusal::PointSlice));
    assert_eq!(refused(&good[..9], &d3).unwrap_err().number(), 4);
}
