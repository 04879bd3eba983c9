//! Demand 3, looked at from outside, on meshes that the library and the oracle agree about: what is proved holds of what is run.
use hoardmagpie::open_edges;
use oracle::Outcome;

/// Grid edges with one end below the level and one not. A NaN is below nothing.
fn crossed_edges(field: &[f32], side: usize, level: f32) -> usize {
    let below = |node: usize| field[node] < level;
    let mut crossed = 0;
    for node in 0..field.len() {
        let counts = [node / (side * side), node / side % side, node % side];
        for (count, stride) in counts.into_iter().zip([side * side, side, 1]) {
            crossed += (count + 1 < side && below(node) != below(node + stride)) as usize;
        }
    }
    crossed
}

/// Looks at an accepted mesh that was not trimmed.
pub fn closed(mesh: &Outcome, depth: u32) -> Result<(), String> {
    let crossed = crossed_edges(&mesh.seen.field, 1 << depth, mesh.level);
    if crossed != mesh.vertices.len() {
        return Err(format!("{crossed} crossed edges and {} vertices", mesh.vertices.len()));
    }
    if mesh.faces.iter().any(|[a, b, c]| a == b || b == c || c == a) {
        return Err("a face names a vertex twice".to_string());
    }
    match open_edges(&mesh.faces) {
        0 => Ok(()),
        open => Err(format!("the mesh has {open} open edges")),
    }
}

#[cfg(test)]
mod tests {
    use super::*;

    /// A node below in the middle of 4 by 4 by 4 others: six crossed edges, an octahedron.
    fn octahedron() -> Outcome {
        let mut mesh = Outcome { vertices: vec![[0.0; 3]; 6], ..Outcome::default() };
        mesh.seen.field = vec![1.0; 64];
        mesh.seen.field[21] = -1.0;
        for (a, b) in [(0, 1), (1, 2), (2, 3), (3, 0)] {
            mesh.faces.extend([[a, b, 4], [b, a, 5]]);
        }
        mesh
    }

    #[test]
    fn what_is_wrong_is_seen() {
        let changed = |change: fn(&mut Outcome)| {
            let mut mesh = octahedron();
            change(&mut mesh);
            closed(&mesh, 2).is_err()
        };
        assert_eq!(closed(&octahedron(), 2), Ok(()));
        assert!(changed(|m| m.faces[3].swap(1, 2)));
        assert!(changed(|m| m.faces.truncate(7)));
        assert!(changed(|m| m.faces[0][2] = m.faces[0][1]));
        assert!(changed(|m| m.vertices.truncate(5)));
        assert!(changed(|m| m.level = f32::NAN));
    }
}
