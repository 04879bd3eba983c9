//! Cuts a field into faces with any table, so that a wrong one can be tried without touching the proved program. With the
//! program's own table it must find the library's mesh, face by face: `Cut::of` asserts that.
use crate::table::{Table, CORNERS, EDGES};
use hoardmagpie::{Field, Mesh};
use std::collections::HashMap;

/// A field with the mesh that the library made of it.
pub struct Cut<'a> {
    /// Nodes per side.
    pub n: usize,
    field: &'a Field,
    /// The vertex on each crossed edge of the grid.
    vertices: HashMap<usize, u32>,
    /// Whether the library turned the faces to look outwards.
    turned: bool,
}

/// A cell, by the counts of its first corner.
pub type Cell = [usize; 3];

impl<'a> Cut<'a> {
    /// Numbers the vertices at first use, as the library does, and finds its very faces.
    pub fn of(field: &'a Field, mesh: &Mesh) -> Cut<'a> {
        let n = (1..).find(|n| n * n * n >= field.values.len()).expect("a cube of nodes");
        let mut cut = Cut { n, field, vertices: HashMap::new(), turned: false };
        let edges = cut.faces_over_edges(&Table::of_the_program());
        for face in &edges {
            for &edge in face {
                let next = cut.vertices.len() as u32;
                cut.vertices.entry(edge).or_insert(next);
            }
        }
        assert_eq!(cut.vertices.len(), mesh.vertices.len(), "a vertex for each crossed edge");
        cut.turned = cut.vertices[&edges[0][1]] != mesh.faces[0][1];
        assert!(cut.faces(&Table::of_the_program()) == mesh.faces, "the library's faces, in its order");
        cut
    }

    /// Whether a node is below the level. A NaN is not.
    pub fn below(&self, at: [usize; 3]) -> bool {
        self.field.values[self.node(at)] < self.field.level
    }

    fn node(&self, [i, j, k]: [usize; 3]) -> usize {
        (i * self.n + j) * self.n + k
    }

    /// Whether the field is 0 at all nodes of the boundary.
    pub fn boundary_is_zero(&self) -> bool {
        let n = self.n;
        let nodes = (0..n * n * n).map(|q| [q / n / n, q / n % n, q % n]);
        let outer = |at: &[usize; 3]| at.iter().any(|&count| count == 0 || count == n - 1);
        nodes.filter(outer).all(|at| self.field.values[self.node(at)] == 0.0)
    }

    /// The edges of the grid with one end below and one not, counted one by one.
    pub fn crossed_edges(&self) -> usize {
        let n = self.n;
        let next = |at: [usize; 3], axis: usize| {
            let mut to = at;
            to[axis] += 1;
            (to[axis] < n).then_some(to)
        };
        let edges = (0..3 * n * n * n).map(|e| ([e / 3 / n / n, e / 3 / n % n, e / 3 % n], e % 3));
        edges.filter(|&(at, axis)| next(at, axis).is_some_and(|to| self.below(at) != self.below(to))).count()
    }

    /// The case of a cell: bit c is set where corner c is below.
    pub fn case(&self, cell: Cell) -> usize {
        (0..8).filter(|&c| self.below(corner(cell, c))).map(|c| 1 << c).sum()
    }

    /// All cells, in the order in which they are cut.
    pub fn cells(&self) -> impl Iterator<Item = Cell> {
        let m = self.n - 1;
        (0..m * m * m).map(move |q| [q / m / m, q / m % m, q % m])
    }

    /// The grid's number of a cell's edge: 3·node + axis, from the lower end.
    pub fn edge(&self, cell: Cell, edge: usize) -> usize {
        let [a, b] = EDGES[edge].map(|c| corner(cell, c));
        let axis = (0..3).find(|&axis| a[axis] != b[axis]).expect("two ends");
        3 * self.node(a).min(self.node(b)) + axis
    }

    /// The vertex on an edge of the grid, if it is crossed.
    pub fn vertex(&self, edge: usize) -> Option<u32> {
        self.vertices.get(&edge).copied()
    }

    fn faces_over_edges(&self, table: &Table) -> Vec<[usize; 3]> {
        let of_cell = |cell| table.emitted(self.case(cell)).into_iter().map(move |face| (cell, face));
        self.cells().flat_map(of_cell).map(|(cell, face)| face.map(|e| self.edge(cell, e))).collect()
    }

    /// The faces that a table gives, over the library's vertices.
    pub fn faces(&self, table: &Table) -> Vec<[u32; 3]> {
        let turn = |[a, b, c]: [u32; 3]| if self.turned { [a, c, b] } else { [a, b, c] };
        self.faces_over_edges(table).into_iter().map(|face| turn(face.map(|e| self.vertices[&e]))).collect()
    }
}

fn corner(cell: Cell, c: usize) -> [usize; 3] {
    std::array::from_fn(|axis| cell[axis] + CORNERS[c][axis])
}

/// The directed pairs of vertices that more faces run along than back; none where the mesh is closed.
pub fn open_pairs(faces: &[[u32; 3]]) -> Vec<(u32, u32)> {
    let mut sums: HashMap<(u32, u32), i32> = HashMap::new();
    for &[a, b, c] in faces {
        for (from, to) in [(a, b), (b, c), (c, a)] {
            *sums.entry((from, to)).or_default() += 1;
            *sums.entry((to, from)).or_default() -= 1;
        }
    }
    let mut open: Vec<(u32, u32)> = sums.into_iter().filter(|&(_, sum)| sum > 0).map(|(pair, _)| pair).collect();
    open.sort_unstable();
    open
}

/// The volume inside faces, as the sum of the tetrahedra that they make with a place, in f64.
pub fn volume(vertices: &[[f32; 3]], faces: &[[u32; 3]], about: [f64; 3]) -> f64 {
    let place = |v: u32| -> [f64; 3] { std::array::from_fn(|i| f64::from(vertices[v as usize][i]) - about[i]) };
    let six = |[a, b, c]: [[f64; 3]; 3]| {
        a[0] * (b[1] * c[2] - b[2] * c[1]) + a[1] * (b[2] * c[0] - b[0] * c[2]) + a[2] * (b[0] * c[1] - b[1] * c[0])
    };
    faces.iter().map(|face| six(face.map(place))).sum::<f64>() / 6.0
}
