//! The cube and its triangles as the proved program has them: the entries are read from the table's own source, so that a picture
//! cannot show another table. Which edge joins which corners is written down again here; `cut` would not find the library's mesh
//! if it were wrong.

/// The source of the crate `cubes`: entries between commas, with comments behind them.
const SOURCE: &str = include_str!("../../../crates/cubes/src/table.rt");

/// Where corner c lies from corner 0.
pub const CORNERS: [[usize; 3]; 8] =
    [[0, 0, 0], [1, 0, 0], [1, 1, 0], [0, 1, 0], [0, 0, 1], [1, 0, 1], [1, 1, 1], [0, 1, 1]];

/// The two corners that an edge joins.
pub const EDGES: [[usize; 2]; 12] =
    [[0, 1], [1, 2], [2, 3], [3, 0], [4, 5], [5, 6], [6, 7], [7, 4], [0, 4], [1, 5], [2, 6], [3, 7]];

/// 256 rows of sixteen entries; -1 ends a row.
#[derive(Clone)]
pub struct Table(Vec<[i8; 16]>);

impl Table {
    /// The program's table.
    pub fn of_the_program() -> Table {
        let body = SOURCE.split("= [").nth(1).expect("the table begins");
        let body = body.split("];").next().expect("the table ends");
        let code = body.lines().filter_map(|line| line.split("//").next());
        let entries: Vec<i8> =
            code.flat_map(|line| line.split(',')).filter_map(|word| word.trim().parse().ok()).collect();
        assert_eq!(entries.len(), 4096, "256 rows of sixteen");
        Table(entries.chunks_exact(16).map(|row| row.try_into().expect("sixteen")).collect())
    }

    /// The same with one entry changed.
    pub fn with(&self, case: usize, place: usize, edge: i8) -> Table {
        let mut changed = self.clone();
        changed.0[case][place] = edge;
        changed
    }

    /// The entries of a row up to its end.
    pub fn row(&self, case: usize) -> Vec<usize> {
        self.0[case].iter().take_while(|&&e| e >= 0).map(|&e| e as usize).collect()
    }

    /// What a case emits: each triple (a, b, c) of its row as (a, c, b).
    pub fn emitted(&self, case: usize) -> Vec<[usize; 3]> {
        self.row(case).chunks_exact(3).map(|t| [t[0], t[2], t[1]]).collect()
    }
}
