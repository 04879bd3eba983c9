//! Readers and writers: what is read, what is refused and in what words, and that a mesh comes back as it was written.
mod folder;

use folder::Folder;
use hoardmagpie::mesh_file::{self, Format};
use hoardmagpie::{scan, Mesh, Point};
use std::fs;
use std::path::Path;

const HEADER: &str = "element vertex 2
property float x
property float y
property float z
property float nx
property float ny
property float nz
";

fn points() -> Vec<Point> {
    vec![[1.0, 2.5, -3.0, 0.0, 0.0, 1.0], [0.1, 1e-40, 7.0, 1.0, -0.0, 2.0]]
}

fn ascii(header: &str, body: &str) -> Vec<u8> {
    format!("ply\nformat ascii 1.0\n{header}end_header\n{body}").into_bytes()
}

/// A binary file; `values` are the bytes, most significant first, of one value each.
fn binary(big: bool, header: &str, values: &[Vec<u8>]) -> Vec<u8> {
    let order = if big { "big" } else { "little" };
    let mut bytes = format!("ply\nformat binary_{order}_endian 1.0\n{header}end_header\n").into_bytes();
    for value in values {
        let mut value = value.clone();
        if !big {
            value.reverse();
        }
        bytes.extend(value);
    }
    bytes
}

fn floats(points: &[Point]) -> Vec<Vec<u8>> {
    points.as_flattened().iter().map(|c| c.to_be_bytes().to_vec()).collect()
}

fn refused(bytes: &[u8]) -> String {
    let line = scan::read(bytes).expect_err("this file is bad").to_string();
    assert!(!line.contains('\n') && !line.is_empty(), "not one line: {line}");
    line
}

// ---- what is read ----

#[test]
fn ply_as_text() {
    let file = ascii(HEADER, "1 2.5 -3 0 0 1\n0.1 1e-40 7 1 -0 2\n");
    assert_eq!(scan::read(&file), Ok(points()));
    let crlf = String::from_utf8(file).unwrap().replace('\n', "\r\n");
    assert_eq!(scan::read(crlf.as_bytes()), Ok(points()));
}

#[test]
fn ply_in_binary_of_both_orders() {
    for big in [false, true] {
        assert_eq!(scan::read(&binary(big, HEADER, &floats(&points()))), Ok(points()));
    }
}

/// Other properties before, between and after, of every type; elements before and after, with lists.
#[test]
fn ply_with_much_else() {
    let header = "comment made by hand
obj_info nothing
element camera 1
property list uchar int8 tags
property double zoom
element vertex 1
property uchar red
property double nz
property int16 x
property list ushort float seen
property uint y
property int32 z
property float32 nx
property int8 ny
element face 1
property list uint8 int32 vertex_indices
";
    let camera = [vec![2], vec![5], vec![251], 0.5f64.to_be_bytes().to_vec()];
    let vertex = [
        vec![255],
        (-0.25f64).to_be_bytes().to_vec(),
        (-7i16).to_be_bytes().to_vec(),
        1u16.to_be_bytes().to_vec(),
        9f32.to_be_bytes().to_vec(),
        4_000_000_000u32.to_be_bytes().to_vec(),
        (-2i32).to_be_bytes().to_vec(),
        0.5f32.to_be_bytes().to_vec(),
        vec![255],
    ];
    let face = [vec![3], vec![0; 4], vec![0; 4], vec![0; 4]];
    let values: Vec<Vec<u8>> = camera.into_iter().chain(vertex).chain(face).collect();
    let wanted = vec![[-7.0, 4e9, -2.0, 0.5, -1.0, -0.25]];
    for big in [false, true] {
        assert_eq!(scan::read(&binary(big, header, &values)), Ok(wanted.clone()));
    }
    let text = "2 5 -5 0.5\n255 -0.25 -7 1 9 4000000000 -2 0.5 -1\n3 0 0 0\n";
    assert_eq!(scan::read(&ascii(header, text)), Ok(wanted));
}

/// A double is rounded once, to the nearest; text of a float is not rounded twice.
#[test]
fn numbers_are_rounded_once() {
    let header = HEADER.replace("vertex 2", "vertex 1").replace("float nz", "double nz");
    let near = "1.00000005960464477539062500001"; // just above halfway between 1 and the next float
    let read = scan::read(&ascii(&header, &format!("{near} 0 0 0 0 1.0000000596046448\n"))).unwrap();
    assert_eq!(read[0][0].to_bits(), 0x3F80_0001);
    assert_eq!(read[0][5].to_bits(), 0x3F80_0000);
    assert_eq!(scan::read(format!("{near} 0 0 0 0 1\n").as_bytes()).unwrap()[0][0].to_bits(), 0x3F80_0001);
}

#[test]
fn plain_text() {
    let text = "# x y z nx ny nz\n1 2.5 -3 0 0 1 # the first\n\n  0.1,1e-40, 7;1\t-0 2\r\n";
    assert_eq!(scan::read(text.as_bytes()), Ok(points()));
    assert_eq!(scan::read(b""), Ok(vec![]));
    assert_eq!(scan::read(b"# nothing\n"), Ok(vec![]));
}

/// NaN and infinities are numbers: the library skips such points and counts them.
#[test]
fn nan_and_infinity_are_read() {
    for file in [b"nan -NaN inf -Infinity 0 1\n".to_vec(), {
        ascii(&HEADER.replace("vertex 2", "vertex 1"), "nan -nan inf -inf 0 1\n")
    }] {
        let p = scan::read(&file).unwrap()[0];
        assert!(p[0].is_nan() && p[1].is_nan());
        assert_eq!(p[2..], [f32::INFINITY, f32::NEG_INFINITY, 0.0, 1.0]);
    }
}

// ---- what is refused ----

#[test]
fn text_that_is_no_scan() {
    assert_eq!(
        refused(b"1 2 3 4 5 6\n1 2 3 4 5\n"),
        "line 2: 5 numbers; a point is six: a position x y z and a normal x y z"
    );
    assert_eq!(refused(b"1 2 3 4 5 six\n"), "line 1: `six` is no number");
    assert_eq!(refused(b"1 2 3 4 5 6 7\n"), "line 1: 7 numbers; a point is six: a position x y z and a normal x y z");
    assert_eq!(refused(b"\xff\xfe\x00"), "the file is neither PLY nor text");
    assert!(refused(b"solid part\n").starts_with("line 1: 2 numbers"));
    assert_eq!(refused(b"1 2 3 4 5 \x1b[2Jx\n"), "line 1: `?[2Jx` is no number");
}

#[test]
fn every_cut_of_a_binary_file_is_refused() {
    let file = binary(false, HEADER, &floats(&points()));
    for length in 4..file.len() {
        refused(&file[..length]);
    }
    assert_eq!(refused(&file[..file.len() - 1]), "the file ends before all that its header says");
    assert_eq!(refused(b"ply\nformat ascii 1.0\n"), "the file ends inside its header");
}

#[test]
fn counts_that_are_wrong() {
    let two = floats(&points());
    let more = HEADER.replace("vertex 2", "vertex 3");
    let fewer = HEADER.replace("vertex 2", "vertex 1");
    assert_eq!(refused(&binary(true, &more, &two)), "the file ends before all that its header says");
    assert_eq!(refused(&binary(true, &fewer, &two)), "the file goes on for 24 bytes after what its header says");
    let body = "1 2.5 -3 0 0 1\n0.1 1e-40 7 1 -0 2\n";
    assert_eq!(refused(&ascii(&more, body)), "the file ends before its 3 of the element vertex");
    assert_eq!(refused(&ascii(&fewer, body)), "line 12: the file goes on after what its header says");
    assert_eq!(refused(&ascii(HEADER, "1 2 3 4 5\n1 2 3 4 5 6\n")), "line 11: fewer values than the header says");
    assert_eq!(refused(&ascii(HEADER, "1 2 3 4 5 6 7\n")), "line 11: more values than the header says");
    assert_eq!(refused(&ascii(HEADER, "1 2 3 4 five 6\n")), "line 11: `five` is no number");
    // A count that no memory holds is not believed.
    let endless = HEADER.replace("vertex 2", "vertex 18446744073709551615");
    assert_eq!(refused(&binary(false, &endless, &two)), "the file ends before all that its header says");
    assert_eq!(refused(&ascii(&HEADER.replace("vertex 2", "vertex many"), "")), "line 3: `many` is no number");
}

#[test]
fn lists_that_are_wrong() {
    let header = |list: &str| format!("element face 1\nproperty list {list} int v\n{HEADER}");
    let file = ascii(&header("char"), "-1 5\n1 2 3 4 5 6\n1 2 3 4 5 6\n");
    assert_eq!(refused(&file), "a list v of length -1");
    assert_eq!(refused(&ascii(&header("float"), "1.5 5\n")), "a list v of length 1.5");
    assert_eq!(refused(&ascii(&header("float"), "nan 5\n")), "a list v of length NaN");
    let long = binary(false, &header("uint"), &[vec![255; 4]]);
    assert_eq!(refused(&long), "the file ends before all that its header says");
}

#[test]
fn headers_that_are_wrong() {
    let without = |name: &str| HEADER.replace(&format!("property float {name}\n"), "");
    let normals = "the vertices have no nx: a scan needs normals nx, ny, nz from the scanner";
    assert_eq!(refused(&ascii(&without("nx"), "")), normals);
    assert_eq!(refused(&ascii(&without("z"), "")), "the vertices have no z");
    let listed = HEADER.replace("property float ny", "property list uchar float ny");
    assert_eq!(refused(&ascii(&listed, "")), "the vertices' ny is a list or stands twice");
    let twice = format!("{HEADER}property float x\n");
    assert_eq!(refused(&ascii(&twice, "")), "the vertices' x is a list or stands twice");
    assert_eq!(refused(&ascii("", "")), "the header names no element vertex, or more than one");
    assert_eq!(refused(&ascii("property float x\n", "")), "line 3: a property before any element");
    assert_eq!(refused(&ascii("element vertex 1\nproperty quad x\n", "")), "line 4: `quad x` is no property of PLY");
    assert_eq!(refused(&ascii("element a 1\nelement vertex 0\n", "")), "the element a has no properties");
    assert_eq!(refused(b"ply\nelement vertex 0\nend_header\n"), "the header names no format");
    assert_eq!(refused(b"ply\nformat ascii 2.0\nend_header\n"), "line 2: `format ascii 2.0` is not of a PLY header");
    assert_eq!(refused(b"ply\nformat morse 1.0\nend_header\n"), "the format `morse` is not one of PLY's three");
    assert_eq!(refused(b"ply\ncomment \xff\nend_header\n"), "line 2: the header is not text");
}

// ---- what is written ----

fn tetrahedron() -> Mesh {
    Mesh {
        vertices: vec![[0.0, 0.0, 0.0], [1.0, 0.0, -0.0], [0.0, 1e-40, 0.1], [3.4e38, 0.0, 1.0]],
        faces: vec![[0, 2, 1], [0, 1, 3], [1, 2, 3], [2, 0, 3]],
        usable: 10,
        level: 0.5,
        low: [0.0; 3],
        high: [3.4e38, 1e-40, 1.0],
    }
}

fn bytes(format: Format) -> Vec<u8> {
    let mut bytes = Vec::new();
    mesh_file::write_to(&tetrahedron(), format, &mut bytes).unwrap();
    bytes
}

#[test]
fn ply_is_written_bit_for_bit() {
    let mesh = tetrahedron();
    let bytes = bytes(Format::Ply);
    let end = bytes.windows(11).position(|w| w == b"end_header\n").unwrap() + 11;
    let header = std::str::from_utf8(&bytes[..end]).unwrap();
    assert!(header.contains("element vertex 4\n") && header.contains("element face 4\n"));
    let mut wanted: Vec<u8> = mesh.vertices.as_flattened().iter().flat_map(|c| c.to_le_bytes()).collect();
    for face in &mesh.faces {
        wanted.push(3);
        wanted.extend(face.iter().flat_map(|v| v.to_le_bytes()));
    }
    assert_eq!(bytes[end..], wanted);
}

#[test]
fn obj_reads_back_as_the_same_numbers() {
    let mesh = tetrahedron();
    let text = String::from_utf8(bytes(Format::Obj)).unwrap();
    let rows = |kind: &str| -> Vec<Vec<f32>> {
        let lines = text.lines().filter_map(|l| l.strip_prefix(kind));
        lines.map(|l| l.split(' ').map(|w| w.parse().unwrap()).collect()).collect()
    };
    let patterns = |v: &[f32]| v.iter().map(|c| c.to_bits()).collect::<Vec<_>>();
    for (row, vertex) in rows("v ").iter().zip(&mesh.vertices) {
        assert_eq!(patterns(row), patterns(vertex));
    }
    let faces: Vec<[f32; 3]> = mesh.faces.iter().map(|f| f.map(|v| v as f32 + 1.0)).collect();
    assert_eq!(rows("f "), faces);
}

#[test]
fn a_file_is_whole_or_not_there() {
    let folder = Folder::new("whole");
    let path = folder.0.join("part.ply");
    fs::write(&path, "an older mesh").unwrap();
    mesh_file::write(&tetrahedron(), Format::Ply, &path).unwrap();
    assert_eq!(fs::read(&path).unwrap(), bytes(Format::Ply));
    assert_eq!(folder.names(), ["part.ply"]);
    // A folder stands where the file should: the rename fails, and nothing is left behind.
    let taken = folder.0.join("taken.ply");
    fs::create_dir(&taken).unwrap();
    assert!(mesh_file::write(&tetrahedron(), Format::Ply, &taken).is_err());
    assert_eq!(folder.names(), ["part.ply", "taken.ply"]);
    assert!(mesh_file::write(&tetrahedron(), Format::Obj, &folder.0.join("none/part.obj")).is_err());
}

#[test]
fn the_ending_tells_the_format() {
    assert_eq!(Format::of(Path::new("a/b.ply")), Some(Format::Ply));
    assert_eq!(Format::of(Path::new("b.x.OBJ")), Some(Format::Obj));
    assert_eq!(Format::of(Path::new("ply")), None);
    assert_eq!(Format::of(Path::new("b.stl")), None);
}
