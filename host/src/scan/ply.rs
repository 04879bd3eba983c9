//! PLY: a header of lines that names elements and their properties, then the values, as text or in binary of either order.
use super::{bad, number, shortened, BadScan};
use crate::Point;

/// The scalar types, under both of their names.
#[derive(Debug, Clone, Copy, PartialEq)]
enum Type {
    I8,
    U8,
    I16,
    U16,
    I32,
    U32,
    F32,
    F64,
}

impl Type {
    fn of(word: &str) -> Option<Type> {
        Some(match word {
            "char" | "int8" => Type::I8,
            "uchar" | "uint8" => Type::U8,
            "short" | "int16" => Type::I16,
            "ushort" | "uint16" => Type::U16,
            "int" | "int32" => Type::I32,
            "uint" | "uint32" => Type::U32,
            "float" | "float32" => Type::F32,
            "double" | "float64" => Type::F64,
            _ => return None,
        })
    }
}

enum Kind {
    Scalar(Type),
    /// The type of the count, and that of the items.
    List(Type, Type),
}

struct Property {
    name: String,
    kind: Kind,
}

struct Element {
    name: String,
    count: u64,
    properties: Vec<Property>,
}

#[derive(Clone, Copy)]
enum Format {
    Text,
    Little,
    Big,
}

struct Header {
    format: Format,
    elements: Vec<Element>,
    /// Lines of the header, and where the values begin.
    lines: usize,
    end: usize,
}

/// The values of a file, one after the other. Every type of PLY fits an f64.
trait Values {
    /// Starts the next instance of an element.
    fn begin(&mut self, element: &Element) -> Result<(), BadScan>;
    fn next(&mut self, of: Type) -> Result<f64, BadScan>;
    /// Ends an instance: nothing of it may be left.
    fn end(&mut self) -> Result<(), BadScan>;
    /// Ends the file: nothing may be left.
    fn finish(&mut self) -> Result<(), BadScan>;
}

pub fn read(bytes: &[u8]) -> Result<Vec<Point>, BadScan> {
    let header = read_header(bytes)?;
    let body = &bytes[header.end..];
    match header.format {
        Format::Text => {
            let Ok(text) = std::str::from_utf8(body) else {
                return bad("the header announces text, and what follows is not text");
            };
            read_points(&header.elements, &mut Lines::new(text, header.lines))
        }
        Format::Little => read_points(&header.elements, &mut Bytes { left: body, big: false }),
        Format::Big => read_points(&header.elements, &mut Bytes { left: body, big: true }),
    }
}

// ---- the header ----

fn read_header(bytes: &[u8]) -> Result<Header, BadScan> {
    let mut header = Header { format: Format::Text, elements: Vec::new(), lines: 0, end: 0 };
    let mut format = None;
    loop {
        let line = header_line(bytes, &mut header)?;
        let words: Vec<&str> = line.split_ascii_whitespace().collect();
        match words[..] {
            ["ply"] if header.lines == 1 => {}
            ["format", name, "1.0"] => format = Some(read_format(name)?),
            ["comment" | "obj_info", ..] | [] => {}
            ["element", name, count] => header.elements.push(read_element(name, count, header.lines)?),
            ["property", ref words @ ..] => add_property(&mut header, words)?,
            ["end_header"] => break,
            _ => return bad(format!("line {}: `{}` is not of a PLY header", header.lines, shortened(line))),
        }
    }
    let Some(format) = format else {
        return bad("the header names no format");
    };
    header.format = format;
    Ok(header)
}

/// The next line of the header, without its end.
fn header_line<'a>(bytes: &'a [u8], header: &mut Header) -> Result<&'a str, BadScan> {
    let rest = &bytes[header.end..];
    let Some(length) = rest.iter().position(|&b| b == b'\n') else {
        return bad("the file ends inside its header");
    };
    header.end += length + 1;
    header.lines += 1;
    match std::str::from_utf8(&rest[..length]) {
        Ok(line) => Ok(line.trim_end_matches('\r')),
        Err(_) => bad(format!("line {}: the header is not text", header.lines)),
    }
}

fn read_format(name: &str) -> Result<Format, BadScan> {
    match name {
        "ascii" => Ok(Format::Text),
        "binary_little_endian" => Ok(Format::Little),
        "binary_big_endian" => Ok(Format::Big),
        _ => bad(format!("the format `{}` is not one of PLY's three", shortened(name))),
    }
}

fn read_element(name: &str, count: &str, line: usize) -> Result<Element, BadScan> {
    Ok(Element { name: name.to_string(), count: number(count, line)?, properties: Vec::new() })
}

fn add_property(header: &mut Header, words: &[&str]) -> Result<(), BadScan> {
    let line = header.lines;
    let Some(element) = header.elements.last_mut() else {
        return bad(format!("line {line}: a property before any element"));
    };
    let (kind, name) = match *words {
        [of, name] => (Type::of(of).map(Kind::Scalar), name),
        ["list", count, of, name] => (Type::of(count).zip(Type::of(of)).map(|(c, t)| Kind::List(c, t)), name),
        _ => (None, ""),
    };
    let Some(kind) = kind else {
        return bad(format!("line {line}: `{}` is no property of PLY", shortened(&words.join(" "))));
    };
    element.properties.push(Property { name: name.to_string(), kind });
    Ok(())
}

// ---- the points ----

/// The places of x, y, z, nx, ny, nz among the vertex's properties.
fn places(vertex: &Element) -> Result<[usize; 6], BadScan> {
    let mut places = [0; 6];
    for (place, name) in places.iter_mut().zip(["x", "y", "z", "nx", "ny", "nz"]) {
        let mut named = vertex.properties.iter().enumerate().filter(|(_, p)| p.name == name);
        *place = match (named.next(), named.next()) {
            (Some((i, Property { kind: Kind::Scalar(_), .. })), None) => i,
            (None, _) if name.starts_with('n') => {
                return bad(format!("the vertices have no {name}: a scan needs normals nx, ny, nz from the scanner"))
            }
            (None, _) => return bad(format!("the vertices have no {name}")),
            _ => return bad(format!("the vertices' {name} is a list or stands twice")),
        };
    }
    Ok(places)
}

fn read_points(elements: &[Element], values: &mut dyn Values) -> Result<Vec<Point>, BadScan> {
    if elements.iter().filter(|e| e.name == "vertex").count() != 1 {
        return bad("the header names no element vertex, or more than one");
    }
    let mut points = Vec::new();
    for element in elements {
        if element.properties.is_empty() {
            return bad(format!("the element {} has no properties", shortened(&element.name)));
        }
        let wanted = if element.name == "vertex" { Some(places(element)?) } else { None };
        for _ in 0..element.count {
            let scalars = read_instance(element, values)?;
            points.extend(wanted.map(|places| places.map(|i| scalars[i] as f32)));
        }
    }
    values.finish()?;
    Ok(points)
}

/// The value of each property; of a list, whose items are passed over, its length.
fn read_instance(element: &Element, values: &mut dyn Values) -> Result<Vec<f64>, BadScan> {
    values.begin(element)?;
    let mut scalars = Vec::with_capacity(element.properties.len());
    for property in &element.properties {
        scalars.push(match property.kind {
            Kind::Scalar(of) => values.next(of)?,
            Kind::List(count, of) => {
                let length = values.next(count)?;
                if length < 0.0 || length.fract() != 0.0 || !length.is_finite() {
                    return bad(format!("a list {} of length {length}", shortened(&property.name)));
                }
                for _ in 0..length as u64 {
                    values.next(of)?;
                }
                length
            }
        });
    }
    values.end()?;
    Ok(scalars)
}

// ---- values as text ----

/// One instance a line.
struct Lines<'a> {
    lines: std::str::Lines<'a>,
    words: std::str::SplitAsciiWhitespace<'a>,
    line: usize,
}

impl<'a> Lines<'a> {
    fn new(text: &'a str, line: usize) -> Self {
        Lines { lines: text.lines(), words: "".split_ascii_whitespace(), line }
    }

    /// The next line that is not blank, from its first word on.
    fn advance(&mut self) -> bool {
        for line in self.lines.by_ref() {
            self.line += 1;
            if !line.trim_ascii().is_empty() {
                self.words = line.split_ascii_whitespace();
                return true;
            }
        }
        false
    }
}

impl Values for Lines<'_> {
    fn begin(&mut self, element: &Element) -> Result<(), BadScan> {
        if self.advance() {
            return Ok(());
        }
        bad(format!("the file ends before its {} of the element {}", element.count, shortened(&element.name)))
    }

    fn next(&mut self, of: Type) -> Result<f64, BadScan> {
        let Some(word) = self.words.next() else {
            return bad(format!("line {}: fewer values than the header says", self.line));
        };
        match of {
            Type::F32 => number::<f32>(word, self.line).map(f64::from),
            _ => number(word, self.line),
        }
    }

    fn end(&mut self) -> Result<(), BadScan> {
        match self.words.next() {
            Some(_) => bad(format!("line {}: more values than the header says", self.line)),
            None => Ok(()),
        }
    }

    fn finish(&mut self) -> Result<(), BadScan> {
        if self.advance() {
            return bad(format!("line {}: the file goes on after what its header says", self.line));
        }
        Ok(())
    }
}

// ---- values in binary ----

struct Bytes<'a> {
    left: &'a [u8],
    big: bool,
}

impl Bytes<'_> {
    /// The next bytes, the least significant first.
    fn take<const N: usize>(&mut self) -> Result<[u8; N], BadScan> {
        let Some((head, tail)) = self.left.split_first_chunk::<N>() else {
            return bad("the file ends before all that its header says");
        };
        self.left = tail;
        let mut bytes = *head;
        if self.big {
            bytes.reverse();
        }
        Ok(bytes)
    }
}

impl Values for Bytes<'_> {
    fn begin(&mut self, _: &Element) -> Result<(), BadScan> {
        Ok(())
    }

    fn next(&mut self, of: Type) -> Result<f64, BadScan> {
        Ok(match of {
            Type::I8 => i8::from_le_bytes(self.take()?).into(),
            Type::U8 => u8::from_le_bytes(self.take()?).into(),
            Type::I16 => i16::from_le_bytes(self.take()?).into(),
            Type::U16 => u16::from_le_bytes(self.take()?).into(),
            Type::I32 => i32::from_le_bytes(self.take()?).into(),
            Type::U32 => u32::from_le_bytes(self.take()?).into(),
            Type::F32 => f32::from_le_bytes(self.take()?).into(),
            Type::F64 => f64::from_le_bytes(self.take()?),
        })
    }

    fn end(&mut self) -> Result<(), BadScan> {
        Ok(())
    }

    fn finish(&mut self) -> Result<(), BadScan> {
        match self.left.len() {
            0 => Ok(()),
            more => bad(format!("the file goes on for {more} bytes after what its header says")),
        }
    }
}
