//! PNG (ISO/IEC 15948): eight bits for each of red, green and blue, rows without a filter, compressed by [`super::deflate`].
use super::deflate;
use std::io::{self, Write};

/// Writes a picture of this width, three bytes a pixel. One without a pixel has no form in PNG.
pub fn write<'a>(width: usize, rows: impl ExactSizeIterator<Item = &'a [u8]>, out: &mut dyn Write) -> io::Result<()> {
    if width == 0 || rows.len() == 0 {
        return Err(io::ErrorKind::InvalidInput.into());
    }
    let mut head = [number(width)?, number(rows.len())?].concat();
    // Eight bits, colours without transparency; the one way of packing, the one list of filters, rows from the top.
    head.extend([8, 2, 0, 0, 0]);
    let mut body = Vec::new();
    for row in rows {
        body.push(0); // this row has no filter
        body.extend(row);
    }
    out.write_all(b"\x89PNG\r\n\x1a\n")?;
    chunk(b"IHDR", &head, out)?;
    chunk(b"IDAT", &deflate::zlib(&body), out)?;
    chunk(b"IEND", &[], out)
}

/// Its length, its kind, its bytes, and a check sum of the last two.
fn chunk(kind: &[u8; 4], bytes: &[u8], out: &mut dyn Write) -> io::Result<()> {
    out.write_all(&number(bytes.len())?)?;
    out.write_all(kind)?;
    out.write_all(bytes)?;
    out.write_all(&crc([kind, bytes]).to_be_bytes())
}

/// A number of four bytes; the standard stops at 31 bits.
fn number(value: usize) -> io::Result<[u8; 4]> {
    i32::try_from(value).map(i32::to_be_bytes).map_err(|_| io::ErrorKind::InvalidInput.into())
}

/// The cyclic redundancy check of PNG over parts that follow each other.
fn crc(parts: [&[u8]; 2]) -> u32 {
    let table: [u32; 256] = std::array::from_fn(|byte| (0..8).fold(byte as u32, |crc, _| shifted(crc)));
    let bytes = parts.into_iter().flatten();
    !bytes.fold(u32::MAX, |crc, byte| table[(crc as u8 ^ byte) as usize] ^ crc >> 8)
}

/// One bit further in the division.
fn shifted(crc: u32) -> u32 {
    crc >> 1 ^ if crc & 1 == 1 { 0xEDB8_8320 } else { 0 }
}

#[cfg(test)]
mod tests {
    use super::*;

    /// The first is the usual test of this check; the second ends every PNG file.
    #[test]
    fn check_sums_that_are_known() {
        assert_eq!(crc([b"1234", b"56789"]), 0xCBF4_3926);
        assert_eq!(crc([b"IEND", b""]), 0xAE42_6082);
    }

    /// The file taken apart again: its chunks, and behind the packing the very pixels.
    #[test]
    fn the_pixels_are_in_the_file() {
        let rows: [&[u8]; 2] = [&[1, 2, 3, 4, 5, 6], &[250, 251, 252, 253, 254, 255]];
        let mut file = Vec::new();
        write(2, rows.into_iter(), &mut file).unwrap();
        assert_eq!(file[..8], *b"\x89PNG\r\n\x1a\n");
        let (mut rest, mut chunks) = (&file[8..], Vec::new());
        while !rest.is_empty() {
            let length = u32::from_be_bytes(rest[..4].try_into().unwrap()) as usize;
            let (kind, bytes, sum) = (&rest[4..8], &rest[8..8 + length], &rest[8 + length..12 + length]);
            assert_eq!(crc([kind, bytes]).to_be_bytes(), sum);
            chunks.push((kind, bytes));
            rest = &rest[12 + length..];
        }
        let [(b"IHDR", head), (b"IDAT", body), (b"IEND", [])] = chunks[..] else { panic!("{chunks:?}") };
        assert_eq!(head, [0, 0, 0, 2, 0, 0, 0, 2, 8, 2, 0, 0, 0]);
        assert_eq!(deflate::tests::unpacked(body), [&[0], rows[0], &[0], rows[1]].concat());
    }

    #[test]
    fn a_picture_without_a_pixel_is_refused() {
        let empty: [&[u8]; 1] = [&[]];
        assert!(write(0, empty.into_iter(), &mut Vec::new()).is_err());
        assert!(write(1, [].into_iter(), &mut Vec::new()).is_err());
        assert!(number(1 << 31).is_err());
    }
}
