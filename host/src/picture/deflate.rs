//! Compression for PNG: one block of RFC 1951 with its fixed codes, wrapped as RFC 1950 says. Bytes that stood before are
//! written as a copy; the search for them is short, for drawings repeat themselves at once.

/// How far back a copy may reach.
const WINDOW: usize = 1 << 15;
/// A copy has at least three bytes, and here at most 257: for 258 there would be a code of its own.
const SHORTEST: usize = 3;
const LONGEST: usize = 257;
/// Earlier places that are looked at for one copy.
const PATIENCE: usize = 32;
/// The symbol after the last byte.
const END: u32 = 256;

/// The bytes compressed.
pub fn zlib(bytes: &[u8]) -> Vec<u8> {
    // Deflate with a window of 32 KiB; the second byte makes the two a multiple of 31.
    let mut out = Bits { bytes: vec![0x78, 0x01], waiting: 0, count: 0 };
    out.put(1, 1); // the last block
    out.put(1, 2); // of the kind with fixed codes
    let mut places = Places::new(bytes.len());
    let mut i = 0;
    while i < bytes.len() {
        let length = match places.longest(bytes, i) {
            Some((length, distance)) => {
                put_copy(length, distance, &mut out);
                length
            }
            None => {
                put_symbol(bytes[i].into(), &mut out);
                1
            }
        };
        (i..i + length).for_each(|at| places.note(bytes, at));
        i += length;
    }
    put_symbol(END, &mut out);
    let mut packed = out.finish();
    packed.extend(adler(bytes).to_be_bytes());
    packed
}

// ---- the search ----

const NOWHERE: usize = usize::MAX;

/// Where three bytes have stood. Threes of one hash are chained, the newest first.
struct Places {
    newest: Vec<usize>,
    before: Vec<usize>,
}

impl Places {
    fn new(length: usize) -> Self {
        Places { newest: vec![NOWHERE; 1 << 15], before: vec![NOWHERE; length] }
    }

    /// The hash of the three bytes from here on, if there are three.
    fn hash(bytes: &[u8], at: usize) -> Option<usize> {
        let &[a, b, c] = bytes[at..].first_chunk()?;
        Some((u32::from_le_bytes([a, b, c, 0]).wrapping_mul(0x9E37_79B1) >> 17) as usize)
    }

    fn note(&mut self, bytes: &[u8], at: usize) {
        if let Some(hash) = Self::hash(bytes, at) {
            self.before[at] = std::mem::replace(&mut self.newest[hash], at);
        }
    }

    /// The longest copy that is soon found: its length, and how far back it begins.
    fn longest(&self, bytes: &[u8], at: usize) -> Option<(usize, usize)> {
        let (mut best, mut place) = (None, self.newest[Self::hash(bytes, at)?]);
        for _ in 0..PATIENCE {
            if place == NOWHERE || at - place > WINDOW {
                break;
            }
            let length = alike(&bytes[place..], &bytes[at..]);
            if length >= SHORTEST && best.is_none_or(|(longest, _)| length > longest) {
                best = Some((length, at - place));
            }
            if length == LONGEST {
                break;
            }
            place = self.before[place];
        }
        best
    }
}

/// How many bytes agree from the first on, up to the longest copy.
fn alike(a: &[u8], b: &[u8]) -> usize {
    a.iter().zip(b).take(LONGEST).take_while(|(a, b)| a == b).count()
}

// ---- the codes ----

/// A byte, the end, or a length, in the fixed code of RFC 1951, 3.2.6.
fn put_symbol(symbol: u32, out: &mut Bits) {
    match symbol {
        0..=143 => out.put_code(0x30 + symbol, 8),
        144..=255 => out.put_code(0x190 + symbol - 144, 9),
        256..=279 => out.put_code(symbol - 256, 7),
        _ => out.put_code(0xC0 + symbol - 280, 8),
    }
}

fn put_copy(length: usize, distance: usize, out: &mut Bits) {
    let (code, extra, rest) = class((length - SHORTEST) as u32, 2);
    put_symbol(END + 1 + code, out);
    out.put(rest, extra);
    let (code, extra, rest) = class((distance - 1) as u32, 1);
    out.put_code(code, 5);
    out.put(rest, extra);
}

/// The code of a length or a distance, the count of extra bits and what they hold. From one power of two to the next there
/// are 2^`bits` codes, as many as RFC 1951's two tables in 3.2.5 have.
fn class(value: u32, bits: u32) -> (u32, u32, u32) {
    let extra = value.max(1).ilog2().saturating_sub(bits);
    ((extra << bits) + (value >> extra), extra, value & ((1 << extra) - 1))
}

/// Bits, the first in the least significant place of a byte.
struct Bits {
    bytes: Vec<u8>,
    waiting: u64,
    count: u32,
}

impl Bits {
    /// The `count` low bits, the least significant first.
    fn put(&mut self, bits: u32, count: u32) {
        self.waiting |= u64::from(bits) << self.count;
        self.count += count;
        while self.count >= 8 {
            self.bytes.push(self.waiting as u8);
            self.waiting >>= 8;
            self.count -= 8;
        }
    }

    /// A code, the most significant bit first.
    fn put_code(&mut self, code: u32, count: u32) {
        self.put(code.reverse_bits() >> (32 - count), count);
    }

    fn finish(mut self) -> Vec<u8> {
        self.put(0, 7); // what is waiting fills its byte
        self.bytes
    }
}

/// The check sum of RFC 1950.
fn adler(bytes: &[u8]) -> u32 {
    let (mut sum, mut sums) = (1u32, 0u32);
    for &byte in bytes {
        sum = (sum + u32::from(byte)) % 65521;
        sums = (sums + sum) % 65521;
    }
    sums << 16 | sum
}

#[cfg(test)]
pub(super) mod tests {
    use super::*;

    /// RFC 1951's tables: the least length and distance of each code, and its extra bits.
    const LENGTHS: [usize; 29] = [
        3, 4, 5, 6, 7, 8, 9, 10, 11, 13, 15, 17, 19, 23, 27, 31, 35, 43, 51, 59, 67, 83, 99, 115, 131, 163, 195, 227,
        258,
    ];
    const LENGTH_BITS: [usize; 29] =
        [0, 0, 0, 0, 0, 0, 0, 0, 1, 1, 1, 1, 2, 2, 2, 2, 3, 3, 3, 3, 4, 4, 4, 4, 5, 5, 5, 5, 0];
    const DISTANCES: [usize; 30] = [
        1, 2, 3, 4, 5, 7, 9, 13, 17, 25, 33, 49, 65, 97, 129, 193, 257, 385, 513, 769, 1025, 1537, 2049, 3073, 4097,
        6145, 8193, 12289, 16385, 24577,
    ];
    const DISTANCE_BITS: [usize; 30] =
        [0, 0, 0, 0, 1, 1, 2, 2, 3, 3, 4, 4, 5, 5, 6, 6, 7, 7, 8, 8, 9, 9, 10, 10, 11, 11, 12, 12, 13, 13];

    struct Reader<'a> {
        bytes: &'a [u8],
        at: usize,
    }

    impl Reader<'_> {
        fn bit(&mut self) -> usize {
            let bit = self.bytes[self.at / 8] >> (self.at % 8) & 1;
            self.at += 1;
            bit.into()
        }

        fn number(&mut self, bits: usize) -> usize {
            (0..bits).map(|i| self.bit() << i).sum()
        }

        fn code(&mut self, bits: usize) -> usize {
            (0..bits).fold(0, |code, _| code << 1 | self.bit())
        }

        fn symbol(&mut self) -> usize {
            let seven = self.code(7);
            if seven < 24 {
                return 256 + seven;
            }
            let eight = seven << 1 | self.bit();
            match eight {
                0x30..=0xBF => eight - 0x30,
                0xC0..=0xC7 => eight - 0xC0 + 280,
                _ => (eight << 1 | self.bit()) - 0x190 + 144,
            }
        }
    }

    /// Undoes [`zlib`], by the tables of the RFC.
    pub fn unpacked(packed: &[u8]) -> Vec<u8> {
        let (body, sum) = packed.split_at(packed.len() - 4);
        assert_eq!(body[..2], [0x78, 0x01]);
        let (mut reader, mut bytes) = (Reader { bytes: &body[2..], at: 0 }, Vec::new());
        assert_eq!(reader.number(3), 0b011);
        loop {
            match reader.symbol() {
                256 => break,
                symbol if symbol > 256 => {
                    let length = LENGTHS[symbol - 257] + reader.number(LENGTH_BITS[symbol - 257]);
                    let code = reader.code(5);
                    let distance = DISTANCES[code] + reader.number(DISTANCE_BITS[code]);
                    (0..length).for_each(|_| bytes.push(bytes[bytes.len() - distance]));
                }
                byte => bytes.push(byte as u8),
            }
        }
        assert_eq!(reader.at.div_ceil(8), body.len() - 2);
        assert_eq!(sum, adler(&bytes).to_be_bytes());
        bytes
    }

    #[test]
    fn a_check_sum_that_is_known() {
        assert_eq!(adler(b"Wikipedia"), 0x11E6_0398);
        assert_eq!(adler(b""), 1);
    }

    #[test]
    fn every_length_and_distance_has_the_code_of_the_tables() {
        let agrees = |value: usize, (code, extra, rest): (u32, u32, u32), least: &[usize], bits: &[usize]| {
            assert_eq!(bits[code as usize], extra as usize);
            assert_eq!(least[code as usize] + rest as usize, value);
            assert!(rest < 1 << extra);
        };
        for length in SHORTEST..=LONGEST {
            agrees(length, class((length - SHORTEST) as u32, 2), &LENGTHS, &LENGTH_BITS);
        }
        for distance in 1..=WINDOW {
            agrees(distance, class((distance - 1) as u32, 1), &DISTANCES, &DISTANCE_BITS);
        }
    }

    /// Numbers without order, always the same ones.
    fn noise(count: usize) -> impl Iterator<Item = u32> {
        let next =
            |seed: &u64| Some(seed.wrapping_mul(6_364_136_223_846_793_005).wrapping_add(1_442_695_040_888_963_407));
        std::iter::successors(Some(1), next).map(|seed| (seed >> 33) as u32).take(count)
    }

    #[test]
    fn what_is_packed_comes_back() {
        let back = |bytes: &[u8]| assert!(unpacked(&zlib(bytes)) == bytes);
        (0..5).for_each(|length| back(&b"aaaa"[..length]));
        back(&(0..=255).collect::<Vec<u8>>());
        back(&noise(70_000).map(|n| n as u8).collect::<Vec<u8>>());
        back(&noise(70_000).map(|n| (n % 3) as u8).collect::<Vec<u8>>());
        back(&vec![255; 100_000]);
        // Copies from as far back as they may reach, and farther.
        let part: Vec<u8> = noise(300).map(|n| n as u8).collect();
        for gap in [WINDOW - 301, WINDOW - 300, WINDOW - 299] {
            back(&[&part[..], &vec![7; gap], &part].concat());
        }
    }

    #[test]
    fn what_repeats_itself_becomes_short() {
        assert!(zlib(&vec![255; 1_000_000]).len() < 9_000);
    }
}
