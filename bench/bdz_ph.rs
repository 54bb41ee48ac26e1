//! A BDZ_PH build and a query in plain Rust, measured beside `cmph`: the same algorithms, and byte by byte the same function file
//! and the same text. It checks nothing. Built by `bench/compare.py`; how it is called stands in `plain.rs`.

mod plain;
mod triples;

use plain::{Divisor, Edges, Function, Peeled};
use std::io::{self, Write};
use triples::{Cells, chosen};

/// What a digit in base 3 is worth at each place.
const WORTHS: [u8; 5] = [1, 3, 9, 27, 81];

/// The five digits of each byte, two bits each.
const DIGITS: [u16; 256] = {
    let mut digits = [0; 256];
    let mut byte = 0;
    while byte < 256 {
        let mut i = 0;
        while i < 5 {
            let digit = byte / WORTHS[i] as usize % 3;
            digits[byte] |= (digit as u16) << (2 * i);
            i += 1;
        }
        byte += 1;
    }
    digits
};

/// Cells below 3, five a byte.
struct Trits {
    bytes: Vec<u8>,
}

impl Cells for Trits {
    fn get(&self, i: u32) -> u32 {
        let digits = DIGITS[self.bytes[(i / 5) as usize] as usize];
        (digits >> (2 * (i % 5))) as u32 & 3
    }

    fn set(&mut self, i: u32, value: u32) {
        self.bytes[(i / 5) as usize] += value as u8 * WORTHS[(i % 5) as usize];
    }
}

struct BdzPh {
    cells: Trits,
}

impl Function<3> for BdzPh {
    const HEAD: (u8, u16) = (3, 0);

    const RATIO: u32 = triples::RATIO;

    fn vertices(m: u32) -> u32 {
        triples::vertices(m)
    }

    fn range(n: u32) -> u32 {
        n / 3
    }

    fn edge(words: [u32; 3], range: &Divisor) -> [u32; 3] {
        triples::edge(words, range)
    }

    fn assign(edges: &Edges<3>, peeled: &Peeled) -> BdzPh {
        let bytes = vec![0; edges.vertices.div_ceil(5) as usize];
        let mut cells = Trits { bytes };
        triples::assign(&mut cells, edges, peeled);
        BdzPh { cells }
    }

    fn save(&self, file: &mut impl Write) -> io::Result<()> {
        file.write_all(&self.cells.bytes)
    }

    fn load(_m: u32, _n: u32, bytes: Vec<u8>) -> BdzPh {
        let cells = Trits { bytes };
        BdzPh { cells }
    }

    fn answer(&self, ends: [u32; 3]) -> Option<u32> {
        Some(chosen(&self.cells, ends))
    }
}

fn main() -> io::Result<()> {
    plain::run::<BdzPh, 3>()
}
