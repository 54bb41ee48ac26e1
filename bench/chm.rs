//! A CHM build and a query in plain Rust, measured beside `cmph`: the same algorithms, and byte by byte the same function file and
//! the same text. It checks nothing. Built by `bench/compare.py`; how it is called stands in `plain.rs`.

mod fields;
mod plain;

use fields::Fields;
use plain::{CHUNK, Divisor, Edges, Function, Peeled, gather};
use std::io::{self, Write};

struct Chm {
    m: u32,
    cells: Fields,
}

impl Function<2> for Chm {
    const HEAD: (u8, u16) = (1, 0);

    const RATIO: u32 = 2_090_000;

    fn vertices(m: u32) -> u32 {
        (Self::RATIO as u64 * m as u64).div_ceil(1_000_000) as u32
    }

    fn range(n: u32) -> u32 {
        n
    }

    fn edge(words: [u32; 3], range: &Divisor) -> [u32; 2] {
        let first = range.rem(words[0]);
        let second = range.rem(words[1]);
        if first != second {
            [first, second]
        } else if first + 1 < range.n {
            [first, first + 1]
        } else {
            [first, 0]
        }
    }

    /// Edge by edge in the reverse of the order of peeling. The ends of some edges are read before the first of their cells is set.
    fn assign(edges: &Edges<2>, peeled: &Peeled) -> Chm {
        let m = edges.ends.len() as u32;
        let mut cells = Fields::zeroed(edges.vertices, m);
        let mut ends = [[0; 2]; CHUNK];
        let mut positions = [0; CHUNK];
        for chunk in peeled.order.rchunks(CHUNK) {
            gather(edges, peeled, chunk, &mut ends, &mut positions);
            for (i, e) in chunk.iter().enumerate().rev() {
                let other = cells.get(ends[i][1 - positions[i]]);
                let value = e + if *e < other { m } else { 0 } - other;
                cells.set(ends[i][positions[i]], value);
            }
        }
        Chm { m, cells }
    }

    fn save(&self, file: &mut impl Write) -> io::Result<()> {
        file.write_all(self.cells.image())
    }

    fn load(m: u32, _n: u32, bytes: Vec<u8>) -> Chm {
        let cells = Fields::from_image(bytes, m);
        Chm { m, cells }
    }

    fn answer(&self, ends: [u32; 2]) -> Option<u32> {
        Some((self.cells.get(ends[0]) + self.cells.get(ends[1])) % self.m)
    }
}

fn main() -> io::Result<()> {
    plain::run::<Chm, 2>()
}
