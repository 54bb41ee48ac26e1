//! A BDZ build and a query in plain Rust, measured beside `cmph`: the same algorithms, and byte by byte the same function file and
//! the same text. It checks nothing. Built by `bench/compare.py`; how it is called stands in `plain.rs`.

mod plain;
mod triples;

use plain::{Divisor, Edges, Function, Peeled};
use std::hint::black_box;
use std::io::{self, Write};
use triples::{Cells, chosen};

const IDLE: u32 = 3;

/// A word of 64 bits has 32 cells, and every fourth word, that is every 128th cell, has a rank.
const PER_WORD: u32 = 32;
const WORDS: u32 = 4;

/// So many bytes follow the cells, so that whole words can be read.
const SPARE: usize = 32;

/// Cells of two bits, four a byte, with spare bytes at the end.
struct Crumbs {
    bytes: Vec<u8>,
}

impl Crumbs {
    /// So many idle cells.
    fn idle(n: u32) -> Crumbs {
        let mut bytes = vec![0xff; (n / 4) as usize];
        bytes.push((1 << (2 * (n % 4))) - 1);
        bytes.resize(n.div_ceil(4) as usize + SPARE, 0);
        Crumbs { bytes }
    }

    /// The cells from 32 i on.
    fn word(&self, i: u32) -> u64 {
        let at = 8 * i as usize;
        u64::from_le_bytes(self.bytes[at..at + 8].try_into().unwrap())
    }
}

impl Cells for Crumbs {
    fn get(&self, i: u32) -> u32 {
        (self.bytes[(i / 4) as usize] >> (2 * (i % 4))) as u32 & 3
    }

    fn set(&mut self, i: u32, value: u32) {
        self.bytes[(i / 4) as usize] ^= ((IDLE ^ value) as u8) << (2 * (i % 4));
    }
}

/// How many of the first cells of a word, at most 32, are not idle.
fn busy(word: u64, cells: u32) -> u32 {
    let looked = 0x5555_5555_5555_5555 >> (PER_WORD - cells) >> (PER_WORD - cells);
    cells - (word & (word >> 1) & looked).count_ones()
}

struct Bdz {
    cells: Crumbs,
    ranks: Vec<u32>,
}

impl Bdz {
    /// How many cells before this one are not idle: all words of a sample are looked at, without a jump on how many count.
    fn rank(&self, v: u32) -> u32 {
        let (place, cells) = (v / (WORDS * PER_WORD), v % (WORDS * PER_WORD));
        let counted: u32 = (0..WORDS)
            .map(|k| {
                let many = cells.saturating_sub(k * PER_WORD).min(PER_WORD);
                busy(self.cells.word(place * WORDS + k), many)
            })
            .sum();
        self.ranks[place as usize] + counted
    }
}

/// The ranks of every 128th of n cells.
fn ranks(cells: &Crumbs, n: u32) -> Vec<u32> {
    let mut ranks = Vec::with_capacity(n.div_ceil(WORDS * PER_WORD) as usize);
    let mut rank = 0;
    for i in 0..n.div_ceil(PER_WORD) {
        if i % WORDS == 0 {
            ranks.push(rank);
        }
        rank += busy(cells.word(i), PER_WORD);
    }
    ranks
}

impl Function<3> for Bdz {
    const HEAD: (u8, u16) = (2, 7);

    const RATIO: u32 = triples::RATIO;

    fn vertices(m: u32) -> u32 {
        triples::vertices(m)
    }

    fn range(n: u32) -> u32 {
        n / 3
    }

    fn edge(words: [u32; 3], range: &Divisor) -> [u32; 3] {
        triples::edge(words, range)
    }

    fn assign(edges: &Edges<3>, peeled: &Peeled) -> Bdz {
        let mut cells = Crumbs::idle(edges.vertices);
        triples::assign(&mut cells, edges, peeled);
        let ranks = ranks(&cells, edges.vertices);
        Bdz { cells, ranks }
    }

    fn save(&self, file: &mut impl Write) -> io::Result<()> {
        let bytes = &self.cells.bytes;
        file.write_all(&bytes[..bytes.len() - SPARE])?;
        for rank in &self.ranks {
            file.write_all(&rank.to_le_bytes())?;
        }
        Ok(())
    }

    fn load(_m: u32, n: u32, mut bytes: Vec<u8>) -> Bdz {
        let ranks = bytes.split_off(n.div_ceil(4) as usize);
        let ranks = ranks.as_chunks().0.iter();
        let ranks = ranks.map(|rank| u32::from_le_bytes(*rank)).collect();
        bytes.extend_from_slice(&[0; SPARE]);
        let cells = Crumbs { bytes };
        Bdz { cells, ranks }
    }

    fn answer(&self, ends: [u32; 3]) -> Option<u32> {
        let v = chosen(&self.cells, ends);
        (self.cells.get(v) != IDLE).then(|| self.rank(v))
    }

    /// In steps, each over all keys: the chosen vertices; a look at all that their ranks need, so that no key waits alone; the ranks.
    fn answers(&self, ends: &[[u32; 3]], out: &mut [Option<u32>]) {
        let mut vertices = [0; plain::BATCH];
        for (v, ends) in vertices.iter_mut().zip(ends) {
            *v = chosen(&self.cells, *ends);
        }
        let vertices = &vertices[..ends.len()];
        let looks = vertices.iter().map(|v| v / (WORDS * PER_WORD));
        black_box(looks.fold(0, |sum, at| sum ^ u64::from(self.ranks[at as usize]) ^ self.cells.word(at * WORDS) ^ self.cells.word((at + 1) * WORDS - 1)));
        for (answer, v) in out.iter_mut().zip(vertices) {
            *answer = (self.cells.get(*v) != IDLE).then(|| self.rank(*v));
        }
    }
}

fn main() -> io::Result<()> {
    plain::run::<Bdz, 3>()
}
