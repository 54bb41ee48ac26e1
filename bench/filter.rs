//! A membership filter in plain Rust, measured beside `cmph_filter`: the same algorithm, and byte by byte the same filter file and the
//! same lines. It checks nothing.
//!
//! `filter -g KEYS SEED WIDTH` builds under a seed whose graph has an empty 2-core, with fingerprints of WIDTH bits, and writes
//! KEYS.flt; `filter FILTER KEYS` writes the keys that hold in a filter. `bench/filter.py` builds it.

mod fields;
#[allow(dead_code)]
mod plain;
#[allow(dead_code)]
mod triples;

use fields::Fields;
use plain::{
    BATCH, Batch, CHUNK, Divisor, Edges, PIECE, Peeled, count_lines, for_lines, gather, open,
    peel_all, words,
};
use std::env;
use std::fs::{self, File};
use std::io::{self, BufWriter, Write};
use std::time::Instant;

/// How many bytes stand before the cells of a filter file.
const HEADER: usize = 24;

/// The fingerprint of a key: the highest bits of the xor of its hash values.
fn fingerprint(words: [u32; 3], width: u32) -> u32 {
    (words[0] ^ words[1] ^ words[2]) >> (32 - width)
}

/// Edge by edge in the reverse of the order of peeling, so that the cells of an edge add up to its fingerprint. The ends of some edges are
/// read before the first of their cells is set; the cell that is set is 0 until then.
fn assign(edges: &Edges<3>, prints: &[u16], peeled: &Peeled, width: u32) -> Fields {
    let mut cells = Fields::zeroed(edges.vertices, 1 << width);
    let mask = (1 << width) - 1;
    let mut ends = [[0; 3]; CHUNK];
    let mut positions = [0; CHUNK];
    for chunk in peeled.order.rchunks(CHUNK) {
        gather(edges, peeled, chunk, &mut ends, &mut positions);
        for (i, e) in chunk.iter().enumerate().rev() {
            let sum: u32 = ends[i].map(|v| cells.get(v)).iter().sum();
            let lacks = (prints[*e as usize] as u32).wrapping_sub(sum);
            cells.set(ends[i][positions[i]], lacks & mask);
        }
    }
    cells
}

fn save(path: &str, width: u32, numbers: [u32; 3], cells: &Fields) -> io::Result<()> {
    let mut file = BufWriter::with_capacity(PIECE, File::create(path)?);
    file.write_all(b"CMPHFLT1")?;
    file.write_all(&[width as u8, 0, 0, 0])?;
    file.write_all(numbers.map(u32::to_le_bytes).as_flattened())?;
    file.write_all(cells.image())?;
    file.into_inner()?.sync_all()
}

fn build(path: &str, seed: u32, width: u32) -> io::Result<()> {
    let m = count_lines(path)?;
    let n = triples::vertices(m);
    let third = Divisor::new(n / 3);
    let mut ends = Vec::with_capacity(m as usize);
    let mut prints = Vec::with_capacity(m as usize);
    for_lines(path, |key| {
        let hashed = words(key, seed);
        ends.push(triples::edge(hashed, &third));
        prints.push(fingerprint(hashed, width) as u16);
    })?;
    let edges = Edges { vertices: n, ends };
    let peeled = peel_all(&edges, false, &mut Instant::now());
    assert_eq!(peeled.order.len(), m as usize, "the graph has a 2-core");
    let cells = assign(&edges, &prints, &peeled, width);
    save(
        &format!("{path}.flt"),
        width,
        [m, triples::RATIO, seed],
        &cells,
    )
}

/// Some keys at a time: first the ends and fingerprints of all, then the sums of all. So the accesses to the cells don't wait for one
/// another.
fn test(filter: &str, path: &str) -> io::Result<()> {
    let mut bytes = fs::read(filter)?;
    let number = |at: usize| u32::from_le_bytes(bytes[at..at + 4].try_into().unwrap());
    let (width, m, seed) = (bytes[8] as u32, number(12), number(20));
    bytes.drain(..HEADER);
    let cells = Fields::from_image(bytes, 1 << width);
    let third = Divisor::new(triples::vertices(m) / 3);
    let mask = (1 << width) - 1;
    let mut reader = open(path)?;
    let mut out = BufWriter::with_capacity(PIECE, io::stdout().lock());
    let mut batch = Batch::new();
    let mut places = [([0; 3], 0); BATCH];
    let mut sums = [0; BATCH];
    batch.read(&mut reader)?;
    while !batch.is_empty() {
        for (place, key) in places.iter_mut().zip(batch.keys()) {
            let hashed = words(key, seed);
            *place = (triples::edge(hashed, &third), fingerprint(hashed, width));
        }
        for (sum, (ends, _)) in sums.iter_mut().zip(&places) {
            *sum = ends.map(|v| cells.get(v)).iter().sum::<u32>() & mask;
        }
        for (key, ((_, print), sum)) in batch.keys().zip(places.iter().zip(sums)) {
            if *print == sum {
                out.write_all(key)?;
                out.write_all(b"\n")?;
            }
        }
        batch.read(&mut reader)?;
    }
    out.flush()
}

fn main() -> io::Result<()> {
    let args: Vec<String> = env::args().skip(1).collect();
    let args: Vec<&str> = args.iter().map(String::as_str).collect();
    match args[..] {
        ["-g", path, seed, width] => build(path, seed.parse().unwrap(), width.parse().unwrap()),
        [filter, path] => test(filter, path),
        _ => panic!("usage: -g KEYS SEED WIDTH, or FILTER KEYS"),
    }
}
