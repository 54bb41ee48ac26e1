//! What the plain programs share: the hash, the lines of a file, a build and a query over any of the algorithms. Nothing is
//! refused: a damaged function file, a key that is too long and a number that comes again pass unseen.
//!
//! `NAME -g KEYS SEED` builds under a seed whose graph has an empty 2-core, and writes KEYS.mph; `NAME -t KEYS SEED` does the
//! same and tells how many milliseconds each part took; `NAME KEYS` answers the keys.

#[allow(dead_code)]
#[path = "peel.rs"]
mod peel;

pub use peel::{Edges, Peeled};

use peel::{MOST_NARROW, Word, link};
use std::env;
use std::fs::{self, File};
use std::io::{self, BufRead, BufReader, BufWriter, StdoutLock, Write};
use std::time::Instant;

/// How many bytes are read or written at once.
pub const PIECE: usize = 65_536;

/// How many keys a query answers together.
pub const BATCH: usize = 32;

/// How many edges are worked on together where cells are set.
pub const CHUNK: usize = 64;

/// Reads the ends of some edges, and the position of each one's pivot, before the first of their cells is set.
pub fn gather<const K: usize>(
    edges: &Edges<K>,
    peeled: &Peeled,
    chunk: &[u32],
    ends: &mut [[u32; K]; CHUNK],
    positions: &mut [usize; CHUNK],
) {
    for (i, e) in chunk.iter().enumerate() {
        ends[i] = edges.ends[*e as usize];
        positions[i] = peeled.pivot(*e);
    }
}

/// What a function file begins with.
pub fn heading(algorithm: u8, b: u16, numbers: [u32; 3]) -> Vec<u8> {
    let mut bytes = b"CMPHDMP2".to_vec();
    bytes.extend_from_slice(&[algorithm, 0]);
    bytes.extend_from_slice(&b.to_le_bytes());
    bytes.extend_from_slice(numbers.map(u32::to_le_bytes).as_flattened());
    bytes
}

/// A function of one algorithm, over edges of K ends.
pub trait Function<const K: usize> {
    /// The number of the algorithm, and its parameter b, as a function file has them.
    const HEAD: (u8, u16);

    /// The vertices for each key, in millionths.
    const RATIO: u32;

    /// How many vertices there are for m keys.
    fn vertices(m: u32) -> u32;

    /// What the ends over n vertices are remainders by.
    fn range(n: u32) -> u32;

    /// The ends for the words of a key.
    fn edge(words: [u32; 3], range: &Divisor) -> [u32; K];

    /// The function of edges of which peeling has left none.
    fn assign(edges: &Edges<K>, peeled: &Peeled) -> Self;

    /// Writes what follows the head of the function file.
    fn save(&self, file: &mut impl Write) -> io::Result<()>;

    /// The function over m keys and n vertices with these bytes after its head.
    fn load(m: u32, n: u32, bytes: Vec<u8>) -> Self;

    /// What the key with these ends gets.
    fn answer(&self, ends: [u32; K]) -> Option<u32>;

    /// What each of the keys with these ends gets, at most `BATCH` of them.
    fn answers(&self, ends: &[[u32; K]], out: &mut [Option<u32>]) {
        for (answer, ends) in out.iter_mut().zip(ends) {
            *answer = self.answer(*ends);
        }
    }
}

// The hash

fn mix(s: [u32; 3]) -> [u32; 3] {
    let [mut a, mut b, mut c] = s;
    for (right, left, last) in [(13, 8, 13), (12, 16, 5), (3, 10, 15)] {
        a = a.wrapping_sub(b).wrapping_sub(c) ^ (c >> right);
        b = b.wrapping_sub(c).wrapping_sub(a) ^ (a << left);
        c = c.wrapping_sub(a).wrapping_sub(b) ^ (b >> last);
    }
    [a, b, c]
}

fn four(bytes: &[u8], at: usize) -> u32 {
    u32::from_le_bytes(bytes[at..at + 4].try_into().unwrap())
}

/// The last `n` of four bytes.
fn last_of_four(bytes: &[u8], at: usize, n: usize) -> u32 {
    ((four(bytes, at) as u64) >> (8 * (4 - n))) as u32
}

/// What is left of a key after its blocks of 12 bytes, without a jump on how much that is.
fn tail(key: &[u8], rest: &[u8]) -> [u32; 3] {
    let n = rest.len();
    if n >= 4 {
        let second = (n - 4).min(4);
        let third = last_of_four(rest, n - 4, n.saturating_sub(8));
        return [
            four(rest, 0),
            last_of_four(rest, second, second),
            third << 8,
        ];
    }
    let first = if key.len() >= 12 {
        last_of_four(key, key.len() - 4, n)
    } else {
        let bytes = rest.iter().rev();
        bytes.fold(0, |word, byte| word << 8 | *byte as u32)
    };
    [first, 0, 0]
}

/// The three words of lookup2 (Jenkins 1997).
#[inline(always)]
pub fn words(key: &[u8], seed: u32) -> [u32; 3] {
    let mut s = [0x9e37_79b9, 0x9e37_79b9, seed];
    let (blocks, rest) = key.as_chunks::<12>();
    for block in blocks {
        s[0] = s[0].wrapping_add(four(block, 0));
        s[1] = s[1].wrapping_add(four(block, 4));
        s[2] = s[2].wrapping_add(four(block, 8));
        s = mix(s);
    }
    let [first, second, third] = tail(key, rest);
    s[0] = s[0].wrapping_add(first);
    s[1] = s[1].wrapping_add(second);
    s[2] = s[2].wrapping_add(third).wrapping_add(key.len() as u32);
    mix(s)
}

/// A number to take remainders by, with its reciprocal (Barrett 1986).
#[derive(Clone, Copy)]
pub struct Divisor {
    pub n: u32,
    scaled: u64,
}

impl Divisor {
    pub fn new(n: u32) -> Divisor {
        let scaled = (1 << 32) / n as u64;
        Divisor { n, scaled }
    }

    pub fn rem(&self, x: u32) -> u32 {
        let quotient = (x as u64 * self.scaled) >> 32;
        let left = x as u64 - quotient * self.n as u64;
        left.min(left.wrapping_sub(self.n as u64)) as u32
    }
}

// The lines

pub fn open(path: &str) -> io::Result<BufReader<File>> {
    Ok(BufReader::with_capacity(PIECE, File::open(path)?))
}

/// Appends the next line without its end, or tells that there is none.
fn read_line(reader: &mut impl BufRead, bytes: &mut Vec<u8>) -> io::Result<bool> {
    if reader.read_until(b'\n', bytes)? == 0 {
        return Ok(false);
    }
    if bytes.last() == Some(&b'\n') {
        bytes.pop();
    }
    Ok(true)
}

/// The first line end, which is mostly near.
fn find_end(bytes: &[u8]) -> Option<usize> {
    bytes.iter().position(|byte| *byte == b'\n')
}

/// Calls `each` with the lines of a file, where they stand in the buffer except those that lie across two reads.
pub fn for_lines(path: &str, mut each: impl FnMut(&[u8])) -> io::Result<()> {
    let mut reader = open(path)?;
    let mut part = Vec::new();
    loop {
        let buffer = reader.fill_buf()?;
        let (read, mut left) = (buffer.len(), buffer);
        if read == 0 {
            break;
        }
        while let Some(end) = find_end(left) {
            if part.is_empty() {
                each(&left[..end]);
            } else {
                part.extend_from_slice(&left[..end]);
                each(&part);
                part.clear();
            }
            left = &left[end + 1..];
        }
        part.extend_from_slice(left);
        reader.consume(read);
    }
    if !part.is_empty() {
        each(&part);
    }
    Ok(())
}

/// How many lines a file has.
pub fn count_lines(path: &str) -> io::Result<u32> {
    let mut reader = open(path)?;
    let (mut count, mut last) = (0, b'\n');
    loop {
        let buffer = reader.fill_buf()?;
        let read = buffer.len();
        if read == 0 {
            return Ok(count + (last != b'\n') as u32);
        }
        count += buffer.iter().filter(|byte| **byte == b'\n').count() as u32;
        last = buffer[read - 1];
        reader.consume(read);
    }
}

/// Some keys, one after another.
pub struct Batch {
    bytes: Vec<u8>,
    ends: Vec<usize>,
}

impl Batch {
    /// No keys, and room for some.
    pub fn new() -> Batch {
        Batch {
            bytes: Vec::with_capacity(PIECE),
            ends: Vec::with_capacity(BATCH),
        }
    }

    pub fn is_empty(&self) -> bool {
        self.ends.is_empty()
    }

    /// Takes the next keys in place of those before. There are fewer only at the end of the file.
    pub fn read(&mut self, reader: &mut impl BufRead) -> io::Result<()> {
        self.bytes.clear();
        self.ends.clear();
        while self.ends.len() < BATCH && read_line(reader, &mut self.bytes)? {
            self.ends.push(self.bytes.len());
        }
        Ok(())
    }

    pub fn keys(&self) -> impl Iterator<Item = &[u8]> {
        let starts = [0].into_iter().chain(self.ends.iter().copied());
        starts
            .zip(&self.ends)
            .map(|(from, to)| &self.bytes[from..*to])
    }
}

// A build

/// Tells what has passed since the last time, and begins again.
fn tell(timed: bool, part: &str, start: &mut Instant) {
    if timed {
        println!("{part} {:.1}", start.elapsed().as_secs_f64() * 1000.0);
    }
    *start = Instant::now();
}

fn save<F: Function<K>, const K: usize>(path: &str, m: u32, seed: u32, f: &F) -> io::Result<()> {
    let mut file = BufWriter::with_capacity(PIECE, File::create(path)?);
    file.write_all(&heading(F::HEAD.0, F::HEAD.1, [m, F::RATIO, seed]))?;
    f.save(&mut file)?;
    file.into_inner()?.sync_all()
}

fn peeled<W: Word, const K: usize>(edges: &Edges<K>, timed: bool, start: &mut Instant) -> Peeled {
    let linked = link::<W, K>(edges);
    tell(timed, "link", start);
    let peeled = peel::peel(edges, linked);
    tell(timed, "peel", start);
    peeled
}

/// Peels edges, with words of 4 bytes if their places fit.
pub fn peel_all<const K: usize>(edges: &Edges<K>, timed: bool, start: &mut Instant) -> Peeled {
    if edges.ends.len() <= MOST_NARROW as usize {
        peeled::<u32, K>(edges, timed, start)
    } else {
        peeled::<u64, K>(edges, timed, start)
    }
}

fn build<F: Function<K>, const K: usize>(path: &str, seed: u32, timed: bool) -> io::Result<()> {
    let mut start = Instant::now();
    let m = count_lines(path)?;
    tell(timed, "count", &mut start);
    let n = F::vertices(m);
    let range = Divisor::new(F::range(n));
    let mut ends = Vec::with_capacity(m as usize);
    for_lines(path, |key| ends.push(F::edge(words(key, seed), &range)))?;
    let edges = Edges { vertices: n, ends };
    tell(timed, "hash", &mut start);
    let peeled = peel_all(&edges, timed, &mut start);
    assert_eq!(peeled.order.len(), m as usize, "the graph has a 2-core");
    let function = F::assign(&edges, &peeled);
    tell(timed, "assign", &mut start);
    save(&format!("{path}.mph"), m, seed, &function)?;
    tell(timed, "save", &mut start);
    Ok(())
}

// A query

/// Lines that wait to be written.
pub struct Text<'a> {
    out: StdoutLock<'a>,
    bytes: Vec<u8>,
}

impl Text<'_> {
    /// Lines for standard output.
    pub fn new() -> Self {
        Text {
            out: io::stdout().lock(),
            bytes: Vec::with_capacity(PIECE),
        }
    }

    pub fn flush(&mut self) -> io::Result<()> {
        self.out.write_all(&self.bytes)
    }

    pub fn put(&mut self, key: &[u8], answer: u32) -> io::Result<()> {
        if self.bytes.len() + key.len() + 15 > PIECE {
            self.out.write_all(&self.bytes)?;
            self.bytes.clear();
        }
        self.bytes.extend_from_slice(key);
        self.bytes.extend_from_slice(b" -> ");
        put_decimal(&mut self.bytes, answer);
        self.bytes.push(b'\n');
        Ok(())
    }
}

/// Appends a number in decimal.
fn put_decimal(text: &mut Vec<u8>, mut number: u32) {
    let mut digits = [0; 10];
    let mut at = digits.len();
    loop {
        at -= 1;
        digits[at] = b'0' + (number % 10) as u8;
        number /= 10;
        if number == 0 {
            break;
        }
    }
    text.extend_from_slice(&digits[at..]);
}

/// The function of a file, with its seed and its number of vertices.
fn load<F: Function<K>, const K: usize>(path: &str) -> io::Result<(F, u32, u32)> {
    let mut bytes = fs::read(path)?;
    let number = |at: usize| u32::from_le_bytes(bytes[at..at + 4].try_into().unwrap());
    let (m, seed) = (number(12), number(20));
    let n = F::vertices(m);
    bytes.drain(..24);
    Ok((F::load(m, n, bytes), seed, n))
}

/// Some keys at a time: first the ends of all, then the answers of all. So the looks into the cells don't wait for one another.
fn query<F: Function<K>, const K: usize>(path: &str) -> io::Result<()> {
    let (function, seed, n) = load::<F, K>(&format!("{path}.mph"))?;
    let range = Divisor::new(F::range(n));
    let mut reader = open(path)?;
    let mut batch = Batch::new();
    let mut text = Text::new();
    let mut edges = [[0; K]; BATCH];
    let mut answers = [None; BATCH];
    batch.read(&mut reader)?;
    while !batch.is_empty() {
        for (edge, key) in edges.iter_mut().zip(batch.keys()) {
            *edge = F::edge(words(key, seed), &range);
        }
        function.answers(&edges[..batch.ends.len()], &mut answers);
        for (key, answer) in batch.keys().zip(answers) {
            if let Some(number) = answer {
                text.put(key, number)?;
            }
        }
        batch.read(&mut reader)?;
    }
    text.flush()
}

/// Does what the words of the command line ask for, with functions of one algorithm.
pub fn run<F: Function<K>, const K: usize>() -> io::Result<()> {
    let args: Vec<String> = env::args().skip(1).collect();
    let args: Vec<&str> = args.iter().map(String::as_str).collect();
    match args[..] {
        ["-g", path, seed] => build::<F, K>(path, seed.parse().unwrap(), false),
        ["-t", path, seed] => build::<F, K>(path, seed.parse().unwrap(), true),
        [path] => query::<F, K>(path),
        _ => panic!("usage: [-g|-t] KEYS [SEED]"),
    }
}
