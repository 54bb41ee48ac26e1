//! A split into shards in plain Rust, which checks nothing: the same files as those of `cmph_shards -n SHARDS -d DIR KEYS`.
//!
//!     shards SHARDS DIR KEYS
use std::env;
use std::fs::{self, File, OpenOptions};
use std::io::{self, Read, Write};

const ROUTE_SEED: u32 = 1_397_244_242;
const BUFFER: usize = 65_536;

fn mix([mut a, mut b, mut c]: [u32; 3]) -> [u32; 3] {
    for (right, left, last) in [(13, 8, 13), (12, 16, 5), (3, 10, 15)] {
        a = a.wrapping_sub(b).wrapping_sub(c) ^ (c >> right);
        b = b.wrapping_sub(c).wrapping_sub(a) ^ (a << left);
        c = c.wrapping_sub(a).wrapping_sub(b) ^ (b >> last);
    }
    [a, b, c]
}

/// The third hash value of lookup2.
fn third(key: &[u8], seed: u32) -> u32 {
    let mut state = [0x9e37_79b9, 0x9e37_79b9, seed];
    let word = |bytes: &[u8], at: usize| u32::from_le_bytes(bytes[at..at + 4].try_into().unwrap());
    let blocks = key.chunks_exact(12);
    let mut last = [0; 12];
    last[..blocks.remainder().len()].copy_from_slice(blocks.remainder());
    for block in blocks {
        state = mix([0, 1, 2].map(|i| state[i].wrapping_add(word(block, 4 * i))));
    }
    let length = (key.len() as u32).wrapping_add(word(&last, 8) << 8);
    mix([state[0].wrapping_add(word(&last, 0)), state[1].wrapping_add(word(&last, 4)), state[2].wrapping_add(length)])[2]
}

struct Shard {
    path: String,
    buffer: Vec<u8>,
    count: u64,
}

impl Shard {
    fn flush(&mut self) -> io::Result<()> {
        OpenOptions::new().append(true).open(&self.path)?.write_all(&self.buffer)?;
        self.buffer.clear();
        Ok(())
    }

    fn put(&mut self, line: &[u8]) -> io::Result<()> {
        if self.buffer.len() + line.len() + 1 > BUFFER {
            self.flush()?;
        }
        self.buffer.extend_from_slice(line);
        self.buffer.push(b'\n');
        self.count += 1;
        Ok(())
    }
}

fn main() -> io::Result<()> {
    let words: Vec<String> = env::args().collect();
    let (count, dir): (u32, &str) = (words[1].parse().unwrap(), &words[2]);
    let mut keys = File::open(&words[3])?;
    let shard = |number| Shard { path: format!("{dir}/shard-{number:04}"), buffer: Vec::with_capacity(BUFFER), count: 0 };
    let mut shards: Vec<Shard> = (0..count).map(shard).collect();
    for shard in &shards {
        File::create(&shard.path)?;
    }
    let (mut piece, mut held) = (vec![0; 1 << 18], 0);
    loop {
        let read = keys.read(&mut piece[held..])?;
        if read == 0 {
            break;
        }
        let (end, mut from) = (held + read, 0);
        while let Some(length) = piece[from..end].iter().position(|byte| *byte == b'\n') {
            let line = &piece[from..from + length];
            shards[(third(line, ROUTE_SEED) % count) as usize].put(line)?;
            from += length + 1;
        }
        piece.copy_within(from..end, 0);
        held = end - from;
    }
    if held > 0 {
        shards[(third(&piece[..held], ROUTE_SEED) % count) as usize].put(&piece[..held])?;
    }
    shards.iter_mut().try_for_each(Shard::flush)?;
    let counts: String = shards.iter().map(|shard| format!("{}\n", shard.count)).collect();
    fs::write(format!("{dir}/counts"), counts)
}
