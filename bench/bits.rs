//! The packed tables in plain Rust, measured as the program `bench_bits` measures the proved ones.
//!
//! Built by `bench/bits.sh`. It takes the same arguments as `bench_bits` and prints the same lines, except for the times.

use std::env;
use std::time::Instant;

#[derive(Debug)]
#[allow(dead_code)]
enum ImageFault {
    BadCell { cell: u32 },
    BadPadding { byte: u64 },
}

// A list of zeros that are written here, as by the proved tables. `vec!` would take pages of zeros from the system one by
// one, at the first write to each, within what is timed.
fn zeros<T: Copy + Default>(n: usize) -> Vec<T> {
    let mut items = Vec::with_capacity(n);
    items.resize(n, T::default());
    items
}

trait Cells: Sized {
    fn zeroed(n: u32, bound: u32) -> Self;
    fn len(&self) -> u32;
    fn bound(&self) -> u32;
    fn get(&self, i: u32) -> u32;
    fn set(&mut self, i: u32, value: u32);
    fn image_len(n: u32, bound: u32) -> u64;
    fn byte(&self, i: u64) -> u8;
    fn from_image(n: u32, bound: u32, bytes: &[u8]) -> Result<Self, ImageFault>;
}

// What is past the last of n cells, `per_byte` a byte and `bits` bits each, in bytes that have them.
fn padding(n: u32, per_byte: u32, bits: u32, bytes: &[u8]) -> Option<ImageFault> {
    let used = n % per_byte;
    match bytes.last() {
        Some(last) if used != 0 && last >> (bits * used) != 0 => Some(ImageFault::BadPadding {
            byte: bytes.len() as u64 - 1,
        }),
        _ => None,
    }
}

struct Bits {
    bytes: Vec<u8>,
    n: u32,
}

impl Cells for Bits {
    fn zeroed(n: u32, _bound: u32) -> Bits {
        let bytes = zeros(n.div_ceil(8) as usize);
        Bits { bytes, n }
    }

    fn len(&self) -> u32 {
        self.n
    }

    fn bound(&self) -> u32 {
        2
    }

    fn get(&self, i: u32) -> u32 {
        ((self.bytes[(i / 8) as usize] >> (i % 8)) & 1) as u32
    }

    fn set(&mut self, i: u32, value: u32) {
        let byte = &mut self.bytes[(i / 8) as usize];
        *byte = (*byte & !(1 << (i % 8))) | ((value as u8) << (i % 8));
    }

    fn image_len(n: u32, _bound: u32) -> u64 {
        n.div_ceil(8) as u64
    }

    fn byte(&self, i: u64) -> u8 {
        self.bytes[i as usize]
    }

    fn from_image(n: u32, _bound: u32, bytes: &[u8]) -> Result<Bits, ImageFault> {
        if let Some(fault) = padding(n, 8, 1, bytes) {
            return Err(fault);
        }
        let bytes = bytes.to_vec();
        Ok(Bits { bytes, n })
    }
}

struct Crumbs {
    bytes: Vec<u8>,
    n: u32,
}

impl Cells for Crumbs {
    fn zeroed(n: u32, _bound: u32) -> Crumbs {
        let bytes = zeros(n.div_ceil(4) as usize);
        Crumbs { bytes, n }
    }

    fn len(&self) -> u32 {
        self.n
    }

    fn bound(&self) -> u32 {
        4
    }

    fn get(&self, i: u32) -> u32 {
        ((self.bytes[(i / 4) as usize] >> (2 * (i % 4))) & 3) as u32
    }

    fn set(&mut self, i: u32, value: u32) {
        let shift = 2 * (i % 4);
        let byte = &mut self.bytes[(i / 4) as usize];
        *byte = (*byte & !(3 << shift)) | ((value as u8) << shift);
    }

    fn image_len(n: u32, _bound: u32) -> u64 {
        n.div_ceil(4) as u64
    }

    fn byte(&self, i: u64) -> u8 {
        self.bytes[i as usize]
    }

    fn from_image(n: u32, _bound: u32, bytes: &[u8]) -> Result<Crumbs, ImageFault> {
        if let Some(fault) = padding(n, 4, 2, bytes) {
            return Err(fault);
        }
        let bytes = bytes.to_vec();
        Ok(Crumbs { bytes, n })
    }
}

// The five digits of each byte in base 3, two bits each.
static DIGITS: [u16; 256] = digits();

const fn digits() -> [u16; 256] {
    let mut rows = [0; 256];
    let mut byte = 0;
    while byte < 256 {
        let mut left = byte;
        let mut i = 0;
        while i < 5 {
            rows[byte] |= ((left % 3) as u16) << (2 * i);
            left /= 3;
            i += 1;
        }
        byte += 1;
    }
    rows
}

static WORTHS: [u32; 5] = [1, 3, 9, 27, 81];

struct Trits {
    bytes: Vec<u8>,
    n: u32,
}

fn digit(byte: u8, i: u32) -> u32 {
    ((DIGITS[byte as usize] >> (2 * i)) & 3) as u32
}

impl Cells for Trits {
    fn zeroed(n: u32, _bound: u32) -> Trits {
        let bytes = zeros(n.div_ceil(5) as usize);
        Trits { bytes, n }
    }

    fn len(&self) -> u32 {
        self.n
    }

    fn bound(&self) -> u32 {
        3
    }

    fn get(&self, i: u32) -> u32 {
        digit(self.bytes[(i / 5) as usize], i % 5)
    }

    fn set(&mut self, i: u32, value: u32) {
        let worth = WORTHS[(i % 5) as usize];
        let byte = &mut self.bytes[(i / 5) as usize];
        *byte = (*byte as u32 - digit(*byte, i % 5) * worth + value * worth) as u8;
    }

    fn image_len(n: u32, _bound: u32) -> u64 {
        n.div_ceil(5) as u64
    }

    fn byte(&self, i: u64) -> u8 {
        self.bytes[i as usize]
    }

    fn from_image(n: u32, _bound: u32, bytes: &[u8]) -> Result<Trits, ImageFault> {
        if let Some(place) = bytes.iter().position(|byte| *byte >= 243) {
            return Err(ImageFault::BadCell {
                cell: 5 * place as u32,
            });
        }
        let used = n % 5;
        match bytes.last() {
            Some(last) if used != 0 && *last as u32 >= WORTHS[used as usize] => {
                return Err(ImageFault::BadPadding {
                    byte: bytes.len() as u64 - 1,
                });
            }
            _ => {}
        }
        let bytes = bytes.to_vec();
        Ok(Trits { bytes, n })
    }
}

struct Fields {
    bytes: Vec<u8>,
    n: u32,
    bound: u32,
    width: u32,
    mask: u32,
}

fn width(bound: u32) -> u32 {
    (u32::BITS - (bound - 1).leading_zeros()).max(1)
}

fn window(bytes: &[u8], at: usize) -> u64 {
    u64::from_le_bytes(bytes[at..at + 8].try_into().unwrap())
}

fn ones(width: u32) -> u32 {
    (1 << width) - 1
}

fn cell(bytes: &[u8], i: u32, width: u32, mask: u32) -> u32 {
    let bit = i as u64 * width as u64;
    (window(bytes, (bit / 8) as usize) >> (bit % 8)) as u32 & mask
}

impl Cells for Fields {
    fn zeroed(n: u32, bound: u32) -> Fields {
        let width = width(bound);
        let bytes = zeros((n as u64 * width as u64).div_ceil(8) as usize + 8);
        Fields {
            bytes,
            n,
            bound,
            width,
            mask: ones(width),
        }
    }

    fn len(&self) -> u32 {
        self.n
    }

    fn bound(&self) -> u32 {
        self.bound
    }

    fn get(&self, i: u32) -> u32 {
        cell(&self.bytes, i, self.width, self.mask)
    }

    fn set(&mut self, i: u32, value: u32) {
        let bit = i as u64 * self.width as u64;
        let at = (bit / 8) as usize;
        let mask = (self.mask as u64) << (bit % 8);
        let new = (window(&self.bytes, at) & !mask) | ((value as u64) << (bit % 8));
        self.bytes[at..at + 8].copy_from_slice(&new.to_le_bytes());
    }

    fn image_len(n: u32, bound: u32) -> u64 {
        (n as u64 * width(bound) as u64).div_ceil(8)
    }

    fn byte(&self, i: u64) -> u8 {
        self.bytes[i as usize]
    }

    fn from_image(n: u32, bound: u32, bytes: &[u8]) -> Result<Fields, ImageFault> {
        let width = width(bound);
        let mask = ones(width);
        let mut held = Vec::with_capacity(bytes.len() + 8);
        held.extend_from_slice(bytes);
        held.extend_from_slice(&[0; 8]);
        if bound < 1 << width {
            let zeros = held.iter().position(|byte| *byte != 0);
            let clear = 8 * zeros.unwrap_or(held.len()) as u64 / width as u64;
            for i in clear.min(n as u64) as u32..n {
                if cell(&held, i, width, mask) >= bound {
                    return Err(ImageFault::BadCell { cell: i });
                }
            }
        }
        let bit = n as u64 * width as u64;
        match bytes.last() {
            Some(last) if bit % 8 != 0 && last >> (bit % 8) != 0 => {
                return Err(ImageFault::BadPadding {
                    byte: bytes.len() as u64 - 1,
                });
            }
            _ => {}
        }
        Ok(Fields {
            bytes: held,
            n,
            bound,
            width,
            mask,
        })
    }
}

struct Plain {
    items: Vec<u32>,
    bound: u32,
}

impl Cells for Plain {
    fn zeroed(n: u32, bound: u32) -> Plain {
        let items = zeros(n as usize);
        Plain { items, bound }
    }

    fn len(&self) -> u32 {
        self.items.len() as u32
    }

    fn bound(&self) -> u32 {
        self.bound
    }

    fn get(&self, i: u32) -> u32 {
        self.items[i as usize]
    }

    fn set(&mut self, i: u32, value: u32) {
        self.items[i as usize] = value;
    }

    fn image_len(n: u32, _bound: u32) -> u64 {
        4 * n as u64
    }

    fn byte(&self, i: u64) -> u8 {
        (self.items[(i / 4) as usize] >> (8 * (i % 4))) as u8
    }

    fn from_image(n: u32, bound: u32, bytes: &[u8]) -> Result<Plain, ImageFault> {
        let mut items = Vec::with_capacity(n as usize);
        for (i, four) in bytes.chunks_exact(4).enumerate() {
            let cell = u32::from_le_bytes(four.try_into().unwrap());
            if cell >= bound {
                return Err(ImageFault::BadCell { cell: i as u32 });
            }
            items.push(cell);
        }
        Ok(Plain { items, bound })
    }
}

fn random(turn: u32) -> u32 {
    let x = turn.wrapping_mul(0x9e37_79b1);
    let x = (x ^ (x >> 15)).wrapping_mul(0x85eb_ca77);
    x ^ (x >> 13)
}

fn below(x: u32, n: u32) -> u32 {
    ((x as u64 * n as u64) >> 32) as u32
}

#[inline(never)]
fn write<C: Cells>(table: &mut C, turns: u32) {
    let n = table.len();
    let bound = table.bound();
    for turn in 0..turns {
        let x = random(turn);
        table.set(below(x, n), below(x.wrapping_mul(0xc2b2_ae3d), bound));
    }
}

#[inline(never)]
fn read<C: Cells>(table: &C, turns: u32) -> u32 {
    let n = table.len();
    let mut sum: u32 = 0;
    for turn in 0..turns {
        sum = sum.wrapping_add(table.get(below(random(turn), n)));
    }
    sum
}

#[inline(never)]
fn write_image<C: Cells>(table: &C, image: &mut [u8]) {
    for (i, byte) in image.iter_mut().enumerate() {
        *byte = table.byte(i as u64);
    }
}

#[inline(never)]
fn read_image<C: Cells>(n: u32, bound: u32, image: &[u8]) -> C {
    C::from_image(n, bound, image).unwrap()
}

fn check(bytes: &[u8]) -> u32 {
    bytes.iter().fold(0u32, |sum, byte| {
        sum.wrapping_mul(31).wrapping_add(*byte as u32)
    })
}

const IMAGE_BYTES: u64 = 400_000_000;

#[derive(Clone, Copy)]
struct Plan<'a> {
    name: &'a str,
    turns: u32,
    timed: bool,
    only: Option<&'a str>,
}

fn tell(plan: Plan, work: &str, start: Instant, amount: u64) {
    if plan.timed {
        let micros = start.elapsed().as_micros();
        println!("time {} {work} {micros} {amount}", plan.name);
    }
}

fn run<C: Cells>(plan: Plan, n: u32, bound: u32) {
    let name = plan.name;
    if plan.only.is_some_and(|only| only != name) {
        return;
    }
    let mut table = C::zeroed(n, bound);
    let start = Instant::now();
    write(&mut table, plan.turns);
    tell(plan, "set", start, plan.turns as u64);
    let start = Instant::now();
    let sum = read(&table, plan.turns);
    tell(plan, "get", start, plan.turns as u64);
    println!("{name} cells {n} below {bound} sum {sum}");

    let len = C::image_len(n, bound);
    let rounds = if plan.timed { IMAGE_BYTES / len + 1 } else { 1 };
    let mut image = vec![0; len as usize];
    let start = Instant::now();
    for _ in 0..rounds {
        write_image(&table, &mut image);
    }
    tell(plan, "byte", start, len * rounds);
    let start = Instant::now();
    for _ in 1..rounds {
        let _again: C = read_image(n, bound, &image);
    }
    let again: C = read_image(n, bound, &image);
    tell(plan, "from_image", start, len * rounds);
    let sum = read(&again, 100_000);
    println!("{name} bytes {len} check {} again {sum}", check(&image));
}

const MAX_CELLS: u32 = 671_088_645;

fn small() {
    let plan = |name| Plan {
        name,
        turns: 100_000,
        timed: false,
        only: None,
    };
    run::<Bits>(plan("bits"), 100_001, 2);
    run::<Crumbs>(plan("crumbs"), 100_001, 4);
    run::<Trits>(plan("trits"), 100_001, 3);
    run::<Fields>(plan("fields"), 100_001, 100_000);
    run::<Plain>(plan("plain"), 100_001, 100_000);
}

fn large(turns: u32, only: Option<&str>) {
    let plan = |name| Plan {
        name,
        turns,
        timed: true,
        only,
    };
    run::<Bits>(plan("near bits"), 1_000_001, 2);
    run::<Crumbs>(plan("near crumbs"), 500_001, 4);
    run::<Trits>(plan("near trits"), 600_001, 3);
    run::<Fields>(plan("near fields"), 60_001, 100_000);
    run::<Fields>(plan("near fields1"), 1_000_001, 1);
    run::<Fields>(plan("near fields3"), 500_001, 3);
    run::<Plain>(plan("near plain"), 32_001, 100_000);
    run::<Bits>(plan("far bits"), MAX_CELLS, 2);
    run::<Crumbs>(plan("far crumbs"), MAX_CELLS, 4);
    run::<Trits>(plan("far trits"), MAX_CELLS, 3);
    run::<Fields>(plan("far fields"), 200_000_001, 100_000);
    run::<Plain>(plan("far plain"), 100_000_001, 100_000);
}

fn main() {
    match env::args().nth(1) {
        Some(word) => large(
            word.parse().expect("a number of turns"),
            env::args().nth(2).as_deref(),
        ),
        None => small(),
    }
}
