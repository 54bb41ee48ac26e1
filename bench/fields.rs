//! Cells of some bits each, one after another, as function files and filter files have them.

/// How many bytes follow the cells, so that whole words can be read.
const SPARE: usize = 8;

/// How many bits cells below a bound have.
pub fn width(bound: u32) -> u32 {
    (1..27).find(|w| bound <= 1 << w).unwrap()
}

/// A table of cells, with spare bytes at the end.
pub struct Fields {
    bytes: Vec<u8>,
    width: u32,
    mask: u32,
}

impl Fields {
    /// n cells below a bound, all of them 0.
    pub fn zeroed(n: u32, bound: u32) -> Fields {
        let len = (n as u64 * width(bound) as u64).div_ceil(8) as usize;
        Fields::from_image(vec![0; len], bound)
    }

    /// The cells below a bound whose image this is.
    pub fn from_image(mut bytes: Vec<u8>, bound: u32) -> Fields {
        bytes.extend_from_slice(&[0; SPARE]);
        let width = width(bound);
        let mask = (1 << width) - 1;
        Fields { bytes, width, mask }
    }

    pub fn image(&self) -> &[u8] {
        &self.bytes[..self.bytes.len() - SPARE]
    }

    fn window(&self, i: u32) -> (usize, u32, u64) {
        let bit = i as u64 * self.width as u64;
        let at = (bit / 8) as usize;
        let bytes = self.bytes[at..at + 8].try_into().unwrap();
        (at, (bit % 8) as u32, u64::from_le_bytes(bytes))
    }

    pub fn get(&self, i: u32) -> u32 {
        let (_, shift, window) = self.window(i);
        (window >> shift) as u32 & self.mask
    }

    pub fn set(&mut self, i: u32, value: u32) {
        let (at, shift, window) = self.window(i);
        let new = window & !((self.mask as u64) << shift) | (value as u64) << shift;
        self.bytes[at..at + 8].copy_from_slice(&new.to_le_bytes());
    }
}
