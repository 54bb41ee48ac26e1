//! What BDZ and BDZ_PH share: edges of three ends, and cells that add up to the position of a key's own vertex, modulo 3.

use crate::plain::{CHUNK, Divisor, Edges, Peeled, gather};

pub const RATIO: u32 = 1_230_000;

/// A table of cells below 4.
pub trait Cells {
    fn get(&self, i: u32) -> u32;

    /// Sets a cell that is idle.
    fn set(&mut self, i: u32, value: u32);
}

/// Three thirds, each an odd number of at least 3 for one that would be 1.
pub fn vertices(m: u32) -> u32 {
    let third = (RATIO as u64 * m as u64).div_ceil(3_000_000) as u32 | 1;
    3 * third.max(3)
}

/// One end in each third.
pub fn edge(words: [u32; 3], third: &Divisor) -> [u32; 3] {
    [
        third.rem(words[0]),
        third.n + third.rem(words[1]),
        2 * third.n + third.rem(words[2]),
    ]
}

/// Sets the idle cells of a table, edge by edge in the reverse of the order of peeling. Idle cells are 0, modulo 3. The ends of
/// some edges are read before the first of their cells is set.
pub fn assign(cells: &mut impl Cells, edges: &Edges<3>, peeled: &Peeled) {
    let mut ends = [[0; 3]; CHUNK];
    let mut positions = [0; CHUNK];
    for chunk in peeled.order.rchunks(CHUNK) {
        gather(edges, peeled, chunk, &mut ends, &mut positions);
        for i in (0..chunk.len()).rev() {
            let own = ends[i][positions[i]];
            let other = |v| if v == own { 0 } else { cells.get(v) };
            let others: u32 = ends[i].map(other).iter().sum();
            cells.set(own, (positions[i] as u32 + 9 - others) % 3);
        }
    }
}

/// The end that the cells choose.
pub fn chosen(cells: &impl Cells, ends: [u32; 3]) -> u32 {
    let sum: u32 = ends.map(|v| cells.get(v)).iter().sum();
    ends[(sum % 3) as usize]
}
