//! Keys and files of the tests.
use cmph::{Keys, Plan};

/// Keys that are all different.
pub fn generated(many: usize) -> Keys {
    (0..many).map(|i| format!("key {i}")).collect()
}

/// A plan of each algorithm.
pub fn plans() -> [Plan; 4] {
    [Plan::chm(), Plan::bdz(), Plan::bdz_ph(), Plan::brz()]
}

/// Those whose files have a length that is known before, and need no index.
pub fn known_plans() -> [Plan; 3] {
    [Plan::chm(), Plan::bdz(), Plan::bdz_ph()]
}

/// The bytes of hexadecimal digits, with blanks anywhere between bytes.
pub fn of_hex(digits: &str) -> Vec<u8> {
    let digits: Vec<u8> = digits.bytes().filter(|digit| *digit != b' ').collect();
    digits
        .chunks(2)
        .map(|pair| u8::from_str_radix(std::str::from_utf8(pair).unwrap(), 16).unwrap())
        .collect()
}

/// The function by BRZ of docs/use/formats.md, over the empty key and `a`.
#[allow(dead_code)]
pub fn two_by_brz() -> Vec<u8> {
    of_hex("434d5048444d5032 04 00 8000 02000000 b0c41200 00000000 0200 00000000 c3ff03")
}
