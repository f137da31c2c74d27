// SPDX-License-Identifier: Apache-2.0 OR MIT
//! The frames that come again and again in docs/EXAMPLES.md.

/// A ReadProperty of property 85 of object 0:5, in its canonical octets.
pub const F1: &str = "0104 0005010C 0C00000005 1955";
/// F1 in another spelling.
pub const F2: &str = "0154 0185010C 0C00000005 1A0055";
/// An answer to F1, with a Real in it.
pub const F4: &str = "0100 30010C 0C00000005 1955 3E 444290999A 3F";

/// Returns the octets of pairs of hexadecimal digits. Blanks are for reading only.
pub fn octets(digits: &str) -> Vec<u8> {
    let digits: Vec<u8> = digits.bytes().filter(|octet| *octet != b' ').collect();
    let pairs = digits.chunks(2).map(|pair| std::str::from_utf8(pair).expect("digits are in ASCII"));
    pairs.map(|pair| u8::from_str_radix(pair, 16).expect("pairs are hexadecimal digits")).collect()
}
