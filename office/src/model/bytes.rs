//! Numbers in bytes. All of them are big-endian; a byte past the end reads as 0, so that every rule can be asked of every
//! input, also of one that an earlier rule refuses.

/// The unsigned number of `width` bytes at `from`.
pub fn number(bytes: &[u8], from: usize, width: usize) -> i128 {
    (from..from + width).fold(0, |sum, at| sum * 256 + i128::from(bytes.get(at).copied().unwrap_or(0)))
}

/// The same bytes as two's complement.
pub fn signed(bytes: &[u8], from: usize, width: usize) -> i128 {
    let all = 1 << (8 * width);
    let plain = number(bytes, from, width);
    if plain >= all / 2 { plain - all } else { plain }
}

/// Appends a number in `width` bytes; a negative one as two's complement. It panics if the number does not fit.
pub fn put(bytes: &mut Vec<u8>, value: i128, width: usize) {
    let all: i128 = 1 << (8 * width);
    assert!(-all / 2 <= value && value < all, "{value} does not fit {width} bytes");
    let plain = if value < 0 { value + all } else { value };
    bytes.extend((0..width).rev().map(|place| (plain >> (8 * place)) as u8));
}

/// A fraction of whole numbers, rounded up; the divisor is above 0.
pub fn up(over: i128, under: i128) -> i128 {
    over.div_euclid(under) + i128::from(over.rem_euclid(under) > 0)
}
