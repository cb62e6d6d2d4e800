//! 64-bit FNV-1a, in numbers wide enough for the whole product.

/// Over any bytes.
pub fn bytes(s: &[u8]) -> u64 {
    let mut h: u128 = 0xcbf2_9ce4_8422_2325;
    for b in s {
        h ^= u128::from(*b);
        h *= 0x100_0000_01b3;
        h %= 1 << 64;
    }
    h as u64
}

/// Over sixteen bytes: the salt and then the identifier, each least significant byte first.
pub fn key(salt: u64, identifier: u64) -> u64 {
    let mut sixteen = [0; 16];
    for (i, byte) in sixteen.iter_mut().enumerate() {
        let word = if i < 8 { salt } else { identifier };
        *byte = (word >> (8 * (i % 8))) as u8;
    }
    bytes(&sixteen)
}
