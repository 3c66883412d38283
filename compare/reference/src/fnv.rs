//! The FNV-1a 64 hash of little-endian words.

pub fn hash(words: &[u32]) -> u64 {
    of(words.iter().flat_map(|word| word.to_le_bytes()))
}

/// Of 64-bit words in two's complement.
pub fn hash_longs(words: &[i64]) -> u64 {
    of(words.iter().flat_map(|word| word.to_le_bytes()))
}

fn of(bytes: impl Iterator<Item = u8>) -> u64 {
    bytes.fold(0xcbf2_9ce4_8422_2325, |hash, byte| {
        (hash ^ u64::from(byte)).wrapping_mul(0x0000_0100_0000_01b3)
    })
}
