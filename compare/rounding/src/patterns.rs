//! Bit patterns at the places where rounding changes: subnormals, ties,
//! overflow, zeros, and the steps from one exponent to the next.

pub struct Random(pub u64);

impl Random {
    pub fn next(&mut self) -> u64 {
        self.0 ^= self.0 << 13;
        self.0 ^= self.0 >> 7;
        self.0 ^= self.0 << 17;
        self.0
    }
}

/// Zeros, infinities, NaNs of both kinds, the largest and the smallest
/// numbers, and numbers below zero.
const SPECIAL: [u32; 24] = [
    0,
    0x8000_0000,
    0x7F80_0000,
    0xFF80_0000,
    0x7FC0_0000,
    0xFFC0_0000,
    0x7F80_0001,
    0xFF80_0001,
    0x7FFF_FFFF,
    0x7F7F_FFFF,
    0x7F7F_FFFE,
    0x0080_0000,
    0x007F_FFFF,
    0x0080_0001,
    0x0000_0001,
    0x8000_0001,
    0x8080_0000,
    0xBF80_0000,
    0xC080_0000,
    0xFF7F_FFFF,
    0x3F80_0000,
    0x3F7F_FFFF,
    0x3F80_0001,
    0x3586_37BD,
];

/// Each pattern with its two neighbours.
fn around(all: &mut Vec<u64>, bits: u64) {
    all.extend([bits - 1, bits, bits + 1]);
}

pub fn roots(random: &mut Random) -> Vec<u32> {
    let mut all: Vec<u32> = SPECIAL.to_vec();
    for k in 1..23 {
        all.extend([(1 << k) - 1, 1 << k, (1 << k) + 1]);
    }
    for exponent in 1..255 {
        all.extend([
            exponent << 23,
            exponent << 23 | 1,
            exponent << 23 | 0x7F_FFFF,
        ]);
    }
    for _ in 0..200 {
        // The numbers on both sides of the square of a number half way between two.
        let half = (random.next() % (1 << 23) + (1 << 23)) as f64 + 0.5;
        let scale = ((random.next() % 80) as i32 - 40) * 2;
        let square = (half * half * 2f64.powi(scale)) as f32;
        all.extend([square.to_bits() - 1, square.to_bits(), square.to_bits() + 1]);
        all.push(random.next() as u32 % 0x0080_0000);
        all.push(((random.next() % 4096).pow(2) as f32).to_bits());
        all.push(random.next() as u32);
    }
    all
}

pub fn narrowings(random: &mut Random) -> Vec<u64> {
    let wide = |bits: u32| (f32::from_bits(bits) as f64).to_bits();
    let mut all: Vec<u64> = SPECIAL.iter().map(|&b| wide(b)).collect();
    all.extend([
        0x7FF0_0000_0000_0001,
        0xFFF0_0000_0000_0001,
        0x7FFF_FFFF_FFFF_FFFF,
    ]);
    // Above the largest f32: the tie goes to infinity.
    for bits in [
        0x47EF_FFFF_E000_0000,
        0x47EF_FFFF_F000_0000,
        0x47F0_0000_0000_0000,
    ] {
        around(&mut all, bits);
        around(&mut all, bits | 1 << 63);
    }
    // The smallest f64, and half of the smallest f32: the tie goes to zero.
    for bits in [
        2,
        0x000F_FFFF_FFFF_FFFE,
        0x3690_0000_0000_0000,
        0x36A0_0000_0000_0000,
    ] {
        around(&mut all, bits);
        around(&mut all, bits | 1 << 63);
    }
    for exponent in (1..2047).filter(|e| (870..1160).contains(e) || e % 100 == 0) {
        all.extend([exponent << 52, exponent << 52 | 0xF_FFFF_FFFF_FFFF]);
    }
    // Half way between neighbours, over an even one and over an odd one.
    for exponent in 0..255u32 {
        let low = exponent << 23 | random.next() as u32 % 0x7F_FFFE;
        for bits in [low, low + 1] {
            let tie = (f32::from_bits(bits) as f64 + f32::from_bits(bits + 1) as f64) / 2.0;
            around(&mut all, tie.to_bits());
        }
    }
    all.push(0x3FF0_0000_3000_0000); // 1 + 3 * 2 ^ -24, of document 01
    for _ in 0..200 {
        let bits = random.next();
        all.push(bits);
        all.push((bits >> 12) & 0xF_FFFF_FFFF_FFFF | (870 + bits % 290) << 52);
    }
    all
}
