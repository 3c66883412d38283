//! Exact areas (document 01, section 6): each f32 as a whole multiple of
//! 2^-149, each area as one of 2^-298, in whole numbers of 512 bits.

use std::ops::{Add, Mul, Neg, Sub};

const LIMBS: usize = 8;

/// A whole number in two's complement, lowest limb first. Coordinates stay
/// under 2^30, so a product is under 2^362 and a sum of 2^20 areas under
/// 2^384: nothing is lost.
#[derive(Debug, Clone, Copy, PartialEq, Eq)]
pub struct Whole([u64; LIMBS]);

impl Whole {
    pub const ZERO: Self = Self([0; LIMBS]);

    /// `x` as a multiple of 2^-149.
    pub fn of(x: f32) -> Self {
        assert!(
            x.abs() < (1 << 30) as f32,
            "too large for an exact area: {x}"
        );
        let bits = x.to_bits();
        let exponent = bits >> 23 & 255;
        let fraction = u64::from(bits & 0x7F_FFFF);
        let (significand, shift) = match exponent {
            0 => (fraction, 0),
            e => (fraction + (1 << 23), e as usize - 1),
        };
        let wide = u128::from(significand) << (shift % 64);
        let mut limbs = [0; LIMBS];
        limbs[shift / 64] = wide as u64;
        limbs[shift / 64 + 1] = (wide >> 64) as u64;
        if x.is_sign_negative() {
            -Self(limbs)
        } else {
            Self(limbs)
        }
    }

    pub fn is_negative(self) -> bool {
        self.0[LIMBS - 1] >> 63 == 1
    }
}

impl Add for Whole {
    type Output = Self;
    fn add(self, other: Self) -> Self {
        let mut carry = 0;
        Self(std::array::from_fn(|i| {
            let sum = u128::from(self.0[i]) + u128::from(other.0[i]) + carry;
            carry = sum >> 64;
            sum as u64
        }))
    }
}

impl Neg for Whole {
    type Output = Self;
    fn neg(self) -> Self {
        let mut one = [0; LIMBS];
        one[0] = 1;
        Self(self.0.map(|limb| !limb)) + Self(one)
    }
}

impl Sub for Whole {
    type Output = Self;
    fn sub(self, other: Self) -> Self {
        self + -other
    }
}

impl Mul for Whole {
    type Output = Self;
    fn mul(self, other: Self) -> Self {
        let mut limbs = [0; LIMBS];
        for i in 0..LIMBS {
            let mut carry = 0;
            for j in 0..LIMBS - i {
                let sum = u128::from(self.0[i]) * u128::from(other.0[j])
                    + u128::from(limbs[i + j])
                    + carry;
                limbs[i + j] = sum as u64;
                carry = sum >> 64;
            }
        }
        Self(limbs)
    }
}

impl std::iter::Sum for Whole {
    fn sum<I: Iterator<Item = Self>>(terms: I) -> Self {
        terms.fold(Self::ZERO, Add::add)
    }
}

/// The exact double area of a, b, c.
pub fn area(a: [f32; 2], b: [f32; 2], c: [f32; 2]) -> Whole {
    let ([a0, a1], [b0, b1], [c0, c1]) = (a.map(Whole::of), b.map(Whole::of), c.map(Whole::of));
    (b0 - a0) * (c1 - a1) - (b1 - a1) * (c0 - a0)
}

/// The sum over a ring's fan from its first corner.
pub fn ring_area(ring: &[[f32; 2]]) -> Whole {
    let edges = ring.windows(2);
    edges.map(|edge| area(ring[0], edge[0], edge[1])).sum()
}

#[cfg(test)]
mod tests {
    use super::*;

    fn whole(n: i128) -> Whole {
        let mut limbs = [if n < 0 { u64::MAX } else { 0 }; LIMBS];
        (limbs[0], limbs[1]) = (n as u64, (n >> 64) as u64);
        Whole(limbs)
    }

    #[test]
    fn agrees_with_small_whole_numbers() {
        let mut random = crate::random::Random::new(1);
        for _ in 0..10_000 {
            let (a, b) = (random.word() as i64 as i128, random.word() as i64 as i128);
            assert_eq!(whole(a) + whole(b), whole(a + b));
            assert_eq!(whole(a) - whole(b), whole(a - b));
            assert_eq!(whole(a) * whole(b), whole(a * b));
            assert_eq!(whole(a).is_negative(), a < 0);
        }
    }

    #[test]
    fn a_number_is_its_multiple() {
        assert_eq!(Whole::of(f32::from_bits(1)), whole(1));
        assert_eq!(Whole::of(-f32::from_bits(3)), whole(-3));
        assert_eq!(Whole::of(f32::MIN_POSITIVE), whole(1 << 23));
        assert_eq!(Whole::of(-0.0), whole(0));
        let unit = Whole::of(1.0);
        assert_eq!(Whole::of(-5.0), unit * whole(-5));
        assert_eq!(Whole::of(16_777_216.0), unit * whole(16_777_216));
    }

    #[test]
    fn square() {
        let ring = [[0.0, 0.0], [4.0, 0.0], [4.0, 4.0], [0.0, 4.0]];
        let unit = Whole::of(1.0);
        assert_eq!(ring_area(&ring), unit * unit * whole(32));
    }
}
