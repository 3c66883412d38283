//! A coordinate in whole millimetres (document 02, request 1).

/// 2^40 as bits: of every f32 up to it the rule is claimed.
const FARTHEST: u32 = 0x5380_0000;

/// The exact product of x and 1,000, rounded to the nearest whole number, by whole numbers alone.
pub fn millimetres(x: f32) -> i64 {
    let bits = x.to_bits();
    assert!(bits & 0x7FFF_FFFF <= FARTHEST, "out of reach: {x}");
    let fraction = u128::from(bits & 0x7F_FFFF);
    // The magnitude is the significand times 2^(exponent - 150).
    let (significand, exponent) = match bits >> 23 & 255 {
        0 => (fraction, 1),
        e => (fraction + (1 << 23), e),
    };
    let product = 1000 * significand;
    let magnitude = if exponent >= 150 {
        product << (exponent - 150)
    } else {
        // The product is under 2^34: 100 places down it is nearest to 0, as it is farther down.
        nearest(product, (150 - exponent).min(100))
    };
    let magnitude = i64::try_from(magnitude).expect("under 2^50");
    if bits >> 31 == 1 {
        -magnitude
    } else {
        magnitude
    }
}

/// The whole number nearest to n / 2^places, a half away from zero.
fn nearest(n: u128, places: u32) -> u128 {
    let one = 1 << places;
    let (whole, rest) = (n / one, n % one);
    whole + u128::from(2 * rest >= one)
}

/// The same by floating-point numbers, as a Rust programmer would write it: the product is exact in
/// an f64.
#[inline]
pub fn plain(x: f32) -> i64 {
    (f64::from(x) * 1000.0).round() as i64
}

#[cfg(test)]
mod tests {
    use super::*;

    #[test]
    fn halves_go_away_from_zero() {
        assert_eq!(millimetres(0.0625), 63);
        assert_eq!(millimetres(0.1875), 188);
        assert_eq!(millimetres(-0.0625), -63);
        assert_eq!(millimetres(-0.1875), -188);
    }

    /// An f32 is in the middle between two millimetres where it is an odd number of sixteenths.
    #[test]
    fn every_half() {
        for odd in (1..1 << 24).step_by(2) {
            let x = odd as f32 / 16.0;
            assert_eq!(millimetres(x), (125 * odd + 1) / 2);
            assert_eq!(millimetres(-x), -(125 * odd + 1) / 2);
        }
    }

    #[test]
    fn beside_a_half() {
        let moved = |x: f32, by: i32| f32::from_bits(x.to_bits().wrapping_add_signed(by));
        for (x, below) in [
            (0.0625, 62),
            (0.1875, 187),
            (0.3125, 312),
            (1000.0625, 1_000_062),
        ] {
            assert_eq!(millimetres(moved(x, -1)), below);
            assert_eq!(millimetres(moved(x, 1)), below + 1);
            assert_eq!(millimetres(moved(-x, -1)), -below);
            assert_eq!(millimetres(moved(-x, 1)), -below - 1);
        }
    }

    #[test]
    fn the_ends_of_the_range() {
        assert_eq!(millimetres(0.0), 0);
        assert_eq!(millimetres(-0.0), 0);
        assert_eq!(millimetres(f32::from_bits(1)), 0);
        assert_eq!(millimetres(-f32::from_bits(1)), 0);
        assert_eq!(millimetres(f32::MIN_POSITIVE), 0);
        assert_eq!(millimetres(16_777_216.0), 16_777_216_000);
        assert_eq!(millimetres(-16_777_216.0), -16_777_216_000);
        assert_eq!(millimetres(6.0 * 16_777_216.0), 100_663_296_000);
        assert_eq!(millimetres(f32::from_bits(FARTHEST)), 1000 << 40);
        assert_eq!(millimetres(-f32::from_bits(FARTHEST)), -(1000 << 40));
    }

    #[test]
    #[should_panic(expected = "out of reach")]
    fn past_the_end() {
        millimetres(f32::from_bits(FARTHEST + 1));
    }

    #[test]
    fn agrees_with_floating_point() {
        let random = &mut crate::random::Random::new(1);
        for step in (0..=FARTHEST).step_by(400) {
            let any = random.word() as u32 % (FARTHEST + 1);
            for bits in [step, any] {
                let x = f32::from_bits(bits);
                assert_eq!(millimetres(x), plain(x), "{bits:08X}");
                assert_eq!(millimetres(-x), plain(-x), "-{bits:08X}");
            }
        }
    }
}
