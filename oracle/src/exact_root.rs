//! 01's cube root: the largest float whose exact cube, over whole numbers, is at
//! most the argument; either 0 gives +0.
//!
//! A positive float is m × 2^e. With s = 104, 105 or 106 such that e - s is
//! divisible by 3, X = m × 2^s lies in [2^156, 2^159), so its whole cube root has
//! exactly 53 bits, and with 2^((e - s) / 3) it is the float asked for.

/// A whole number below 2^192, least word first.
#[derive(Clone, Copy, Debug, PartialEq, Eq)]
struct Wide([u64; 3]);

impl Wide {
    /// n × 2^by, where the result is below 2^192.
    fn shifted(n: u64, by: u32) -> Wide {
        let (word, bit) = ((by / 64) as usize, by % 64);
        let spread = u128::from(n) << bit;
        let mut words = [0; 3];
        words[word] = spread as u64;
        if word < 2 {
            words[word + 1] = (spread >> 64) as u64;
        }
        Wide(words)
    }

    /// n³, for n below 2^54.
    fn cube(n: u64) -> Wide {
        let square = u128::from(n) * u128::from(n);
        let low = u128::from(square as u64) * u128::from(n);
        let high = (square >> 64) * u128::from(n) + (low >> 64);
        Wide([low as u64, high as u64, (high >> 64) as u64])
    }

    fn at_most(self, other: Wide) -> bool {
        self.0.iter().rev().le(other.0.iter().rev())
    }
}

/// The mantissa in [2^52, 2^53) and exponent of a positive float.
fn taken_apart(x: f64) -> (u64, i32) {
    let bits = x.to_bits();
    let exponent = (bits >> 52) as i32;
    let fraction = bits & ((1 << 52) - 1);
    if exponent > 0 {
        return (fraction | 1 << 52, exponent - 1075);
    }
    let lift = fraction.leading_zeros() - 11;
    (fraction << lift, -1074 - lift as i32)
}

/// Panics on a negative or infinite argument: 01's rules reach none.
pub fn exact_root(x: f64) -> f64 {
    if x == 0.0 {
        return 0.0;
    }
    assert!(x > 0.0 && x.is_finite(), "no root of {x} is asked for");
    let (mantissa, exponent) = taken_apart(x);
    let shift = 104 + (exponent - 104).rem_euclid(3);
    let argument = Wide::shifted(mantissa, shift as u32);

    let mut root = 0;
    for bit in (0..53).rev() {
        let larger = root | 1 << bit;
        if Wide::cube(larger).at_most(argument) {
            root = larger;
        }
    }
    let scale = (exponent - shift) / 3;
    // A 53-bit mantissa times a power of two: the root of any float is a normal one.
    f64::from_bits(((scale + 1075) as u64) << 52 | (root & ((1 << 52) - 1)))
}

#[cfg(test)]
mod tests {
    use super::*;

    #[test]
    fn rehearsal_root_of_8_is_2_and_of_either_0_is_plus_0() {
        assert_eq!(exact_root(8.0).to_bits(), 2.0f64.to_bits());
        assert_eq!(exact_root(0.0).to_bits(), 0);
        assert_eq!(exact_root(-0.0).to_bits(), 0);
    }

    #[test]
    fn just_below_a_cube_the_root_steps_down_once() {
        let below = |x: f64| f64::from_bits(x.to_bits() - 1);
        for n in [3.0f64, 5.0, 7.0, 11.0] {
            assert_eq!(exact_root(n * n * n), n);
            assert_eq!(exact_root(below(n * n * n)), below(n));
        }
    }

    #[test]
    fn scaling_by_8_scales_the_root_by_2() {
        let mut x = 1.23456789e-18;
        while x < 1e12 {
            assert_eq!(exact_root(x * 8.0), 2.0 * exact_root(x));
            x *= 1.7;
        }
    }

    /// The cube over whole numbers, by another way: decimal digits by hand.
    #[test]
    fn cube_of_the_largest_mantissa_is_exact() {
        // (2^53 - 1)^3 = 2^159 - 3 × 2^106 + 3 × 2^53 - 1.
        let cube = Wide::cube((1 << 53) - 1);
        let low: u128 = (3u128 << 53) - 1;
        assert_eq!(cube.0[0], low as u64);
        let middle = 0u64.wrapping_sub(3 << 42);
        assert_eq!(cube.0[1], middle);
        assert_eq!(cube.0[2], (1 << 31) - 1);
    }

    #[test]
    fn smallest_float_has_a_root() {
        // 2^-1074 = (2^-358)^3.
        assert_eq!(exact_root(f64::from_bits(1)), 2f64.powi(-358));
    }
}
