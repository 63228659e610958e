//! The generator of all that is drawn; README.md states it too.

/// A 64-bit linear congruence: x ← x × 6364136223846793005 + 1442695040888963407 (mod 2^64); the
/// value drawn is the new x shifted right by 33, a number of 31 bits.
#[derive(Clone, Debug)]
pub struct Random {
    state: u64,
}

impl Random {
    /// The seed is the first x; it is itself not drawn.
    pub fn new(seed: u64) -> Random {
        Random { state: seed }
    }

    /// Moves x on once and gives its upper 31 bits.
    pub fn value(&mut self) -> u64 {
        self.state = self
            .state
            .wrapping_mul(6_364_136_223_846_793_005)
            .wrapping_add(1_442_695_040_888_963_407);
        self.state >> 33
    }

    /// value mod n; one draw, also for n = 1. An n of 0 counts as 1.
    pub fn below(&mut self, n: u64) -> u64 {
        self.value() % n.max(1)
    }

    /// A number less than n of two draws, the first of them its upper bits; for n up to 2^62.
    pub fn wide(&mut self, n: u64) -> u64 {
        (self.value() << 31 | self.value()) % n.max(1)
    }

    /// A sixteen-bit number less than n, for n up to 65,536.
    pub fn small(&mut self, n: u64) -> u16 {
        (self.below(n) & 0xFFFF) as u16
    }
}

#[cfg(test)]
mod tests {
    use super::*;

    #[test]
    fn first_values_from_the_stated_formula() {
        let mut x: u128 = 1;
        let mut random = Random::new(1);
        for _ in 0..1000 {
            x = (x * 6_364_136_223_846_793_005 + 1_442_695_040_888_963_407) % (1 << 64);
            assert_eq!(u128::from(random.value()), x >> 33);
        }
    }

    #[test]
    fn below_is_the_value_mod_n() {
        let mut one = Random::new(7);
        let mut other = Random::new(7);
        for n in 1..100 {
            assert_eq!(one.below(n), other.value() % n);
        }
    }
}
