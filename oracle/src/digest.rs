//! A digest of a row of starts, in one 64-bit word.

/// FNV-1a over 64-bit words: h ← (h xor w) × 1099511628211 mod 2^64.
pub struct Digest(u64);

impl Digest {
    pub fn new() -> Digest {
        Digest(14_695_981_039_346_656_037)
    }

    pub fn fold(&mut self, word: u64) {
        self.0 = (self.0 ^ word).wrapping_mul(1_099_511_628_211);
    }

    pub fn value(&self) -> u64 {
        self.0
    }
}
