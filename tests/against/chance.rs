//! A generator with a fixed seed, and the alignments that more than one mode draws.

/// A generator with a fixed seed (xorshift*).
pub struct Rng(pub u64);

impl Rng {
    pub fn next(&mut self) -> u64 {
        self.0 ^= self.0 >> 12;
        self.0 ^= self.0 << 25;
        self.0 ^= self.0 >> 27;
        self.0.wrapping_mul(0x2545_f491_4f6c_dd1d)
    }

    pub fn below(&mut self, n: u64) -> u64 {
        if n == 0 { 0 } else { self.next() % n }
    }

    pub fn one_in(&mut self, n: u64) -> bool {
        self.below(n) == 0
    }
}

pub fn random_align(rng: &mut Rng) -> u64 {
    match rng.below(20) {
        0 => 1 << rng.below(64),
        1..=4 => 1 << rng.below(17),
        _ => 1 << rng.below(6),
    }
}

/// An alignment for the room report, and now and then a number that is no alignment.
pub fn any_align(rng: &mut Rng) -> u64 {
    if rng.one_in(32) { 3 * rng.below(4) } else { random_align(rng) }
}

/// These alignments have a generator of their own: the calls of a seed do not depend on what is compared between them.
pub fn aligns_of(seed: u64) -> Rng {
    Rng(seed.wrapping_mul(2) | 1)
}
