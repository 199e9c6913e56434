//! Random numbers from a seed (splitmix64).
use magnetar_field::Gf128;

#[derive(Clone)]
pub struct Random(pub u64);

impl Random {
    pub fn word(&mut self) -> u64 {
        self.0 = self.0.wrapping_add(0x9E3779B97F4A7C15);
        let mut z = self.0;
        z = (z ^ (z >> 30)).wrapping_mul(0xBF58476D1CE4E5B9);
        z = (z ^ (z >> 27)).wrapping_mul(0x94D049BB133111EB);
        z ^ (z >> 31)
    }

    pub fn below(&mut self, n: usize) -> usize {
        (self.word() % n as u64) as usize
    }

    /// One time in `n`.
    pub fn one_in(&mut self, n: usize) -> bool {
        self.below(n) == 0
    }

    pub fn pick<T: Copy>(&mut self, from: &[T]) -> T {
        from[self.below(from.len())]
    }

    pub fn bytes(&mut self, n: usize) -> Vec<u8> {
        (0..n).map(|_| self.word() as u8).collect()
    }

    pub fn words(&mut self, n: usize) -> Vec<u64> {
        (0..n).map(|_| self.word()).collect()
    }

    pub fn wide(&mut self) -> u128 {
        (self.word() as u128) << 64 | self.word() as u128
    }

    /// An element: often a special one, so that challenges of 0 and 1, single bits and single words come up.
    pub fn element(&mut self) -> Gf128 {
        Gf128(match self.below(12) {
            0 => 0,
            1 => 1,
            2 => 1 << self.below(128),
            3 => self.word() as u128,
            4 => (self.word() as u128) << 64,
            5 => u128::MAX,
            _ => self.wide(),
        })
    }

    /// Elements: at random, bits, the special ones, or one again and again.
    pub fn elements(&mut self, n: usize) -> Vec<Gf128> {
        let kind = self.below(6);
        let again = self.element();
        (0..n)
            .map(|_| match kind {
                0 => Gf128(self.below(2) as u128),
                1 => again,
                2 => self.element(),
                _ => Gf128(self.wide()),
            })
            .collect()
    }
}
