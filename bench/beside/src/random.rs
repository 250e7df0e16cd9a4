//! Numbers that look random and are the same in every run from one seed.

/// A splitmix64 generator.
#[derive(Clone, Debug)]
pub struct Random(u64);

impl Random {
    pub fn new(seed: u64) -> Random {
        Random(seed.wrapping_mul(0x9E37_79B9_7F4A_7C15) ^ 0x6B6F_756E_7068)
    }

    pub fn word(&mut self) -> u64 {
        self.0 = self.0.wrapping_add(0x9E37_79B9_7F4A_7C15);
        let mut z = self.0;
        z = (z ^ z >> 30).wrapping_mul(0xBF58_476D_1CE4_E5B9);
        z = (z ^ z >> 27).wrapping_mul(0x94D0_49BB_1331_11EB);
        z ^ z >> 31
    }

    /// A number below `end`.
    pub fn below(&mut self, end: u64) -> u64 {
        self.word() % end
    }

    /// True once in `n` times.
    pub fn once_in(&mut self, n: u64) -> bool {
        self.below(n) == 0
    }

    pub fn pick<T: Copy>(&mut self, from: &[T]) -> T {
        from[self.below(from.len() as u64) as usize]
    }

    pub fn fill(&mut self, bytes: &mut [u8]) {
        for part in bytes.chunks_mut(8) {
            part.copy_from_slice(&self.word().to_be_bytes()[..part.len()]);
        }
    }
}

/// The seeds of this run: a few fixed ones, or as many as `KOUNPHERAY_SEEDS`
/// says.
pub fn seeds() -> impl Iterator<Item = u64> {
    let given = std::env::var("KOUNPHERAY_SEEDS").ok();
    let count = match given.as_deref().map(str::parse) {
        None => 6,
        Some(Ok(count)) => count,
        Some(Err(_)) => panic!("KOUNPHERAY_SEEDS is the number of seeds to try"),
    };
    1..=count
}
