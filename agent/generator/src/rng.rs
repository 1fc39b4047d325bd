//! Random numbers that a seed decides: xoshiro256**, filled by splitmix64.

/// A source of random numbers. Two with the same seed give the same numbers.
pub struct Rng {
    state: [u64; 4],
}

/// The next number of the splitmix64 sequence.
fn splitmix(state: &mut u64) -> u64 {
    *state = state.wrapping_add(0x9e37_79b9_7f4a_7c15);
    let mut z = *state;
    z = (z ^ (z >> 30)).wrapping_mul(0xbf58_476d_1ce4_e5b9);
    z = (z ^ (z >> 27)).wrapping_mul(0x94d0_49bb_1331_11eb);
    z ^ (z >> 31)
}

impl Rng {
    /// The source of this seed.
    pub fn new(seed: u64) -> Rng {
        let mut s = seed;
        Rng {
            state: [(); 4].map(|()| splitmix(&mut s)),
        }
    }

    /// One of many sources of a seed, so that threads can share the work and each part stays the
    /// same however it is shared.
    pub fn part(seed: u64, part: u64) -> Rng {
        let mut s = part;
        Rng::new(seed ^ splitmix(&mut s))
    }

    /// Any 64-bit number.
    pub fn word(&mut self) -> u64 {
        let s = &mut self.state;
        let word = s[1].wrapping_mul(5).rotate_left(7).wrapping_mul(9);
        let t = s[1] << 17;
        s[2] ^= s[0];
        s[3] ^= s[1];
        s[1] ^= s[2];
        s[0] ^= s[3];
        s[2] ^= t;
        s[3] = s[3].rotate_left(45);
        word
    }

    /// Any byte.
    pub fn byte(&mut self) -> u8 {
        self.word().to_le_bytes()[7]
    }

    /// A number below `limit`, which is not 0.
    pub fn below(&mut self, limit: usize) -> usize {
        ((u128::from(self.word()) * limit as u128) >> 64) as usize
    }

    /// True once in `many` times.
    pub fn one_in(&mut self, many: usize) -> bool {
        self.below(many) == 0
    }

    /// One of the choices, of which there is at least one.
    pub fn pick<T: Copy>(&mut self, choices: &[T]) -> T {
        choices[self.below(choices.len())]
    }

    /// A number of at most `bits` bits, 1 to 64, often at an edge: near 0, near the middle, where the
    /// sign would turn, or near the largest.
    pub fn number(&mut self, bits: u32) -> u64 {
        let largest = u64::MAX >> (64 - bits);
        let near = self.below(4) as u64;
        let number = match self.below(8) {
            0 | 1 => near,
            2 => largest - near.min(largest),
            3 => (largest / 2).wrapping_add(near).wrapping_sub(1),
            4 => 1 << self.below(bits as usize),
            5 => self.word() & 0xff,
            _ => self.word(),
        };
        number & largest
    }
}
