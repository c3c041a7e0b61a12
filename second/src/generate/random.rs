//! A small seeded generator: xoshiro256** whose state comes from splitmix64.

pub struct Random {
    state: [u64; 4],
}

/// The kinds of generated things draw from streams of their own, each from its seed and number.
pub const FLIPS: u64 = 1 << 63;
pub const DAYS: u64 = 1 << 62;
pub const LISTINGS: u64 = 1 << 61;
pub const EXTRACTS: u64 = 1 << 60;
pub const TRAYS: u64 = 1 << 59;
pub const STRIPS: u64 = 1 << 58;
pub const RECEIVED: u64 = 1 << 57;
pub const SHOWN: u64 = 1 << 56;
pub const COMPANIES: u64 = 1 << 55;

/// The 57 good characters.
pub const CHARACTERS: &[u8; 57] = b" !#$%()*+,-./0123456789:;<=>?@ABCDEFGHIJKLMNOPQRSTUVWXYZ_";

impl Random {
    /// Each stream of a seed is a generator of its own, so that any file can be made alone.
    pub fn new(seed: u64, stream: u64) -> Self {
        let mut mixed = splitmix(seed).wrapping_add(stream.wrapping_mul(0xd134_2543_de82_ef95));
        let state = std::array::from_fn(|_| {
            mixed = mixed.wrapping_add(0x9e37_79b9_7f4a_7c15);
            splitmix(mixed)
        });
        Random { state }
    }

    pub fn draw(&mut self) -> u64 {
        let state = &mut self.state;
        let drawn = state[1].wrapping_mul(5).rotate_left(7).wrapping_mul(9);
        let shifted = state[1] << 17;
        state[2] ^= state[0];
        state[3] ^= state[1];
        state[1] ^= state[2];
        state[0] ^= state[3];
        state[2] ^= shifted;
        state[3] = state[3].rotate_left(45);
        drawn
    }

    /// A number from 0 to `limit - 1`.
    pub fn below(&mut self, limit: usize) -> usize {
        ((u128::from(self.draw()) * limit as u128) >> 64) as usize
    }

    /// A number from `low` to `high`, both included.
    pub fn between(&mut self, low: usize, high: usize) -> usize {
        low + self.below(high - low + 1)
    }

    /// A position of a field, with both ends as likely as all the rest.
    pub fn position(&mut self, from: usize, to: usize) -> usize {
        match self.below(3) {
            0 => from,
            1 => to,
            _ => self.between(from, to),
        }
    }

    /// True once in `times`.
    pub fn once_in(&mut self, times: usize) -> bool {
        self.below(times) == 0
    }

    pub fn pick<'a, T>(&mut self, choices: &'a [T]) -> &'a T {
        &choices[self.below(choices.len())]
    }

    pub fn byte(&mut self) -> u8 {
        self.draw() as u8
    }

    pub fn character(&mut self) -> u8 {
        *self.pick(CHARACTERS)
    }

    pub fn digit(&mut self) -> u8 {
        b'0' + self.below(10) as u8
    }

    /// A good character for which `wanted` holds.
    pub fn character_with(&mut self, wanted: impl Fn(u8) -> bool) -> u8 {
        loop {
            let character = self.character();
            if wanted(character) {
                return character;
            }
        }
    }
}

fn splitmix(seed: u64) -> u64 {
    let mut mixed = seed;
    mixed = (mixed ^ (mixed >> 30)).wrapping_mul(0xbf58_476d_1ce4_e5b9);
    mixed = (mixed ^ (mixed >> 27)).wrapping_mul(0x94d0_49bb_1331_11eb);
    mixed ^ (mixed >> 31)
}
