//! A small seedable source of numbers (splitmix64), so that every run can be repeated.

pub struct Random {
    state: u64,
}

impl Random {
    // A source that starts from a seed.
    pub fn new(seed: u64) -> Random {
        Random { state: seed }
    }

    // The next 64 bits of splitmix64.
    pub fn draw(&mut self) -> u64 {
        self.state = self.state.wrapping_add(0x9E37_79B9_7F4A_7C15);
        let mut mixed = self.state;
        mixed = (mixed ^ (mixed >> 30)).wrapping_mul(0xBF58_476D_1CE4_E5B9);
        mixed = (mixed ^ (mixed >> 27)).wrapping_mul(0x94D0_49BB_1331_11EB);
        mixed ^ (mixed >> 31)
    }

    // FORMAT 1.2: any word of 32 bits.
    pub fn word(&mut self) -> u32 {
        (self.draw() >> 32) as u32
    }

    // A number from 0 to bound - 1; bound is not 0.
    pub fn below(&mut self, bound: u64) -> u64 {
        (self.draw() >> 11) % bound
    }

    // A number from low to high, both included.
    pub fn between(&mut self, low: u64, high: u64) -> u64 {
        low + self.below(high - low + 1)
    }

    // True once in so many times.
    pub fn once_in(&mut self, times: u64) -> bool {
        self.below(times) == 0
    }

    // A member of a list that is not empty.
    pub fn pick<T: Copy>(&mut self, list: &[T]) -> T {
        list[self.below(list.len() as u64) as usize]
    }
}
