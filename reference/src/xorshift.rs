//! The draws behind every generated world and journal: a 64-bit xorshift with
//! a multiplied output. The same seed gives the same draws everywhere.

#[derive(Clone, Debug)]
pub struct Draws {
    state: u64,
}

impl Draws {
    pub fn new(seed: u64) -> Draws {
        // Seeds that lie close together must not give similar first draws.
        let mut state = seed.wrapping_add(0x9e37_79b9_7f4a_7c15);
        state = (state ^ (state >> 30)).wrapping_mul(0xbf58_476d_1ce4_e5b9);
        state = (state ^ (state >> 27)).wrapping_mul(0x94d0_49bb_1331_11eb);
        state ^= state >> 31;
        Draws {
            state: state.max(1),
        }
    }

    pub fn word(&mut self) -> u64 {
        self.state ^= self.state >> 12;
        self.state ^= self.state << 25;
        self.state ^= self.state >> 27;
        self.state.wrapping_mul(0x2545_f491_4f6c_dd1d)
    }

    /// A number below the bound, which is at least 1.
    pub fn below(&mut self, bound: usize) -> usize {
        (((self.word() >> 32) * bound as u64) >> 32) as usize
    }

    /// A number from the least to the largest, both included.
    pub fn between(&mut self, least: usize, largest: usize) -> usize {
        least + self.below(largest - least + 1)
    }

    /// True with this many chances in a hundred.
    pub fn chance(&mut self, percent: usize) -> bool {
        self.below(100) < percent
    }

    pub fn pick<'a, T>(&mut self, list: &'a [T]) -> Option<&'a T> {
        if list.is_empty() {
            return None;
        }
        list.get(self.below(list.len()))
    }

    /// The number of one of the weights, drawn by weight.
    pub fn by_weight(&mut self, weights: &[u32]) -> usize {
        let total: u32 = weights.iter().sum();
        let mut left = self.below(total as usize) as u32;
        for (number, weight) in weights.iter().enumerate() {
            if left < *weight {
                return number;
            }
            left -= weight;
        }
        weights.len() - 1
    }

    pub fn shuffle<T>(&mut self, list: &mut [T]) {
        for last in (1..list.len()).rev() {
            list.swap(last, self.below(last + 1));
        }
    }

    /// The number of one of the bits that are set, counted from 1; 0 if none
    /// is.
    pub fn pick_bit(&mut self, bits: u32) -> u8 {
        if bits == 0 {
            return 0;
        }
        let mut left = self.below(bits.count_ones() as usize);
        let mut bits = bits;
        while left > 0 {
            bits &= bits - 1;
            left -= 1;
        }
        bits.trailing_zeros() as u8 + 1
    }

    /// This many different bits among the lowest `pool`.
    pub fn bits(&mut self, count: usize, pool: usize) -> u32 {
        let mut numbers: Vec<u32> = (0..pool as u32).collect();
        self.shuffle(&mut numbers);
        numbers
            .iter()
            .take(count)
            .fold(0, |bits, number| bits | 1 << number)
    }
}
