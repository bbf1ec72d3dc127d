// A small generator of random numbers (xorshift with a multiplier), so that a run can be made again
// from its seed.

pub struct Dice(u64);

impl Dice {
    // The state is odd at first, and so never 0, in which the generator would stay.
    pub fn new(seed: u64) -> Dice {
        Dice(seed.wrapping_mul(2).wrapping_add(1))
    }

    pub fn below(&mut self, limit: usize) -> usize {
        self.0 ^= self.0 >> 12;
        self.0 ^= self.0 << 25;
        self.0 ^= self.0 >> 27;
        let word = self.0.wrapping_mul(0x2545_F491_4F6C_DD1D) >> 32;
        ((word * limit as u64) >> 32) as usize
    }

    // The numbers below the size in random order.
    pub fn shuffled(&mut self, size: usize) -> Vec<u16> {
        let mut list: Vec<u16> = (0..size as u16).collect();
        for at in (1..size).rev() {
            list.swap(at, self.below(at + 1));
        }
        list
    }
}
