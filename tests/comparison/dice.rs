// A small generator of random numbers (splitmix), so that every draw can be made again from the
// seed.

pub struct Dice(u64);

impl Dice {
    pub fn new(seed: u64) -> Dice {
        Dice(seed)
    }

    pub fn next(&mut self) -> u64 {
        self.0 = self.0.wrapping_add(0x9E37_79B9_7F4A_7C15);
        let mut word = self.0;
        word = (word ^ (word >> 30)).wrapping_mul(0xBF58_476D_1CE4_E5B9);
        word = (word ^ (word >> 27)).wrapping_mul(0x94D0_49BB_1331_11EB);
        word ^ (word >> 31)
    }

    pub fn below(&mut self, limit: usize) -> usize {
        (self.next() % limit as u64) as usize
    }

    pub fn in_hundred(&mut self, chances: usize) -> bool {
        self.below(100) < chances
    }

    pub fn coin(&mut self) -> bool {
        self.in_hundred(50)
    }

    pub fn pick<T: Copy>(&mut self, from: &[T]) -> T {
        from[self.below(from.len())]
    }

    // Half of it could pass for row and column numbers: rubbish that never could hides who reads
    // it.
    pub fn rubbish(&mut self, length: usize) -> Vec<u16> {
        let limit = if self.coin() { 0x10000 } else { 16 };
        (0..length).map(|_| self.below(limit) as u16).collect()
    }

    pub fn bytes(&mut self, length: usize) -> Vec<u8> {
        (0..length).map(|_| self.below(0x100) as u8).collect()
    }

    // Each number below the size once, in random order.
    pub fn shuffled(&mut self, size: usize) -> Vec<usize> {
        let mut list: Vec<usize> = (0..size).collect();
        for at in (1..size).rev() {
            list.swap(at, self.below(at + 1));
        }
        list
    }

    // Each of the numbers is kept with the given chance.
    pub fn some_of(&mut self, from: &[usize], chances: usize) -> Vec<usize> {
        from.iter()
            .copied()
            .filter(|_| self.in_hundred(chances))
            .collect()
    }
}
