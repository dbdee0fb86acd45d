//! The values that are asked about: the same on every run and every machine.

/// Where words wrap, clip or change sign.
pub const EDGES: [i32; 16] = [
    i32::MIN,
    i32::MIN + 1,
    -(1 << 30) - 1,
    -(1 << 30),
    -(1 << 29) - 1,
    -65536,
    -2,
    -1,
    0,
    1,
    3,
    1 << 29,
    (1 << 30) - 1,
    1 << 30,
    i32::MAX - 1,
    i32::MAX,
];

/// The generator splitmix64.
pub struct Dice {
    state: u64,
}

impl Dice {
    pub fn new(seed: u64) -> Dice {
        Dice { state: seed }
    }

    fn next(&mut self) -> u64 {
        self.state = self.state.wrapping_add(0x9e37_79b9_7f4a_7c15);
        let z = (self.state ^ (self.state >> 30)).wrapping_mul(0xbf58_476d_1ce4_e5b9);
        let z = (z ^ (z >> 27)).wrapping_mul(0x94d0_49bb_1331_11eb);
        z ^ (z >> 31)
    }

    /// One of `low` to `high`, both included.
    pub fn between(&mut self, low: i64, high: i64) -> i64 {
        low + (self.next() % (high - low + 1) as u64) as i64
    }

    pub fn sample(&mut self) -> i16 {
        self.next() as i16
    }

    /// A word of any size: uniform, near 0, an edge, or near a power of two.
    pub fn word(&mut self) -> i32 {
        match self.between(0, 3) {
            0 => self.next() as i32,
            1 => self.between(-40, 40) as i32,
            2 => EDGES[self.between(0, 15) as usize],
            _ => self.near_power(),
        }
    }

    fn near_power(&mut self) -> i32 {
        let power = 1 << self.between(0, 31);
        let sign = 2 * self.between(0, 1) - 1;
        (sign * power + self.between(-3, 3)) as i32
    }
}
