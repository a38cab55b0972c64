//! Numbers that look random and depend on the seed only.

pub struct Random {
    state: u64,
}

impl Random {
    pub fn new(seed: u64) -> Random {
        Random { state: seed }
    }

    /// The generator known as splitmix64.
    pub fn draw(&mut self) -> u64 {
        self.state = self.state.wrapping_add(0x9e37_79b9_7f4a_7c15);
        let mut z = self.state;
        z = (z ^ (z >> 30)).wrapping_mul(0xbf58_476d_1ce4_e5b9);
        z = (z ^ (z >> 27)).wrapping_mul(0x94d0_49bb_1331_11eb);
        z ^ (z >> 31)
    }

    /// A number from 0 up to but without `end`.
    pub fn below(&mut self, end: usize) -> usize {
        (self.draw() % end as u64) as usize
    }

    /// True once in `times`.
    pub fn once_in(&mut self, times: usize) -> bool {
        self.below(times) == 0
    }

    pub fn pick<T: Copy>(&mut self, choices: &[T]) -> T {
        choices[self.below(choices.len())]
    }

    /// A number of the range whose width in digits is random too, its ends more often than chance would have them.
    pub fn figure(&mut self, least: u32, most: u32) -> u32 {
        let edge = self.below(16);
        if edge < 4 {
            return [least, most, least.saturating_add(1), most.saturating_sub(1)][edge]
                .clamp(least, most);
        }
        let width = 1 + self.below(10) as u32;
        let power = 10u64.pow(width);
        // Figures beside a power of ten change in width when one is added.
        let value = if edge == 4 {
            power - self.draw() % 3
        } else {
            self.draw() % power
        };
        let span = u64::from(most) - u64::from(least) + 1;
        (u64::from(least) + value % span) as u32
    }
}
