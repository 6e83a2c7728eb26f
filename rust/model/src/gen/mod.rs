//! Cases from seeds: every case of a kind is a function of its seed alone, so that it can be made again.

mod accepted;
mod cases;
pub mod files;
pub mod plans;
pub mod rolls;
pub mod states;

pub use cases::{
    check_case, file_case, list_case, run_case, tick_case, watch_case, write_case, FileCase, ListCase, RunCase,
    TickCase, WatchCase, WriteCase,
};

/// A splitmix64 generator.
#[derive(Clone, Debug)]
pub struct Rng {
    state: u64,
}

impl Rng {
    pub fn new(seed: u64) -> Rng {
        Rng { state: seed }
    }

    pub fn draw(&mut self) -> u64 {
        self.state = self.state.wrapping_add(0x9E37_79B9_7F4A_7C15);
        let mut z = self.state;
        z = (z ^ (z >> 30)).wrapping_mul(0xBF58_476D_1CE4_E5B9);
        z = (z ^ (z >> 27)).wrapping_mul(0x94D0_49BB_1331_11EB);
        z ^ (z >> 31)
    }

    /// A number of 0..n; 0 for n = 0.
    pub fn below(&mut self, n: usize) -> usize {
        (self.draw() >> 16) as usize % n.max(1)
    }

    /// A number of low..=high; low when high is below it.
    pub fn within(&mut self, low: usize, high: usize) -> usize {
        low + self.below(high.saturating_sub(low) + 1)
    }

    /// True in `times` of `of` draws.
    pub fn chance(&mut self, times: usize, of: usize) -> bool {
        self.below(of) < times
    }

    pub fn pick<T: Copy>(&mut self, from: &[T]) -> T {
        from[self.below(from.len())]
    }

    pub fn byte(&mut self) -> u8 {
        (self.draw() >> 24) as u8
    }

    pub fn word(&mut self) -> u16 {
        (self.draw() >> 24) as u16
    }
}
