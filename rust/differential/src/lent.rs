//! A buffer to lend: its bytes lie between guards, at any alignment, so that a write beside them shows.

const GUARD: usize = 16;

#[derive(Clone, PartialEq, Eq, Debug)]
pub struct Lent {
    all: Vec<u8>,
    front: usize,
    length: usize,
}

/// The byte that stands at a place before anything is written there.
fn shade(seed: u64, at: usize) -> u8 {
    (seed ^ seed >> 16 ^ seed >> 40) as u8 ^ (at as u8).wrapping_mul(0x9D)
}

impl Lent {
    /// `length` bytes of a pattern that the seed gives.
    pub fn pattern(length: usize, seed: u64) -> Lent {
        let front = GUARD + (seed % 8) as usize;
        let all = (0..front + length + GUARD).map(|at| shade(seed, at)).collect();
        Lent { all, front, length }
    }

    pub fn holding(bytes: &[u8], seed: u64) -> Lent {
        let mut lent = Lent::pattern(bytes.len(), seed);
        lent.bytes_mut().copy_from_slice(bytes);
        lent
    }

    /// These bytes cut or continued with the pattern to `length`.
    pub fn resized(bytes: &[u8], length: usize, seed: u64) -> Lent {
        let mut lent = Lent::pattern(length, seed);
        let kept = bytes.len().min(length);
        lent.bytes_mut()[..kept].copy_from_slice(&bytes[..kept]);
        lent
    }

    pub fn bytes(&self) -> &[u8] {
        &self.all[self.front..][..self.length]
    }

    pub fn bytes_mut(&mut self) -> &mut [u8] {
        &mut self.all[self.front..][..self.length]
    }

    /// Everything that is compared, guards included.
    pub fn all_mut(&mut self) -> &mut [u8] {
        &mut self.all
    }

    /// The guards in brackets, the lent bytes between them.
    pub fn hex(&self) -> String {
        let end = self.front + self.length;
        format!("[{}] {} [{}]", hex(&self.all[..self.front]), hex(self.bytes()), hex(&self.all[end..]))
    }
}

pub fn hex(bytes: &[u8]) -> String {
    bytes.iter().map(|byte| format!("{byte:02x}")).collect()
}
