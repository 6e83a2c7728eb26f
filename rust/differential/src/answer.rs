//! Everything that a call answered: its numbers, and every byte of every buffer lent to it.

use crate::lent::Lent;
use model::gen::Rng;
use model::watch::Seen;

#[derive(Clone, PartialEq, Eq, Debug, Default)]
pub struct Answer {
    numbers: Vec<(&'static str, u64)>,
    lent: Vec<(&'static str, Lent)>,
    /// What the watch saw, and the first breach of a promise.
    pub seen: Option<Seen>,
    pub breach: Option<String>,
}

impl Answer {
    pub fn refusal(number: u8, index: usize) -> Answer {
        Answer::default().with("number", number as u64).with("index", index as u64)
    }

    pub fn with(mut self, name: &'static str, number: u64) -> Answer {
        self.numbers.push((name, number));
        self
    }

    pub fn lending(mut self, name: &'static str, lent: Lent) -> Answer {
        self.lent.push((name, lent));
        self
    }

    /// The number of this name; trials ask only for those that they have put in.
    pub fn number(&self, name: &str) -> usize {
        self.numbers.iter().find(|(is, _)| *is == name).map_or(usize::MAX, |(_, number)| *number as usize)
    }

    pub fn lent(&self, name: &str) -> &[u8] {
        self.lent.iter().find(|(is, _)| *is == name).map_or(&[], |(_, lent)| lent.bytes())
    }

    /// Flips one bit, which one by the seed: to show that a difference of a single bit is found.
    pub fn spoil(&mut self, seed: u64) {
        let numbers = 64 * self.numbers.len();
        let bytes: usize = self.lent.iter_mut().map(|(_, lent)| lent.all_mut().len()).sum();
        let mut at = Rng::new(seed).below(numbers + 8 * bytes);
        if at < numbers {
            self.numbers[at / 64].1 ^= 1 << (at % 64);
            return;
        }
        at -= numbers;
        for (_, lent) in &mut self.lent {
            let all = lent.all_mut();
            if at < 8 * all.len() {
                all[at / 8] ^= 1 << (at % 8);
                return;
            }
            at -= 8 * all.len();
        }
    }

    /// The answer in full, a line each.
    pub fn lines(&self) -> Vec<String> {
        let mut lines: Vec<String> = self.numbers.iter().map(|(name, number)| format!("{name} {number}")).collect();
        lines.extend(self.lent.iter().map(|(name, lent)| format!("{name} {}", lent.hex())));
        lines.extend(self.seen.iter().map(|seen| format!("{seen:?}")));
        lines.extend(self.breach.iter().map(|breach| format!("breach: {breach}")));
        lines
    }

    /// The names of what differs, for a short report.
    pub fn differing(&self, other: &Answer) -> Vec<String> {
        let numbers = self.numbers.iter().zip(&other.numbers).filter(|(a, b)| a != b).map(|(a, _)| a.0);
        let lent = self.lent.iter().zip(&other.lent).filter(|(a, b)| a != b).map(|(a, _)| a.0);
        let mut names: Vec<String> = numbers.chain(lent).map(str::to_string).collect();
        if self.seen != other.seen {
            names.push("what the watch saw".to_string());
        }
        names.extend(self.breach.iter().map(|breach| format!("breach of {breach}")));
        names
    }
}
