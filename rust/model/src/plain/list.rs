use super::step::Times;
use super::verdict_of;
use crate::types::{Base, Down, Place, Plan, Verdict, Yard};

/// Room that a line needs at most; none is begun with less.
const ROOM: usize = 64;

/// Text written by hand into lent bytes.
struct Text<'a> {
    out: &'a mut [u8],
    at: usize,
}

impl Text<'_> {
    fn put(&mut self, byte: u8) {
        self.out[self.at] = byte;
        self.at += 1;
    }

    fn puts(&mut self, bytes: &[u8]) {
        self.out[self.at..self.at + bytes.len()].copy_from_slice(bytes);
        self.at += bytes.len();
    }

    fn number(&mut self, mut n: u64) {
        let mut digits = [0; 20];
        let mut from = digits.len();
        loop {
            from -= 1;
            digits[from] = b'0' + (n % 10) as u8;
            n /= 10;
            if n == 0 {
                break;
            }
        }
        self.puts(&digits[from..]);
    }

    fn base(&mut self, base: Base) {
        let (kind, i) = match base {
            Base::FallBack => return self.puts(b" F"),
            Base::Lease(i) => (b'L', i),
            Base::Cancel(i) => (b'C', i),
            Base::Abort(i) => (b'A', i),
        };
        self.puts(&[b' ', kind, b'0' + i]);
    }

    fn down(&mut self, down: Down, lost: bool) {
        let (kind, i) = match down {
            Down::None => return self.puts(b" -\n"),
            Down::LeaseReq(i) => (b'Q', i),
            Down::Grant(i) => (b'G', i),
            Down::Cancel(i) => (b'C', i),
            Down::Abort(i) => (b'A', i),
        };
        self.puts(&[b' ', kind, b'0' + i]);
        if lost {
            self.put(b'!');
        }
        self.put(b'\n');
    }

    fn line(&mut self, number: u64, n: usize, yard: &Yard, down: Down, lost: bool) {
        self.number(number);
        self.base(yard.base);
        for device in &yard.devices[..n] {
            self.puts(&[b' ', letter_of(device.place)]);
        }
        self.down(down, lost);
    }
}

fn letter_of(place: Place) -> u8 {
    match place {
        Place::FallBack => b'F',
        Place::Requesting => b'Q',
        Place::Entering => b'E',
        Place::Running => b'R',
        Place::Exiting1 => b'X',
        Place::Exiting2 => b'Y',
    }
}

/// The header from `at` on; answers where it ends, `at` when there is no room for it or n is above 8.
pub fn header(n: u16, out: &mut [u8], at: usize) -> usize {
    if n > 8 || out.len() < at || out.len() - at < ROOM {
        return at;
    }
    let mut text = Text { out, at };
    text.puts(b"tick sup");
    for i in 1..=n as u8 {
        text.puts(&[b' ', b'd', b'0' + i]);
    }
    text.puts(b" down\n");
    text.at
}

/// As many ticks of the roll as have room, the yard moved in place; answers the ticks and the bytes of text.
pub fn list(plan: &Plan, yard: &mut Yard, roll: &[u8], first: u32, out: &mut [u8]) -> (Verdict, usize, usize) {
    let verdict = verdict_of(plan, yard, roll);
    if verdict.number != 0 {
        return (verdict, 0, 0);
    }
    let times = Times::of(plan);
    let mut text = Text { out, at: 0 };
    let mut ticks = 0;
    for r in roll.chunks_exact(4) {
        if text.out.len() - text.at < ROOM {
            break;
        }
        let (down, _) = times.step(yard, r[0], r[1], r[2], r[3]);
        ticks += 1;
        text.line(first as u64 + ticks as u64, times.n, yard, down, r[1] & 2 != 0);
    }
    (verdict, ticks, text.at)
}
