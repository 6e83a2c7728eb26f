//! Plan P of document 01, its file and its first roll; the laser's plan and its file.
#![allow(dead_code)]

use wilatkhun::{Plan, Slot};

/// The roll: a request, then nine calm records.
pub const CALM: [u8; 4] = [0, 1, 1, 0];
pub const REQUEST: [u8; 4] = [1, 1, 1, 0];

pub fn plan_p() -> Plan {
    let mut plan = Plan { n: 2, w: 1, b: 1, q: 3, ..Plan::default() };
    plan.slots[0] = Slot { f: 1, e: 1, r: 7, x: 2, g: 1, s: 1 };
    plan.slots[1] = Slot { f: 1, e: 3, r: 2, x: 1, g: 0, s: 0 };
    plan
}

/// The laser settings of document 01, in tenths: G and S differ.
pub fn laser() -> Plan {
    let mut plan = Plan { n: 2, w: 30, b: 130, q: 50, ..Plan::default() };
    plan.slots[0] = Slot { f: 1, e: 30, r: 350, x: 60, g: 30, s: 15 };
    plan.slots[1] = Slot { f: 1, e: 100, r: 200, x: 15, g: 0, s: 0 };
    plan
}

pub fn but(change: impl Fn(&mut Plan)) -> Plan {
    let mut plan = plan_p();
    change(&mut plan);
    plan
}

pub fn first_roll() -> Vec<u8> {
    [&REQUEST[..], &CALM.repeat(9)].concat()
}

/// Plan P as a plan file without notes, by hand: N, W, B, Q; F, E, R, X, G, S of devices 1 and 2; the trailer.
#[rustfmt::skip]
pub const FILE_P: [u8; 42] = [
    2, 0, 1, 0, 1, 0, 3, 0,
    1, 0, 1, 0, 7, 0, 2, 0, 1, 0, 1, 0,
    1, 0, 3, 0, 2, 0, 1, 0, 0, 0, 0, 0,
    32, 0, 1, 0, 42, 0, 0, 0, 0x59, 0x50,
];

/// The laser's file, by hand. R1 is 350, 94 and 1 x 256.
#[rustfmt::skip]
pub const FILE_LASER: [u8; 42] = [
    2, 0, 30, 0, 130, 0, 50, 0,
    1, 0, 30, 0, 94, 1, 60, 0, 30, 0, 15, 0,
    1, 0, 100, 0, 200, 0, 15, 0, 0, 0, 0, 0,
    32, 0, 1, 0, 42, 0, 0, 0, 0x59, 0x50,
];

pub const FIRST_LISTING: &str = "tick sup d1 d2 down
1 L1 E Q Q1
2 L2 R E G2
3 L2 R E -
4 L2 R E -
5 L2 R R -
6 L2 R R -
7 L2 R X -
8 C1 X F C1
9 C1 X F -
10 F F F -
";
